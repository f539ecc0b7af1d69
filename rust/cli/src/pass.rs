//! `desk pass` and `desk put-back`.
//!
//! A pass writes drafts of journal and image beside them and syncs both, then puts the journal in its place, then the
//! image. So a full disk changes neither, and a stop between the two leaves the journal ahead: `--resume` then brings the
//! image to what the entries say.

use crate::answers::{cannot, counted, grouped, when, Answer, No, Said};
use crate::args::{Pass, PutBack};
use crate::code_file::{self, AnyCode, Edition};
use crate::files::{self, Draft, Lock};
use crate::journal::{self, Entry, Standing};
use desk::{Passed, Refusal, Tally, Verdict};
use serde_json::{json, Value};
use std::fmt::Write;
use std::ops::Range;
use std::path::{Path, PathBuf};

/// An image's bytes, whole records of an edition. A file that is too long is not read.
pub fn load_image(path: &Path, edition: Edition) -> Answer<Vec<u8>> {
    let about = std::fs::metadata(path).map_err(|error| cannot("read", path.display(), error))?;
    let length = about.len();
    if about.is_file() && (length > edition.longest() as u64 || length % edition.record() as u64 != 0) {
        let other = edition.other();
        let fits = length <= other.longest() as u64 && length % other.record() as u64 == 0;
        let hint = if fits { format!(": it fits edition {}", other.number()) } else { String::new() };
        let place = format!("{}, {} bytes, edition {}{}", path.display(), length, edition.number(), hint);
        return Err(No::Refused(Refusal::ImageLength, Some(place)));
    }
    files::read(path, edition.longest() as u64)
}

/// Image and journal, locked; neither is the other or the code.
struct Pair {
    image: PathBuf,
    journal: PathBuf,
    _locks: [Lock; 2],
}

impl Pair {
    fn lock(asked: &Pass) -> Answer<Pair> {
        let (code, image, journal) =
            (files::real(&asked.code)?, files::real(&asked.image)?, files::real(&asked.journal)?);
        if image == journal || code == image || code == journal {
            return Err(No::Use("code, image and journal are three files, and one of them is named twice".into()));
        }
        if !image.exists() {
            return Err(No::Files(format!("{} is not there", image.display())));
        }
        let locks = [Lock::take(&image)?, Lock::take(&journal)?];
        Ok(Pair { image, journal, _locks: locks })
    }
}

/// `desk pass`.
pub fn pass(asked: &Pass, in_json: bool) -> Answer<Said> {
    let code = code_file::load(&asked.code)?;
    let edition = code.edition();
    let pair = Pair::lock(asked)?;
    let image = load_image(&pair.image, edition)?;
    let journal = journal::load(&pair.journal, edition, true)?;
    let entries = journal::entries(&journal, edition);
    match (journal::standing(&image, &entries, edition), asked.resume) {
        (Standing::Level, false) => run(asked, &code, &pair, image, &journal).map(|done| done.said(in_json)),
        (Standing::Level, true) => {
            let text = format!(
                "The image is what the {} of the journal say: nothing to do.\n",
                counted(entries.len(), "entry")
            );
            Ok(Said { text, json: json!({ "resumed": 0, "used": entries.len() }), notes: Vec::new() })
        }
        (Standing::Behind(count), false) => Err(ahead(&asked.image, entries.len() - count)),
        (Standing::Behind(count), true) => resume(&pair, &image, &entries, count, edition),
        (standing, _) => Err(journal::apart(&standing, &asked.image, &asked.journal)),
    }
}

/// The sentence on a journal that is ahead of its image.
pub fn ahead(image: &Path, by: usize) -> No {
    No::Files(format!(
        "the journal is ahead of {} by {}: a pass was stopped after it had written them. \
         Nothing is lost: the same command with --resume brings the image to what the journal says",
        image.display(),
        counted(by, "entry")
    ))
}

fn run(asked: &Pass, code: &AnyCode, pair: &Pair, mut image: Vec<u8>, journal: &[u8]) -> Answer<Done> {
    let edition = code.edition();
    let (records, used) = (image.len() / edition.record(), journal.len() / edition.entry());
    let run = asked.run.clone().unwrap_or(0..records);
    let as_read = image.clone();
    let mut journal = journal.to_vec();
    let stamp = asked.stamp()?;
    let passed = passed(code, &mut image, run.clone(), &mut journal, used, stamp).map_err(|refusal| match refusal {
        Refusal::Run => {
            No::Refused(refusal, Some(format!("{}..{} of {}", run.start, run.end, counted(records, "record"))))
        }
        Refusal::Stamp => {
            No::Refused(refusal, Some(format!("stamp {}, last entry {}", stamp, last(&journal, edition))))
        }
        other => No::from(other),
    })?;
    if passed.used > used || !pair.journal.exists() {
        let draft = Draft::new(&pair.journal, &journal)?;
        let image_draft = if image == as_read { None } else { Some(Draft::new(&pair.image, &image)?) };
        draft.put()?;
        if let Some(draft) = image_draft {
            draft.put().map_err(|no| {
                No::Files(format!("{} The journal has the pass already: --resume finishes it", no.sentence()))
            })?;
        }
    }
    Ok(Done { edition, journal, used, tally: passed.tally, run, records, stamp })
}

fn last(journal: &[u8], edition: Edition) -> u32 {
    journal::entries(journal, edition).last().map_or(0, |entry| entry.stamp)
}

/// A pass in a journal that grows by as many entries as it needs.
pub fn passed(
    code: &AnyCode,
    image: &mut [u8],
    run: Range<usize>,
    journal: &mut Vec<u8>,
    used: usize,
    stamp: u32,
) -> Result<Passed, Refusal> {
    match code.pass(image, run.clone(), journal, used, stamp) {
        Err(Refusal::JournalRoom { needed }) => {
            journal.resize((used + needed) * code.edition().entry(), 0);
            code.pass(image, run, journal, used, stamp)
        }
        other => other,
    }
}

/// A done pass: its journal, of whose entries `used` were there before.
struct Done {
    edition: Edition,
    journal: Vec<u8>,
    used: usize,
    tally: Tally,
    run: Range<usize>,
    records: usize,
    stamp: u32,
}

impl Done {
    /// Entries and tally, in words or in JSON.
    fn said(&self, in_json: bool) -> Said {
        let entries = journal::entries(&self.journal, self.edition);
        if in_json {
            let list = entries.iter().enumerate().skip(self.used).map(|(number, entry)| entry.json(number));
            let json = json!({ "run": [self.run.start, self.run.end], "records": self.records, "stamp": self.stamp,
                "used": entries.len(), "tally": tally_json(self.tally), "entries": list.collect::<Vec<Value>>() });
            return Said { json, ..Said::default() };
        }
        let mut text = String::new();
        for entry in &entries[self.used..] {
            let _ = writeln!(text, "record {}: {}; {}", entry.record, entry.found(), entry.done());
        }
        let Done { run, records, stamp, .. } = self;
        let _ = writeln!(text, "pass over records {:?} of {}, {}, stamp {}", run, records, when(*stamp), stamp);
        for verdict in Verdict::ALL {
            let _ = writeln!(text, "  {:<6} {:>5}  {}", name(verdict), self.tally.count(verdict), meaning(verdict));
        }
        let new = counted(entries.len() - self.used, "entry");
        let _ = writeln!(text, "{} written to the journal, {} in use", new, grouped(entries.len()));
        Said { text, ..Said::default() }
    }
}

/// A verdict's name in the tally.
pub fn name(verdict: Verdict) -> &'static str {
    match verdict {
        Verdict::Clean => "clean",
        Verdict::Data => "data",
        Verdict::Check => "check",
        Verdict::Even => "even",
        Verdict::Odd => "odd",
        Verdict::Stray => "stray",
    }
}

/// What became of a record with this verdict.
pub fn meaning(verdict: Verdict) -> &'static str {
    match verdict {
        Verdict::Clean => "nothing wrong",
        Verdict::Data => "one data bit flipped, mended",
        Verdict::Check => "one check bit flipped, mended",
        Verdict::Even => "two flips or another even count, left as read",
        Verdict::Odd => "three flips or a larger odd count, left as read",
        Verdict::Stray => "a bit that the code has no place for, left as read",
    }
}

pub fn tally_json(tally: Tally) -> Value {
    Verdict::ALL.iter().map(|&verdict| (name(verdict).to_string(), json!(tally.count(verdict)))).collect()
}

/// Brings the image to what the journal says.
fn resume(pair: &Pair, image: &[u8], entries: &[Entry], count: usize, edition: Edition) -> Answer<Said> {
    let image = journal::left(image, &entries[count..], edition);
    Draft::new(&pair.image, &image)?.put()?;
    let done = entries.len() - count;
    let text = format!("The image was behind by {} and is now what the journal says.\n", counted(done, "entry"));
    Ok(Said { text, json: json!({ "resumed": done, "used": entries.len() }), notes: Vec::new() })
}

/// `desk put-back`: the image as it was read, into another file.
pub fn put_back(asked: &PutBack) -> Answer<Said> {
    let edition = asked.edition.0;
    files::in_use(&files::real(&asked.image)?)?;
    let mut image = load_image(&asked.image, edition)?;
    let journal = journal::load(&asked.journal, edition, false)?;
    let entries = journal::entries(&journal, edition);
    let mut notes = Vec::new();
    let used = match journal::standing(&image, &entries, edition) {
        Standing::Behind(count) => {
            notes.push(format!(
                "the journal is ahead of the image by {}, which are left out",
                counted(entries.len() - count, "entry")
            ));
            count
        }
        _ => entries.len(),
    };
    let count = edition.put_back(&mut image, &journal, used).map_err(|refusal| match refusal {
        Refusal::Mismatch { count } => mismatch(refusal, used - 1 - count.min(used - 1), &entries),
        other => No::from(other),
    })?;
    files::write_new(&asked.out.out, &image, asked.out.replace, &[&asked.image, &asked.journal])?;
    let text =
        format!("{} put back: {} is the image as it was read.\n", counted(count, "entry"), asked.out.out.display());
    Ok(Said { text, json: json!({ "put_back": count, "out": asked.out.out.display().to_string() }), notes })
}

fn mismatch(refusal: Refusal, entry: usize, entries: &[Entry]) -> No {
    No::Refused(refusal, Some(format!("entry {}, of record {}; nothing was written", entry, entries[entry].record)))
}
