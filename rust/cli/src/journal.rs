//! Journals: their entries in words, and how an image stands to its journal.

use crate::answers::{cannot, counted, when, Answer, No, Said};
use crate::code_file::Edition;
use crate::files;
use crate::progress::Progress;
use desk::Verdict;
use serde_json::{json, Value};
use std::collections::{HashMap, HashSet};
use std::fmt::Write;
use std::path::Path;

/// One entry; the verdict is the plain byte, whatever it is. The place is told from the bytes.
#[derive(Clone, Copy)]
pub struct Entry<'a> {
    pub stamp: u32,
    pub record: usize,
    pub verdict: u8,
    pub syndrome: u16,
    pub before: &'a [u8],
    pub after: &'a [u8],
}

/// The entries of a journal.
pub fn entries(journal: &[u8], edition: Edition) -> Vec<Entry<'_>> {
    journal.chunks_exact(edition.entry()).map(|bytes| entry(bytes, edition)).collect()
}

fn entry(bytes: &[u8], edition: Edition) -> Entry<'_> {
    let number = |from: usize, to: usize| bytes[from..to].iter().rev().fold(0, |sum, &byte| sum << 8 | u32::from(byte));
    let (before, after) = bytes[10..].split_at(edition.record());
    Entry {
        stamp: number(0, 4),
        record: number(4, 6) as usize,
        verdict: bytes[6],
        syndrome: number(8, 10) as u16,
        before,
        after,
    }
}

impl Entry<'_> {
    /// The places that were turned, as people say them, and what each is now. They are taken from the bytes, so that no
    /// code is needed.
    pub fn turned(&self) -> Vec<(String, u8)> {
        let data = 8 * (self.before.len() - 2);
        let bit = |bytes: &[u8], i: usize| bytes[i / 8] >> (i % 8) & 1;
        let is_turned = |&i: &usize| bit(self.before, i) != bit(self.after, i);
        let name = |i: usize| if i < data { format!("data bit {}", i) } else { format!("check bit {}", i - data) };
        (0..8 * self.before.len()).filter(is_turned).map(|i| (name(i), bit(self.after, i))).collect()
    }

    /// What was found, in words.
    pub fn found(&self) -> &'static str {
        Verdict::of(self.verdict.into()).map_or("a verdict that the desk does not have", found)
    }

    /// What was done about it, in words.
    pub fn done(&self) -> String {
        let turned: Vec<String> =
            self.turned().iter().map(|(name, now)| format!("{} turned from {} to {}", name, 1 - now, now)).collect();
        if turned.is_empty() {
            "left as read".to_string()
        } else {
            turned.join(", ")
        }
    }

    pub fn json(&self, number: usize) -> Value {
        let turned: Vec<String> = self.turned().into_iter().map(|(name, _)| name).collect();
        json!({ "entry": number, "stamp": self.stamp, "time": when(self.stamp), "record": self.record, "verdict": self.verdict,
            "found": self.found(), "turned": turned, "syndrome": self.syndrome, "before": hex(self.before), "after": hex(self.after) })
    }

    fn text(&self, number: usize) -> String {
        let mut text =
            format!("entry {}: record {}, {}, stamp {}\n", number, self.record, when(self.stamp), self.stamp);
        let _ = writeln!(text, "  found   {} (verdict {}, syndrome {:X})", self.found(), self.verdict, self.syndrome);
        let _ = writeln!(text, "  done    {}", self.done());
        let _ = writeln!(text, "  before  {}\n  after   {}", spaced(self.before), spaced(self.after));
        let marks = marks(self.before, self.after);
        if !marks.is_empty() {
            let _ = writeln!(text, "          {}", marks);
        }
        text
    }
}

/// A verdict in words.
pub fn found(verdict: Verdict) -> &'static str {
    match verdict {
        Verdict::Clean => "nothing wrong",
        Verdict::Data => "one data bit flipped",
        Verdict::Check => "one check bit flipped",
        Verdict::Even => "two flips, or another even count",
        Verdict::Odd => "three flips, or a larger odd count",
        Verdict::Stray => "a bit set that the code has no place for",
    }
}

pub fn hex(bytes: &[u8]) -> String {
    bytes.iter().map(|byte| format!("{:02X}", byte)).collect()
}

/// Data bytes and check bytes, apart.
pub fn spaced(bytes: &[u8]) -> String {
    let (data, check) = bytes.split_at(bytes.len() - 2);
    let part = |bytes: &[u8]| bytes.iter().map(|byte| format!("{:02X}", byte)).collect::<Vec<_>>().join(" ");
    format!("{}  {}", part(data), part(check))
}

/// A mark under every hexadecimal digit that differs.
fn marks(before: &[u8], after: &[u8]) -> String {
    let (before, after) = (spaced(before), spaced(after));
    let mark = |(one, other): (char, char)| if one == other { ' ' } else { '^' };
    let line: String = before.chars().zip(after.chars()).map(mark).collect();
    line.trim_end().to_string()
}

/// A journal's bytes, which must be whole entries; empty where the file is not there and need not be.
pub fn load(path: &Path, edition: Edition, may_miss: bool) -> Answer<Vec<u8>> {
    if may_miss && !path.exists() && path.symlink_metadata().is_err() {
        return Ok(Vec::new());
    }
    let journal = files::read(path, files::LONGEST)?;
    let over = journal.len() % edition.entry();
    if over == 0 {
        return Ok(journal);
    }
    let other = edition.other();
    let hint = if journal.len() % other.entry() == 0 {
        format!(" It is one of edition {}.", other.number())
    } else {
        " Its end is missing, or it is no journal.".to_string()
    };
    Err(No::Files(format!(
        "{} is no journal of edition {}: an entry has {} bytes, and after {} there are {} bytes over.{} Nothing was changed",
        path.display(),
        edition.number(),
        edition.entry(),
        counted(journal.len() / edition.entry(), "whole entry"),
        over,
        hint
    )))
}

/// `desk journal`: every entry in words, or all of them in JSON.
pub fn tell(path: &Path, edition: Edition, in_json: bool) -> Answer<Said> {
    let journal = load(path, edition, false)?;
    let entries = entries(&journal, edition);
    let progress = Progress::new(entries.len());
    let mut said = Said::default();
    let mut list = Vec::new();
    for (number, entry) in entries.iter().enumerate() {
        progress.at(number);
        if in_json {
            list.push(entry.json(number));
        } else {
            said.text += &entry.text(number);
        }
    }
    said.text += &format!("{}\n", counted(entries.len(), "entry"));
    said.json = json!({ "edition": edition.number(), "used": entries.len(), "entries": list });
    Ok(said)
}

/// How an image stands to its journal.
pub enum Standing {
    /// The image is what the journal leaves.
    Level,
    /// The image is what the first so many entries leave: the journal is ahead.
    Behind(usize),
    /// This record holds what no place of the journal says.
    Changed(usize),
    /// This entry found its record with other bytes than the entry before it had left.
    Broken(usize),
}

/// The first entry that found its record with other bytes than the entry before it had left.
fn broken(entries: &[Entry]) -> Option<usize> {
    let mut last: HashMap<usize, &[u8]> = HashMap::new();
    entries.iter().position(|entry| last.insert(entry.record, entry.after).map_or(false, |left| left != entry.before))
}

/// Finds the greatest count of entries, from the first on, that leaves the image as it is.
pub fn standing(image: &[u8], entries: &[Entry], edition: Edition) -> Standing {
    if let Some(number) = broken(entries) {
        return Standing::Broken(number);
    }
    let record = |number: usize| image.chunks_exact(edition.record()).nth(number);
    let last: HashMap<usize, &[u8]> = entries.iter().map(|entry| (entry.record, entry.after)).collect();
    let mut wrong: Vec<usize> =
        last.iter().filter(|(&number, &left)| record(number) != Some(left)).map(|(&number, _)| number).collect();
    wrong.sort_unstable();
    let first = match wrong.first() {
        Some(&first) => first,
        None => return Standing::Level,
    };
    let mut wrong: HashSet<usize> = wrong.into_iter().collect();
    // Backwards: `wrong` has the records that differ from what the entries before `count` leave; where it is empty, the image
    // stands there.
    for (count, entry) in entries.iter().enumerate().rev() {
        if record(entry.record) == Some(entry.before) {
            wrong.remove(&entry.record);
        } else {
            wrong.insert(entry.record);
        }
        if wrong.is_empty() {
            return Standing::Behind(count);
        }
    }
    Standing::Changed(first)
}

/// The image that all entries leave.
pub fn left(image: &[u8], entries: &[Entry], edition: Edition) -> Vec<u8> {
    let mut image = image.to_vec();
    for entry in entries {
        if let Some(record) = image.chunks_exact_mut(edition.record()).nth(entry.record) {
            record.copy_from_slice(entry.after);
        }
    }
    image
}

/// The sentence on an image that is neither level with its journal nor behind it.
pub fn apart(standing: &Standing, image: &Path, journal: &Path) -> No {
    let why = match standing {
        Standing::Broken(entry) => format!(
            "entry {} found its record with other bytes than an earlier entry had left. The journal is of two images, or was changed",
            entry
        ),
        Standing::Changed(record) => format!(
            "record {} holds bytes that no entry left. The image was changed under the journal, or is another one",
            record
        ),
        _ => "they do not go together".to_string(),
    };
    cannot("used", format!("{} with {}", image.display(), journal.display()), format!("{}. Nothing was changed", why))
}
