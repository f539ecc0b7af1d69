//! The pass over a run of an image: every record is read first, then all that changes is written.

use crate::answers::{Passed, Refusal};
use crate::code::{switches, Coded};
use crate::word::{number, Accepted, NO_PLACE};

/// What a pass is told: its run, from the record `start` up to `end`, which is not counted; how many entries of the journal
/// are in use; and its stamp.
#[derive(Clone, Copy, PartialEq, Eq, Debug, Default)]
pub struct Pass {
    pub start: usize,
    pub end: usize,
    pub used: usize,
    pub stamp: u32,
}

/// One record of the run: its number from the image's start, what it reads as, its syndrome (0 where it is stray), its
/// bytes before and after.
pub(crate) struct Seen {
    pub record: usize,
    pub verdict: usize,
    place: usize,
    syndrome: u128,
    before: Vec<u8>,
    pub after: Vec<u8>,
}

impl Seen {
    pub fn entry(&self, stamp: u32) -> Vec<u8> {
        let (stamp, record) = (in_bytes(&switches(stamp.into(), 32)), in_bytes(&switches(self.record as u128, 16)));
        let (reading, syndrome) = ([self.verdict as u8, self.place as u8], in_bytes(&switches(self.syndrome, 16)));
        [&stamp, &record, &reading[..], &syndrome, &self.before, &self.after].concat()
    }
}

/// Switches, the lowest first, as bytes.
fn in_bytes(row: &[bool]) -> Vec<u8> {
    row.chunks(8).map(|byte| number(byte) as u8).collect()
}

/// Reads one record of the image.
pub(crate) fn see(code: &Accepted, record: usize, bytes: &[u8]) -> Seen {
    let mut all: Vec<bool> = bytes.iter().flat_map(|&byte| switches(byte.into(), 8)).collect();
    let ((verdict, place), syndrome) = match code.word(&all[..code.places], &all[code.places..]) {
        Ok(word) => (code.verdict(&word), number(&code.syndrome(&word))),
        Err(_) => ((5, NO_PLACE), 0),
    };
    if place != NO_PLACE {
        let bit = if place < code.k { place } else { code.places + place - code.k };
        all[bit] = !all[bit];
    }
    Seen { record, verdict, place, syndrome, before: bytes.to_vec(), after: in_bytes(&all) }
}

/// The tally after one more word: a full count stays, and so does all when there is no such verdict.
pub fn counted(tally: [usize; 6], verdict: usize) -> [usize; 6] {
    let mut tally = tally;
    if let Some(count) = tally.get_mut(verdict) {
        *count = (*count + 1).min(65_535);
    }
    tally
}

/// The stamp of an entry: its first four bytes, the low one first.
pub fn stamp_of(entry: &[u8]) -> u32 {
    let bits: Vec<bool> = entry[..4].iter().flat_map(|&byte| switches(byte.into(), 8)).collect();
    number(&bits) as u32
}

/// Mends the records of the run, and writes an entry for each that is not clean behind those in use.
pub fn pass<C: Coded>(code: &C, image: &mut [u8], journal: &mut [u8], asked: &Pass) -> Passed {
    try_pass(code, image, journal, asked).unwrap_or_else(Passed::from)
}

fn try_pass<C: Coded>(code: &C, image: &mut [u8], journal: &mut [u8], asked: &Pass) -> Result<Passed, Refusal> {
    let Pass { start, end, used, stamp } = *asked;
    let code = Accepted::new(code)?;
    if image.len() % C::RECORD != 0 || image.len() > C::IMAGE {
        return Err(Refusal::plain(12));
    }
    if start > end || end > image.len() / C::RECORD {
        return Err(Refusal::plain(14));
    }
    let mut entries: Vec<&mut [u8]> = journal.chunks_exact_mut(C::ENTRY).collect();
    if used > entries.len() {
        return Err(Refusal::plain(17));
    }
    let left = entries.split_off(used);
    if entries.last().map_or(false, |last| stamp < stamp_of(last)) {
        return Err(Refusal::plain(16));
    }
    let bytes_of = |record: usize| C::RECORD * record..C::RECORD * (record + 1);
    let seen: Vec<Seen> = (start..end).map(|record| see(&code, record, &image[bytes_of(record)])).collect();
    let noted: Vec<&Seen> = seen.iter().filter(|one| one.verdict != 0).collect();
    if left.len() < noted.len() {
        return Err(Refusal { number: 13, told: noted.len() });
    }
    for (one, room) in noted.iter().zip(left) {
        room.copy_from_slice(&one.entry(stamp));
        image[bytes_of(one.record)].copy_from_slice(&one.after);
    }
    let mut tally = [0; 6];
    for (verdict, count) in tally.iter_mut().enumerate() {
        *count = seen.iter().filter(|one| one.verdict == verdict).count();
    }
    Ok(Passed { used: used + noted.len(), tally, ..Passed::default() })
}
