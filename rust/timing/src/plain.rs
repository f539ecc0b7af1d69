//! The pass as one would write it in Rust without much thought, a loop over columns for each record; and as a careful
//! engineer would, a mask for each row and the count of its ones. Both read the run twice, since a refused pass must write
//! nothing.

use crate::editions::{Data, Edition};
use desk::ffi::{PassAnswer, Tally};
use desk::NO_PLACE;

/// What a record says.
pub fn words<E: Edition>(record: &[u8]) -> (E::Data, u16) {
    let check = record[E::Data::BYTES..E::RECORD].try_into().expect("two bytes");
    (E::Data::read(record), u16::from_le_bytes(check))
}

/// What is in a record as read.
struct Reading<D> {
    verdict: u8,
    place: u8,
    data: D,
    check: u16,
    syndrome: u16,
}

/// Refusals 1 to 6 and 21.
pub fn judge(columns: &[u16], k: usize, r: usize) -> Result<(), (usize, usize)> {
    if k == 0 || k > columns.len() {
        return Err((1, 0));
    }
    if !(3..=16).contains(&r) {
        return Err((2, 0));
    }
    for (place, &column) in columns[..k].iter().enumerate() {
        if u32::from(column) >= 1 << r {
            return Err((3, place));
        }
        if column.count_ones() % 2 == 0 {
            return Err((4, place));
        }
        if column.count_ones() == 1 {
            return Err((5, place));
        }
        if columns[..place].contains(&column) {
            return Err((6, place));
        }
    }
    let leftover = columns[k..].iter().position(|&column| column != 0);
    leftover.map_or(Ok(()), |place| Err((21, k + place)))
}

/// What a pass is told beside its code and its buffers.
#[derive(Clone, Copy)]
pub struct Asked {
    pub start: usize,
    pub end: usize,
    pub used: usize,
    pub stamp: u32,
}

/// The refusals of a pass's own, but for the room that is left in the journal.
pub fn judge_run<E: Edition>(image: &[u8], journal: &[u8], asked: Asked) -> Result<(), (usize, usize)> {
    let Asked { start, end, used, stamp } = asked;
    if image.len() % E::RECORD != 0 || image.len() > E::IMAGE {
        return Err((12, 0));
    }
    if start > end || end > image.len() / E::RECORD {
        return Err((14, 0));
    }
    if used > journal.len() / E::ENTRY {
        return Err((17, 0));
    }
    let last = |used: usize| journal[E::ENTRY * (used - 1)..][..4].try_into().expect("four bytes");
    if used > 0 && stamp < u32::from_le_bytes(last(used)) {
        return Err((16, 0));
    }
    Ok(())
}

fn judged<E: Edition>(code: &E::Code, image: &[u8], journal: &[u8], asked: Asked) -> Result<(), (usize, usize)> {
    judge(E::columns(code), E::k(code), E::r(code))?;
    judge_run::<E>(image, journal, asked)
}

fn is_stray<D: Data>(k: usize, r: usize, data: D, check: u16) -> bool {
    (k < 8 * D::BYTES && data >> k != D::default()) || u32::from(check) >> r != 0
}

/// The reading of a record whose data have this syndrome, before the check bits are added.
fn read<E: Edition>(code: &E::Code, record: &[u8], syndrome_of: impl Fn(E::Data) -> u16) -> Reading<E::Data> {
    let (data, check) = words::<E>(record);
    if is_stray(E::k(code), E::r(code), data, check) {
        return Reading { verdict: 5, place: NO_PLACE, data, check, syndrome: 0 };
    }
    verdict_on::<E>(code, data, check, syndrome_of(data) ^ check)
}

/// The verdict on a syndrome, by a search through the columns.
fn verdict_on<E: Edition>(code: &E::Code, data: E::Data, check: u16, syndrome: u16) -> Reading<E::Data> {
    let as_read = |verdict: u8| Reading { verdict, place: NO_PLACE, data, check, syndrome };
    if syndrome == 0 {
        return as_read(0);
    }
    if let Some(place) = E::columns(code)[..E::k(code)].iter().position(|&column| column == syndrome) {
        return Reading { verdict: 1, place: place as u8, data: data ^ E::Data::ONE << place, check, syndrome };
    }
    if syndrome.count_ones() == 1 {
        let place = E::k(code) + syndrome.trailing_zeros() as usize;
        return Reading { verdict: 2, place: place as u8, data, check: check ^ syndrome, syndrome };
    }
    as_read(if syndrome.count_ones() % 2 == 0 { 3 } else { 4 })
}

/// The exclusive or of the columns of the bits that are set, by halves of 64 bits. By index, as it is written at once: of an
/// iterator over the columns this compiler makes code without branches at 64 bits, which is six times as fast.
#[allow(clippy::needless_range_loop)]
fn by_columns<D: Data>(columns: &[u16], data: D) -> u16 {
    let mut syndrome = 0;
    for (at, columns) in columns.chunks(64).enumerate() {
        let half = data.half(at);
        for place in 0..columns.len() {
            if half >> place & 1 == 1 {
                syndrome ^= columns[place];
            }
        }
    }
    syndrome
}

/// For each of the r rows the data bits whose column has it.
fn rows<D: Data>(columns: &[u16], r: usize) -> [D; 16] {
    let mut rows = [D::default(); 16];
    for (row, mask) in rows[..r].iter_mut().enumerate() {
        for (place, &column) in columns.iter().enumerate() {
            *mask = *mask ^ D::of(column >> row & 1) << place;
        }
    }
    rows
}

/// Each row is odd or even.
fn by_rows<D: Data>(rows: &[D], data: D) -> u16 {
    rows.iter().enumerate().map(|(row, &mask)| (((data & mask).ones() & 1) as u16) << row).sum()
}

pub fn count(tally: &mut Tally, verdict: u8) {
    match verdict {
        0 => tally.clean += 1,
        1 => tally.data += 1,
        2 => tally.check += 1,
        3 => tally.even += 1,
        4 => tally.odd += 1,
        _ => tally.stray += 1,
    }
}

/// Writes the entry and mends the record.
fn mend<E: Edition>(record: &mut [u8], number: usize, reading: &Reading<E::Data>, stamp: u32, entry: &mut [u8]) {
    entry[..4].copy_from_slice(&stamp.to_le_bytes());
    entry[4..6].copy_from_slice(&(number as u16).to_le_bytes());
    entry[6] = reading.verdict;
    entry[7] = reading.place;
    entry[8..10].copy_from_slice(&reading.syndrome.to_le_bytes());
    entry[10..10 + E::RECORD].copy_from_slice(record);
    reading.data.put(record);
    record[E::Data::BYTES..].copy_from_slice(&reading.check.to_le_bytes());
    entry[10 + E::RECORD..].copy_from_slice(record);
}

/// The answer of a pass that is done with so many entries in use and this tally, or refused.
pub fn answer(result: Result<(usize, Tally), (usize, usize)>) -> PassAnswer {
    match result {
        Ok((used, tally)) => PassAnswer { number: 0, told: 0, used, tally },
        Err((number, told)) => PassAnswer { number, told, ..PassAnswer::default() },
    }
}

/// Reads every record to count the entries, then reads it again to mend it.
fn two_walks<E: Edition>(
    code: &E::Code,
    image: &mut [u8],
    journal: &mut [u8],
    asked: Asked,
    syndrome_of: impl Fn(E::Data) -> u16,
) -> Result<(usize, Tally), (usize, usize)> {
    let Asked { start, end, used, stamp } = asked;
    let run = &mut image[E::RECORD * start..E::RECORD * end];
    let needed =
        run.chunks_exact(E::RECORD).filter(|record| read::<E>(code, record, &syndrome_of).verdict != 0).count();
    if journal.len() / E::ENTRY - used < needed {
        return Err((13, needed));
    }
    let mut tally = Tally::default();
    let mut entries = journal.chunks_exact_mut(E::ENTRY).skip(used);
    for (at, record) in run.chunks_exact_mut(E::RECORD).enumerate() {
        let reading = read::<E>(code, record, &syndrome_of);
        count(&mut tally, reading.verdict);
        if reading.verdict != 0 {
            mend::<E>(record, start + at, &reading, stamp, entries.next().expect("counted"));
        }
    }
    Ok((used + needed, tally))
}

/// A loop over the columns.
#[inline(never)]
pub fn columns<E: Edition>(
    code: &E::Code,
    image: &mut [u8],
    start: usize,
    end: usize,
    journal: &mut [u8],
    used: usize,
    stamp: u32,
) -> PassAnswer {
    let asked = Asked { start, end, used, stamp };
    let judged = judged::<E>(code, image, journal, asked);
    let columns = &E::columns(code)[..E::k(code).min(E::columns(code).len())];
    answer(judged.and_then(|()| two_walks::<E>(code, image, journal, asked, |data| by_columns(columns, data))))
}

/// Row masks and counts of ones.
#[inline(never)]
pub fn masks<E: Edition>(
    code: &E::Code,
    image: &mut [u8],
    start: usize,
    end: usize,
    journal: &mut [u8],
    used: usize,
    stamp: u32,
) -> PassAnswer {
    let asked = Asked { start, end, used, stamp };
    answer(judged::<E>(code, image, journal, asked).and_then(|()| {
        let masks = rows(&E::columns(code)[..E::k(code)], E::r(code));
        two_walks::<E>(code, image, journal, asked, |data| by_rows(&masks[..E::r(code)], data))
    }))
}
