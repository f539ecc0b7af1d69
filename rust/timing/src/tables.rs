//! The pass in Rust with the quick engine's own means: the code judged by guessed places, a table for each byte, a list of
//! the records that are not clean with their syndromes. Check bits are taken as they are, as Hsiao's codes allow.

use crate::editions::{Data, Edition};
use crate::plain::{answer, count, judge, judge_run, words, Asked};
use desk::ffi::{PassAnswer, Tally};
use desk::NO_PLACE;

/// For the low nine bits of a column its place.
type Guesses = [u8; 512];

fn guesses(columns: &[u16]) -> Guesses {
    let mut guesses = [NO_PLACE; 512];
    for (place, &column) in columns.iter().enumerate() {
        guesses[usize::from(column & 511)] = place as u8;
    }
    guesses
}

/// A code is one if each column finds itself, is odd, is no single one and has no row past r; else the plain judge speaks.
fn judge_by(guesses: &Guesses, columns: &[u16], k: usize, r: usize) -> Result<(), (usize, usize)> {
    if k == 0 || k > columns.len() || !(3..=16).contains(&r) {
        return judge(columns, k, r);
    }
    let mut wrong = 0;
    for (place, &column) in columns[..k].iter().enumerate() {
        let ones = column.count_ones();
        wrong |= usize::from(guesses[usize::from(column & 511)]) ^ place;
        wrong |= (u32::from(column) >> r) as usize | (ones & 1 ^ 1) as usize | usize::from(ones == 1);
    }
    for &column in &columns[k..] {
        wrong |= usize::from(column);
    }
    if wrong == 0 {
        return Ok(());
    }
    judge(columns, k, r)
}

/// For each byte of the data what each of its values adds to the syndrome.
fn tables<const BYTES: usize>(columns: &[u16]) -> [[u16; 256]; BYTES] {
    let mut tables = [[0; 256]; BYTES];
    for (byte, table) in tables.iter_mut().enumerate() {
        for bit in 0..8 {
            let column = columns.get(8 * byte + bit).copied().unwrap_or(0);
            let (low, high) = table.split_at_mut(1 << bit);
            high[..1 << bit].iter_mut().zip(low).for_each(|(value, &mut without)| *value = without ^ column);
        }
    }
    tables
}

fn place(columns: &[u16], guesses: &Guesses, syndrome: u16) -> Option<usize> {
    let guess = usize::from(guesses[usize::from(syndrome & 511)]);
    match columns.get(guess) {
        None => None,
        Some(&column) if column == syndrome => Some(guess),
        Some(_) => columns.iter().position(|&column| column == syndrome),
    }
}

#[inline(never)]
pub fn tabled<E: Edition, const BYTES: usize>(
    code: &E::Code,
    image: &mut [u8],
    start: usize,
    end: usize,
    journal: &mut [u8],
    used: usize,
    stamp: u32,
) -> PassAnswer {
    let asked = Asked { start, end, used, stamp };
    let (columns, k, r) = (E::columns(code), E::k(code), E::r(code));
    let guesses = guesses(&columns[..k.min(columns.len())]);
    let judged = judge_by(&guesses, columns, k, r).and_then(|()| judge_run::<E>(image, journal, asked));
    answer(judged.and_then(|()| {
        let code = Tabled { columns: &columns[..k], r, guesses: &guesses, tables: &tables::<BYTES>(&columns[..k]) };
        if end - start < 256 {
            return code.walks::<E>(image, journal, asked, &mut [0; 256]);
        }
        code.walks::<E>(image, journal, asked, &mut vec![0; end - start + 1])
    }))
}

struct Tabled<'a, const BYTES: usize> {
    columns: &'a [u16],
    r: usize,
    guesses: &'a Guesses,
    tables: &'a [[u16; 256]; BYTES],
}

impl<const BYTES: usize> Tabled<'_, BYTES> {
    /// The list has a place more than the run has records.
    fn walks<E: Edition>(
        &self,
        image: &mut [u8],
        journal: &mut [u8],
        asked: Asked,
        list: &mut [u32],
    ) -> Result<(usize, Tally), (usize, usize)> {
        let Asked { start, end, used, stamp } = asked;
        let k = self.columns.len();
        let stray = if k < 8 * BYTES { E::Data::ALL << k } else { E::Data::default() };
        let run = &mut image[E::RECORD * start..E::RECORD * end];
        let mut bad = 0;
        for (number, record) in run.chunks_exact(E::RECORD).enumerate() {
            let (data, check) = words::<E>(record);
            let bytes = record[..BYTES].iter();
            let syndrome = bytes.zip(self.tables).fold(check, |s, (&byte, table)| s ^ table[usize::from(byte)]);
            list[bad] = u32::from(syndrome) << 16 | number as u32;
            bad += usize::from((syndrome != 0) | (data & stray != E::Data::default()));
        }
        if journal.len() / E::ENTRY - used < bad {
            return Err((13, bad));
        }
        let mut tally = Tally { clean: (end - start - bad) as u16, ..Tally::default() };
        for (said, entry) in list[..bad].iter().zip(journal.chunks_exact_mut(E::ENTRY).skip(used)) {
            let number = (said & 0xffff) as usize;
            let record = &mut run[E::RECORD * number..E::RECORD * (number + 1)];
            let verdict = self.mend::<E>(stray, record, entry, (said >> 16) as u16);
            entry[..4].copy_from_slice(&stamp.to_le_bytes());
            entry[4..6].copy_from_slice(&((start + number) as u16).to_le_bytes());
            count(&mut tally, verdict);
        }
        Ok((used + bad, tally))
    }

    /// Mends the record and writes its entry, but for stamp and number.
    fn mend<E: Edition>(&self, stray: E::Data, record: &mut [u8], entry: &mut [u8], syndrome: u16) -> u8 {
        let none = E::Data::default();
        let (data, check) = words::<E>(record);
        let (mut verdict, mut at, mut flip, mut flip_check, mut told) = (5, NO_PLACE, none, 0, 0);
        if data & stray == none && u32::from(check) >> self.r == 0 {
            told = syndrome;
            verdict = if syndrome.count_ones() % 2 == 0 { 3 } else { 4 };
            if syndrome.count_ones() == 1 {
                let place = self.columns.len() as u8 + syndrome.trailing_zeros() as u8;
                (verdict, at, flip_check) = (2, place, syndrome);
            } else if let Some(place) = place(self.columns, self.guesses, syndrome) {
                (verdict, at, flip) = (1, place as u8, E::Data::ONE << place);
            }
        }
        let put = |data: E::Data, check: u16, bytes: &mut [u8]| {
            data.put(bytes);
            bytes[E::Data::BYTES..E::RECORD].copy_from_slice(&check.to_le_bytes());
        };
        entry[6] = verdict;
        entry[7] = at;
        entry[8..10].copy_from_slice(&told.to_le_bytes());
        put(data, check, &mut entry[10..10 + E::RECORD]);
        put(data ^ flip, check ^ flip_check, &mut entry[10 + E::RECORD..]);
        put(data ^ flip, check ^ flip_check, record);
        verdict
    }
}
