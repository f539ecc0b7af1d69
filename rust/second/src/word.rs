//! Words as n switches, and their writing and reading by flips.

use crate::answers::{Reading, Refusal, Written};
use crate::code::{switches, Coded, Data};

/// The place that is handed back where none is meant.
pub const NO_PLACE: usize = 255;

/// An accepted code, laid out for writing.
pub struct Accepted {
    /// How many data bits the code's edition has room for.
    pub places: usize,
    pub k: usize,
    pub r: usize,
    /// For each row: the data places, and the check places, whose column has it.
    feeders: Vec<Vec<usize>>,
    checks: Vec<Vec<usize>>,
    /// For each row: whether it counts where a syndrome is even or odd.
    counts: Vec<bool>,
}

impl Accepted {
    pub fn new<C: Coded>(code: &C) -> Result<Accepted, Refusal> {
        let columns = code.accepted()?;
        let (k, r) = (code.k(), code.r());
        let fed = |row: usize, from: usize, to: usize| (from..to).filter(|&place| columns[place][row]).collect();
        Ok(Accepted {
            places: C::PLACES,
            k,
            r,
            feeders: (0..r).map(|row| fed(row, 0, k)).collect(),
            checks: (0..r).map(|row| fed(row, k, k + r)).collect(),
            counts: (0..r).map(|row| code.counts(row)).collect(),
        })
    }

    /// How many places a word has.
    pub fn n(&self) -> usize {
        self.k + self.r
    }

    /// The exclusive or of the data bits that feed row `j`: are an odd number of them on?
    fn written_bit(&self, word: &[bool], j: usize) -> bool {
        self.feeders[j].iter().filter(|&&place| word[place]).count() % 2 == 1
    }

    /// Whether the check places of a row that are on are an odd number.
    fn checks_odd(&self, word: &[bool], row: usize) -> bool {
        self.checks[row].iter().filter(|&&place| word[place]).count() % 2 == 1
    }

    /// Whether the places of a row that are on, data and check bits, are an odd number.
    fn is_odd(&self, word: &[bool], row: usize) -> bool {
        self.written_bit(word, row) != self.checks_odd(word, row)
    }

    /// Does each check bit stand in a row of its own, and in no other?
    fn has_single_ones(&self) -> bool {
        self.checks.iter().enumerate().all(|(row, places)| places[..] == [self.k + row])
    }

    /// Sets the check places to what writing the data places gives: where check bits share rows, by trying them all.
    pub fn write(&self, word: &mut [bool]) {
        if self.has_single_ones() {
            for j in 0..self.r {
                word[self.k + j] = self.written_bit(word, j);
            }
            return;
        }
        // The data places stay, so they are counted once.
        let written: Vec<bool> = (0..self.r).map(|row| self.written_bit(word, row)).collect();
        word[self.k..].fill(false);
        while (0..self.r).any(|row| written[row] != self.checks_odd(word, row)) {
            // The next check bits, counting up; behind the last come the first again.
            for place in self.k..self.n() {
                word[place] = !word[place];
                if word[place] {
                    break;
                }
            }
            assert!(word[self.k..].contains(&true), "an accepted code has check bits for every word");
        }
    }

    /// Does no row count an odd number of places that are on?
    pub fn is_clean(&self, word: &[bool]) -> bool {
        (0..self.r).all(|row| !self.is_odd(word, row))
    }

    /// Verdict and place of a word as read.
    pub fn verdict(&self, word: &[bool]) -> (usize, usize) {
        if self.is_clean(word) {
            return (0, NO_PLACE);
        }
        let mut tried = word.to_vec();
        for place in 0..self.n() {
            tried[place] = !tried[place];
            if self.is_clean(&tried) {
                return (if place < self.k { 1 } else { 2 }, place);
            }
            tried[place] = !tried[place];
        }
        // Even and odd are the table's own words: how many rows that count are odd.
        let odd = (0..self.r).filter(|&row| self.counts[row] && self.is_odd(word, row)).count();
        (if odd % 2 == 0 { 3 } else { 4 }, NO_PLACE)
    }

    /// The syndrome: which rows are odd. With single ones these are the check bits that are not the written ones.
    pub fn syndrome(&self, word: &[bool]) -> Vec<bool> {
        (0..self.r).map(|row| self.is_odd(word, row)).collect()
    }

    /// The word of all data switches of an edition and 16 check switches, unless one of them is stray.
    pub fn word(&self, data: &[bool], check: &[bool]) -> Result<Vec<bool>, Refusal> {
        if data[self.k..].contains(&true) || check[self.r..].contains(&true) {
            return Err(Refusal::plain(7));
        }
        Ok([&data[..self.k], &check[..self.r]].concat())
    }
}

/// The number whose bits these switches are, the lowest first.
pub fn number(row: &[bool]) -> u128 {
    row.iter().rev().fold(0, |number, &on| 2 * number + u128::from(on))
}

/// The word that holds these data and check bits.
pub fn word_of(code: &Accepted, data: u128, check: u16) -> Result<Vec<bool>, Refusal> {
    code.word(&switches(data, code.places), &switches(check.into(), 16))
}

/// Which check bits go with the data?
pub fn write<C: Coded>(code: &C, data: C::Data) -> Written {
    try_write(code, data.into()).unwrap_or_else(Written::from)
}

fn try_write<C: Coded>(code: &C, data: u128) -> Result<Written, Refusal> {
    let check = check_bits(&Accepted::new(code)?, data)?;
    Ok(Written { check, ..Written::default() })
}

/// The check bits that writing the data gives.
pub fn check_bits(code: &Accepted, data: u128) -> Result<u16, Refusal> {
    let mut word = word_of(code, data, 0)?;
    code.write(&mut word);
    Ok(number(&word[code.k..]) as u16)
}

/// What is in the word as read?
pub fn read<C: Coded>(code: &C, data: C::Data, check: u16) -> Reading<C::Data> {
    try_read(code, data.into(), check).unwrap_or_else(Reading::from)
}

fn try_read<C: Coded>(code: &C, data: u128, check: u16) -> Result<Reading<C::Data>, Refusal> {
    let code = Accepted::new(code)?;
    let mut word = word_of(&code, data, check)?;
    let (verdict, place) = code.verdict(&word);
    let syndrome = number(&code.syndrome(&word)) as u16;
    if place != NO_PLACE {
        word[place] = !word[place];
    }
    let (data, check) = (number(&word[..code.k]), number(&word[code.k..]) as u16);
    Ok(Reading { verdict, place, data: C::Data::of(data), check, syndrome, ..Reading::default() })
}
