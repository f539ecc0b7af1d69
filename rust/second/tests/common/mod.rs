//! Short forms for the tests.
#![allow(dead_code)]

use second::{CardsChecked, Code, Explained, Judged, Pass, Passed, Reading, Written};

pub const NONE: usize = 255;

/// A record of these data and check bits.
pub fn record(data: u64, check: u16) -> Vec<u8> {
    [&data.to_le_bytes()[..], &check.to_le_bytes()].concat()
}

/// The bytes of a text in hex.
pub fn hex(text: &str) -> Vec<u8> {
    text.split_whitespace().map(|byte| u8::from_str_radix(byte, 16).expect("hex")).collect()
}

pub fn judged(number: usize, told: usize) -> Judged {
    Judged { number, told }
}

pub fn written(check: u16) -> Written {
    Written { number: 0, told: 0, check }
}

pub fn reading(verdict: usize, place: usize, data: u64, check: u16, syndrome: u16) -> Reading {
    Reading { number: 0, told: 0, verdict, place, data, check, syndrome }
}

pub fn list_done(length: usize) -> Explained {
    Explained { number: 0, told: 0, length }
}

pub fn list_refused(number: usize, told: usize) -> Explained {
    Explained { number, told, length: 0 }
}

pub fn proof() -> CardsChecked {
    CardsChecked { number: 0, told: 0, card: 0, mask: 0 }
}

pub fn weak(card: usize, mask: usize) -> CardsChecked {
    CardsChecked { number: 9, told: 0, card, mask }
}

pub fn cards_refused(number: usize, told: usize) -> CardsChecked {
    CardsChecked { number, told, card: 0, mask: 0 }
}

/// A pass with the stamp 0 over this run, in a journal of which nothing is in use.
pub fn over(start: usize, end: usize) -> Pass {
    Pass { start, end, used: 0, stamp: 0 }
}

/// A done pass after which so many entries are in use.
pub fn pass_done(used: usize, tally: [usize; 6]) -> Passed {
    Passed { number: 0, told: 0, used, tally }
}

pub fn pass_refused(number: usize, told: usize) -> Passed {
    Passed { number, told, used: 0, tally: [0; 6] }
}

/// The sample code with column `place` put to `column`.
pub fn sample_with(place: usize, column: u16) -> Code {
    let mut code = second::sample_code();
    code.columns[place] = column;
    code
}
