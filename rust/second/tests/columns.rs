//! The flipped words against the document's columns: the second program flips, the document's tables speak of columns.

mod common;

use common::*;
use second::*;

/// The n columns of a sound code.
fn columns(code: &Code) -> Vec<u16> {
    code.columns[..code.k].iter().copied().chain((0..code.r).map(|row| 1 << row)).collect()
}

/// The word with one place flipped.
fn flipped(code: &Code, (data, check): (u64, u16), place: usize) -> (u64, u16) {
    if place < code.k {
        (data ^ 1 << place, check)
    } else {
        (data, check ^ 1 << (place - code.k))
    }
}

/// Words of sound codes without stray bits, with the syndrome of each.
fn words(seed: u64, count: usize) -> Vec<(Code, u64, u16, u16)> {
    let mut cases = Cases::new(seed);
    let mut words = Vec::new();
    while words.len() < count {
        let word = cases.word();
        if read(&word.code, word.data, word.check).number == 0 {
            let code = word.code;
            let on = (0..code.k).filter(|&place| word.data >> place & 1 == 1);
            let mixed = on.fold(0, |mixed, place| mixed ^ code.columns[place]);
            assert_eq!(write(&code, word.data), written(mixed));
            words.push((code, word.data, word.check, mixed ^ word.check));
        }
    }
    words
}

#[test]
fn reading_is_the_table() {
    for (code, data, check, syndrome) in words(21, 20_000) {
        let expected = match columns(&code).iter().position(|&column| column == syndrome) {
            Some(place) => {
                let (data, check) = flipped(&code, (data, check), place);
                reading(if place < code.k { 1 } else { 2 }, place, data, check, syndrome)
            }
            None if syndrome == 0 => reading(0, NONE, data, check, 0),
            None if syndrome.count_ones() % 2 == 0 => reading(3, NONE, data, check, syndrome),
            None => reading(4, NONE, data, check, syndrome),
        };
        assert_eq!(read(&code, data, check), expected);
    }
}

#[test]
fn explanations_are_sets_of_columns() {
    for (code, data, check, syndrome) in words(22, 3_000) {
        let columns = columns(&code);
        let n = columns.len();
        let mut bytes: Vec<u8> = Vec::new();
        for limit in 0..=2 {
            match limit {
                0 if syndrome == 0 => bytes.extend([255, 255]),
                1 => (0..n).filter(|&p| columns[p] == syndrome).for_each(|p| bytes.extend([p as u8, 255])),
                2 => (0..n)
                    .flat_map(|p| (p + 1..n).map(move |q| (p, q)))
                    .filter(|&(p, q)| columns[p] ^ columns[q] == syndrome)
                    .for_each(|(p, q)| bytes.extend([p as u8, q as u8])),
                _ => {}
            }
            let mut list = vec![0xEE; bytes.len() + 3];
            assert_eq!(explain(&code, data, check, limit, &mut list), list_done(bytes.len() / 2));
            assert_eq!(list, [&bytes[..], &[0xEE; 3]].concat());
            assert!(bytes.len() <= 80);
        }
    }
}

#[test]
fn card_proof_is_a_matter_of_columns() {
    let mut cases = Cases::new(23);
    for turn in 0..500 {
        let code = cases.sound_code();
        let b = 2 + turn % 7;
        let columns = columns(&code);
        let is_weak = |card: &[u16], mask: usize| {
            let chosen = (0..card.len()).filter(|&t| mask >> t & 1 == 1);
            let mixed = chosen.fold(0, |mixed, t| mixed ^ card[t]);
            mask.count_ones() > 1 && (mixed == 0 || columns.contains(&mixed))
        };
        let (data, check) = columns.split_at(code.k);
        let first = data.chunks(b).chain(check.chunks(b)).enumerate().find_map(|(number, card)| {
            let mask = (0..1 << card.len()).find(|&mask| is_weak(card, mask))?;
            Some(weak(number, mask))
        });
        assert_eq!(card_check(&code, b), first.unwrap_or_else(proof));
    }
}

#[test]
fn one_flip_is_mended_and_two_are_even() {
    let mut cases = Cases::new(24);
    for _ in 0..100 {
        let code = cases.sound_code();
        let data = if code.k == 64 { u64::MAX / 3 } else { (1 << code.k) / 3 };
        let (clean, columns) = ((data, write(&code, data).check), columns(&code));
        assert_eq!(read(&code, clean.0, clean.1), reading(0, NONE, clean.0, clean.1, 0));
        for p in 0..code.k + code.r {
            let one = flipped(&code, clean, p);
            let verdict = if p < code.k { 1 } else { 2 };
            assert_eq!(read(&code, one.0, one.1), reading(verdict, p, clean.0, clean.1, columns[p]));
            for q in 0..p {
                let two = flipped(&code, one, q);
                assert_eq!(read(&code, two.0, two.1), reading(3, NONE, two.0, two.1, columns[p] ^ columns[q]));
            }
        }
    }
}

#[test]
fn three_flips_in_a_proof_card_are_flagged() {
    let mut cases = Cases::new(25);
    let mut flagged = 0;
    for _ in 0..1_000 {
        let code = cases.sound_code();
        let clean = (1, write(&code, 1).check);
        for b in (3..=8).filter(|&b| card_check(&code, b).number == 0) {
            let firsts = (0..code.k).step_by(b).filter(|first| first + 3 <= code.k);
            for first in firsts.chain((code.k..code.k + code.r - 2).step_by(b)) {
                let word = (first..first + 3).fold(clean, |word, place| flipped(&code, word, place));
                assert_eq!(read(&code, word.0, word.1).verdict, 4);
                flagged += 1;
            }
        }
    }
    assert!(flagged > 1_000);
}
