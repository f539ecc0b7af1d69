//! "Explanations" and "Cards": the shape of an entry, the longest list, short last cards.

mod common;

use common::*;
use second::*;

/// The entries of the list; the bytes past it stay.
fn entries(code: &Code, data: u64, check: u16, limit: usize) -> Vec<[u8; 2]> {
    let mut list = [0xEE; 90];
    let answer = explain(code, data, check, limit, &mut list);
    assert_eq!(answer, list_done(answer.length));
    assert!(list[2 * answer.length..].iter().all(|&byte| byte == 0xEE));
    list[..2 * answer.length].chunks(2).map(|entry| [entry[0], entry[1]]).collect()
}

#[test]
fn a_clean_word_is_explained_by_the_empty_set() {
    for limit in 0..=2 {
        assert_eq!(entries(&sample_code(), 0xA5, 27, limit), [[255, 255]]);
    }
}

#[test]
fn one_flip_is_explained_by_its_place() {
    for (data, check, place) in [(0xA4, 27, 0), (0x25, 27, 7), (0xA5, 26, 8), (0xA5, 11, 12), (0xA6, 25, 10)] {
        assert!(entries(&sample_code(), data, check, 0).is_empty());
        assert_eq!(entries(&sample_code(), data, check, 1), [[place, 255]]);
        assert_eq!(entries(&sample_code(), data, check, 2), [[place, 255]]);
    }
}

/// k 64, r 16, every column with a partner that differs from it by 15.
fn forty_pairs() -> Code {
    let mut columns: Vec<u16> = (0..16).map(|row| 15 ^ 1 << row).collect();
    for column in (0..=u16::MAX).rev() {
        let fits = column.count_ones() % 2 == 1 && column.count_ones() > 5;
        if columns.len() < 64 && fits && !columns.contains(&column) {
            columns.extend([column, column ^ 15]);
        }
    }
    Code::of(&columns, 16)
}

#[test]
fn the_longest_list_has_forty_entries() {
    let code = forty_pairs();
    let check = write(&code, 0).check ^ 15;
    let pairs = entries(&code, 0, check, 2);
    assert_eq!(pairs.len(), 40);
    assert_eq!(pairs[..2], [[0, 64], [1, 65]]);
    assert!(pairs.windows(2).all(|two| two[0][0] < two[1][0]), "the lower first place first");
    assert!(pairs.iter().all(|pair| pair[0] < pair[1]));
    let mut places = pairs.concat();
    places.sort_unstable();
    assert_eq!(places, (0..80).collect::<Vec<u8>>(), "no place stands in two pairs");
    let mut short = [0xEE; 79];
    assert_eq!(explain(&code, 0, check, 2, &mut short), list_refused(10, 40));
    assert_eq!(short, [0xEE; 79]);
    assert_eq!(explain(&code, 0, check, 2, &mut [0; 80]), list_done(40));
}

#[test]
fn a_short_last_card_counts() {
    // Rows 4, 5 and 6 make up the last card of four; together they are column 0.
    let code = Code::of(&[112, 25, 42, 70], 7);
    assert_eq!(card_check(&code, 4), weak(2, 7));
    // Without that column the code is proof.
    assert_eq!(card_check(&Code::of(&[25, 42, 70], 7), 4), proof());
}

#[test]
fn no_card_has_data_and_check_places() {
    // Columns 28 and 31 with row 0 make row 1, but stand on another card.
    assert_eq!(card_check(&Code::of(&[28, 31], 5), 4), proof());
    // The data part's short card counts: columns 31, 41 and 19 make 37.
    assert_eq!(card_check(&Code::of(&[37, 38, 62, 21, 31, 41, 19], 6), 4), weak(1, 7));
    // Behind the data part's short card numbers run on: rows 4, 5 and 6 make 112.
    assert_eq!(card_check(&Code::of(&[112, 25, 91, 61, 76], 7), 4), weak(3, 7));
}

#[test]
fn cards_of_two_are_always_proof() {
    let mut cases = Cases::new(31);
    for _ in 0..500 {
        assert_eq!(card_check(&cases.sound_code(), 2), proof());
    }
}
