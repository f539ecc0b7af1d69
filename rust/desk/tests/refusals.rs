//! Each refusal through the wrapper: the case, its number and what it tells.

mod common;

use common::*;
use desk::{check_bits_wanted, put_back, Code, Limit, Refusal, RowCode, Station, Word, ENTRY};
use desk::{WideCode, WideRowCode, WideWord};

/// The sample with this column at place 3.
fn with_column(column: u16) -> Code {
    let mut code = sample();
    code.columns[3] = column;
    code
}

/// The sample with something left at a place past k.
fn with_leftover(place: usize) -> Code {
    let mut code = sample();
    code.columns[place] = 1;
    code
}

/// Two entries of record 1, A6 with 27 as read and as left, behind one of record 2, which an image of two does not have.
fn three_entries() -> Vec<u8> {
    let entry =
        |number: u8, data: u64| [vec![0, 0, 0, 0, number, 0, 3, 255, 6, 0], record(data, 27).repeat(2)].concat();
    [entry(2, 0xA6), entry(1, 0xA6), entry(1, 0xA6)].concat()
}

/// Every refusal of the table, each from a question.
fn all() -> Vec<Refusal> {
    let word = Word { data: 0xA6, check: 27 };
    let mut image = [record(0xA4, 27), record(0xA6, 27)].concat();
    let none = &mut [];
    vec![
        check_bits_wanted(0).unwrap_err(),
        Code { r: 17, ..sample() }.judge().unwrap_err(),
        with_column(32).row_balance().unwrap_err(),
        with_column(12).write(1).unwrap_err(),
        with_column(16).read(word).unwrap_err(),
        with_column(28).explain(word, 2).unwrap_err(),
        sample().read(Word { data: 0, check: 32 }).unwrap_err(),
        sample().card_check(9).unwrap_err(),
        sample().card_check(3).unwrap_err(),
        sample().explain_into(word, 2, &mut [0; 8]).unwrap_err(),
        sample().explain(word, 3).unwrap_err(),
        sample().pass(&mut image[..19], 0..1, none, 0, 0).unwrap_err(),
        sample().pass(&mut image, 0..2, none, 0, 0).unwrap_err(),
        sample().pass(&mut image, 0..3, none, 0, 0).unwrap_err(),
        Code::made(12, 5).unwrap_err(),
        sample().pass(&mut image, 0..2, &mut [1; 3 * ENTRY], 1, 0x0101_0100).unwrap_err(),
        sample().pass(&mut image, 0..2, none, 1, 0).unwrap_err(),
        put_back(&mut image, &three_entries(), 3).unwrap_err(),
        Station { hours: 6.0, devices: 4, words: 8, mended: 9 }.sheet(Limit::Open).unwrap_err(),
        RowCode::new(&[7, 1, 2, 4], 3, 0).unwrap_err(),
        with_leftover(9).judge().unwrap_err(),
        sample().recover(word, &[0, 13]).unwrap_err(),
        sample().recover(word, &[0, 2]).unwrap_err(),
    ]
}

#[test]
fn every_refusal_has_its_case() {
    let expected = [
        Refusal::DataBits,
        Refusal::CheckBits,
        Refusal::WideColumn { place: 3 },
        Refusal::EvenColumn { place: 3 },
        Refusal::SingleOne { place: 3 },
        Refusal::RepeatedColumn { place: 3 },
        Refusal::StrayBits,
        Refusal::CardSize,
        Refusal::WeakCard { card: 1, mask: 7 },
        Refusal::ListRoom { length: 5 },
        Refusal::FlipLimit,
        Refusal::ImageLength,
        Refusal::JournalRoom { needed: 2 },
        Refusal::Run,
        Refusal::ColumnRoom,
        Refusal::Stamp,
        Refusal::CountInUse,
        Refusal::Mismatch { count: 2 },
        Refusal::Sheet,
        Refusal::RowSet { reason: 1 },
        Refusal::Leftover { place: 9 },
        Refusal::BadPlaces,
        Refusal::NoCodeWord,
    ];
    assert_eq!(all(), expected);
}

#[test]
fn every_refusal_has_its_number_and_tells_what_the_table_says() {
    let told = [0, 0, 3, 3, 3, 3, 0, 0, 0, 5, 0, 0, 2, 0, 0, 0, 0, 0, 0, 1, 9, 0, 0];
    let numbers = 1..=23;
    for ((refusal, number), told) in all().into_iter().zip(numbers).zip(told) {
        assert_eq!((refusal.number(), refusal.told()), (number, told));
        assert!(refusal.to_string().starts_with(&format!("refused {}: ", number)));
    }
}

/// Every question that takes a code refuses this one so, whatever else is wrong.
macro_rules! is_judged_by_every_question {
    ($code:expr, $word:ty, $refusal:expr) => {{
        let (code, refusal, word) = ($code, $refusal, <$word>::default());
        assert_eq!(code.judge(), Err(refusal));
        assert_eq!(code.row_balance(), Err(refusal));
        assert_eq!(code.write(0), Err(refusal));
        assert_eq!(code.read(word), Err(refusal));
        assert_eq!(code.explain(word, 3), Err(refusal));
        assert_eq!(code.explain_into(word, 3, &mut []), Err(refusal));
        assert_eq!(code.card_check(9), Err(refusal));
        assert_eq!(code.recover(word, &[99; 4]), Err(refusal));
        assert_eq!(code.find_bad(word, word), Err(refusal));
        assert_eq!(code.pass(&mut [0], 0..9, &mut [], 1, 0), Err(refusal));
        assert_eq!(code.quick_pass(&mut [0], 0..9, &mut [], 1, 0), Err(refusal));
    }};
}

#[test]
fn a_code_is_judged_by_every_question() {
    let even = with_column(12);
    let refusal = Refusal::EvenColumn { place: 3 };
    is_judged_by_every_question!(even, Word, refusal);
    assert_eq!(Code::new(&even.columns[..8], 5), Err(refusal));

    let mut wide = WideCode::made(8, 5).unwrap();
    wide.columns[3] = 12;
    is_judged_by_every_question!(wide, WideWord, refusal);
    assert_eq!(WideCode::new(&wide.columns[..8], 5), Err(refusal));

    // Place 3 is that of a data column with no one in row 0, which alone is the set.
    let refusal = Refusal::RowSet { reason: 4 };
    let mut rows = RowCode::new(&[7, 11, 13, 15, 1, 3, 5, 9], 4, 1).unwrap();
    rows.columns[3] = 12;
    is_judged_by_every_question!(rows, Word, refusal);
    assert_eq!(RowCode::new(&rows.columns[..8], 4, 1), Err(refusal));

    let mut rows = WideRowCode::new(&[7, 11, 13, 15, 1, 3, 5, 9], 4, 1).unwrap();
    rows.columns[3] = 12;
    is_judged_by_every_question!(rows, WideWord, refusal);
    assert_eq!(WideRowCode::new(&rows.columns[..8], 4, 1), Err(refusal));
}

#[test]
fn a_refusal_is_an_error() {
    let error: Box<dyn std::error::Error> = Box::new(Refusal::WeakCard { card: 1, mask: 7 });
    assert_eq!(error.to_string(), "refused 9: card 1 is weak at mask 7");
    let says = Refusal::JournalRoom { needed: 2 }.to_string();
    assert_eq!(says, "refused 13: the pass needs room for 2 entries behind those in use");
}
