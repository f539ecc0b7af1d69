//! What the wrapper makes of the archive's numbers: verdicts, tallies, explanations.

mod common;

use common::*;
use desk::{byte_read, byte_write, ByteNumber, ByteVerdict};
use desk::{check_bits_wanted, Code, Explanation, Limit, Passed, Refusal, Sheet, Station, Tally, Verdict, Word};
use desk::{ENTRY, IMAGE, LONGEST_LIST, RECORD};

#[test]
fn a_new_code_has_its_columns_and_zeros() {
    assert_eq!(Code::new(&[28, 26, 25, 22, 21, 19, 14, 13], 5), Ok(sample()));
}

#[test]
fn a_made_code_is_one_that_new_accepts() {
    for k in 1..=64 {
        for r in check_bits_wanted(k).unwrap()..=16 {
            let code = Code::made(k, r).unwrap();
            assert_eq!(Code::new(&code.columns[..k], r), Ok(code));
        }
    }
}

#[test]
fn a_verdict_has_its_number() {
    let names = ["Clean", "Data", "Check", "Even", "Odd", "Stray"];
    for (number, name) in names.iter().enumerate() {
        let verdict = Verdict::of(number).unwrap();
        assert_eq!((verdict.number(), format!("{:?}", verdict)), (number, name.to_string()));
    }
    assert_eq!(Verdict::of(6), None);
}

#[test]
fn a_tally_counts_each_verdict() {
    let tally = Tally { clean: 10, data: 11, check: 12, even: 13, odd: 14, stray: 15 };
    assert_eq!(Verdict::ALL.map(|verdict| tally.count(verdict)), [10, 11, 12, 13, 14, 15]);
    assert_eq!(tally.entries(), 65);
    let full = Tally { clean: 1, data: u16::MAX, check: u16::MAX, even: u16::MAX, odd: u16::MAX, stray: u16::MAX };
    assert_eq!(full.entries(), 5 * 65_535);
}

#[test]
fn the_journal_has_an_entry_for_each_record_that_the_tally_counts() {
    let words = [(0xA5, 27), (0xA4, 27), (0xA5, 26), (0xA6, 27), (0xA6, 26), (0x100, 0)];
    let mut image: Vec<u8> = words.iter().flat_map(|&(data, check)| record(data, check)).collect();
    let mut journal = [0; 5 * ENTRY];
    let passed = sample().pass(&mut image, 0..6, &mut journal, 0, 0).unwrap();
    assert_eq!((passed.used, passed.tally.entries()), (5, 5));
    for (at, entry) in journal.chunks(ENTRY).enumerate() {
        assert_eq!(Verdict::of(entry[6].into()), Some(Verdict::ALL[at + 1]));
        let (data, check) = words[at + 1];
        let syndrome = sample().read(Word { data, check }).map_or(0, |reading| reading.syndrome);
        assert_eq!(u16::from_le_bytes([entry[8], entry[9]]), syndrome);
        assert_eq!(entry[10..20], record(data, check));
    }
}

#[test]
fn an_explanation_is_no_place_one_or_two() {
    assert_eq!(Explanation::of([255, 255]), Explanation::Nothing);
    assert_eq!(Explanation::of([7, 255]), Explanation::One(7));
    assert_eq!(Explanation::of([7, 9]), Explanation::Two(7, 9));
    let explained = |data: u64, limit: usize| sample().explain(Word { data, check: 27 }, limit).unwrap();
    assert_eq!(explained(0xA5, 2), [Explanation::Nothing]);
    assert_eq!(explained(0xA4, 2), [Explanation::One(0)]);
    let pairs = [(0, 1), (3, 12), (4, 5), (6, 11), (9, 10)];
    assert_eq!(explained(0xA6, 2), pairs.map(|(lower, higher)| Explanation::Two(lower, higher)));
    assert_eq!(explained(0xA6, 1), []);
}

/// Every place in a pair whose columns differ by 3: check bits 0 and 1; each further check bit with a data column; and
/// data columns with each other. So a word of syndrome 3 has 40 explanations, and no list is longer.
fn paired() -> Code {
    let with_checks = (2..16).map(|row| 1 << row ^ 3);
    let three_ones = (4..=u16::MAX).step_by(4).filter(|column| column.count_ones() == 3);
    let columns: Vec<u16> = with_checks.chain(three_ones.flat_map(|column| [column, column ^ 3])).take(64).collect();
    code_of(&columns, 16)
}

#[test]
fn the_longest_list() {
    let word = Word { data: 0, check: 3 };
    let explanations = paired().explain(word, 2).unwrap();
    assert_eq!(explanations.len(), 40);
    assert_eq!(explanations[39], Explanation::Two(64, 65));
    let mut list = [0; LONGEST_LIST];
    assert_eq!(paired().explain_into(word, 2, &mut list), Ok(40));
    assert_eq!(paired().explain_into(word, 2, &mut list[1..]), Err(Refusal::ListRoom { length: 40 }));
}

#[test]
fn the_longest_image() {
    let done = Passed { used: 0, tally: Tally { clean: 6_553, ..Tally::default() } };
    assert_eq!(sample().pass(&mut [0; IMAGE], 0..IMAGE / RECORD, &mut [], 0, 0), Ok(done));
    assert_eq!(sample().pass(&mut [0; IMAGE + RECORD], 0..1, &mut [], 0, 0), Err(Refusal::ImageLength));
}

#[test]
fn a_sheet_is_judged_by_each_kind_of_limit() {
    let station = Station { hours: 6.0, devices: 4, words: 8, mended: 1 };
    let yes = |limit: Limit| {
        let judged = station.sheet(limit).unwrap();
        assert_eq!(judged.sheet, Sheet { device: 6.0, station: 1.5, share: 0.125 });
        judged.yes
    };
    assert!(yes(Limit::Open));
    assert!(yes(Limit::Ceiling(0.125)) && yes(Limit::Ceiling(2.0)) && !yes(Limit::Ceiling(0.1)));
    assert!(yes(Limit::Band { low: 0.125, high: 0.125 }) && yes(Limit::Band { low: 0.0, high: 1.0 }));
    assert!(!yes(Limit::Band { low: 0.2, high: 1.0 }) && !yes(Limit::Band { low: 0.0, high: 0.1 }));
    assert_eq!(station.sheet(Limit::Band { low: 1.0, high: 0.0 }), Err(Refusal::Sheet));
    assert_eq!(Station { devices: 65_536, ..station }.sheet(Limit::Open), Err(Refusal::Sheet));
}

#[test]
fn a_byte_is_named_where_one_was_wrong() {
    let word = byte_write(0o1234567).unwrap();
    let read = |spoilt: u64| byte_read(spoilt).map(|reading| (reading.verdict, reading.byte, reading.word));
    assert_eq!(read(word), Ok((ByteVerdict::Clean, None, word)));
    assert_eq!(read(word ^ 0o7), Ok((ByteVerdict::Data, Some(ByteNumber(0)), word)));
    assert_eq!(read(word ^ 0o5 << 27), Ok((ByteVerdict::Check, Some(ByteNumber(9)), word)));
    assert_eq!(read(word ^ 0o11), Ok((ByteVerdict::Flagged, None, word ^ 0o11)));
    assert_eq!(read(word ^ 1 << 30), Err(Refusal::StrayBits));
    assert_eq!(byte_write(1 << 63), Err(Refusal::StrayBits));
    for (number, verdict) in ByteVerdict::ALL.into_iter().enumerate() {
        assert_eq!((verdict.number(), ByteVerdict::of(number)), (number, Some(verdict)));
    }
    assert_eq!(ByteVerdict::of(4), None);
}
