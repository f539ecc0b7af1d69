//! Codes with a set of rows, seen from Rust in both editions: every field of every answer, all places of a code, both
//! halves of a word, and the lent bytes that it must leave.

mod common;

use desk::ffi::*;
use desk::{Refusal, Verdict, Word, ENTRY, LONGEST_LIST, RECORD, WIDE_ENTRY, WIDE_LONGEST_LIST, WIDE_RECORD};

/// Columns that all have a one in row 0, which alone is the set: k of three ones or more, then r check columns, of which
/// all but the first have two.
fn columns<const N: usize>(k: usize, r: usize) -> [u16; N] {
    let data = (0..=u16::MAX).filter(|column| column % 2 == 1 && column.count_ones() > 2).take(k);
    let mut columns = [0; N];
    for (place, column) in columns.iter_mut().zip(data.chain((0..r).map(|row| 1 << row | 1))) {
        *place = column;
    }
    columns
}

/// The code of those columns.
fn narrow(k: usize, r: usize) -> RowCode {
    RowCode { columns: columns(k, r), n: k + r, r, rows: 1 }
}

/// The same in the wide edition.
fn wide(k: usize, r: usize) -> WideRowCode {
    WideRowCode { columns: columns(k, r), n: k + r, r, rows: 1 }
}

/// N columns in pairs that differ by 3, the last 16 of them single ones, so that a word of syndrome 3 has N / 2
/// explanations.
fn paired<const N: usize>() -> [u16; N] {
    let of_checks = (2..16).map(|row| 1 << row ^ 3);
    let of_data = (4..=u16::MAX).step_by(4).filter(|column| column.count_ones() == 3);
    let data = of_checks.chain(of_data.flat_map(|column| [column, column ^ 3])).take(N - 16);
    let columns: Vec<u16> = data.chain((0..16).map(|row| 1 << row)).collect();
    columns.try_into().unwrap()
}

/// A record of these data and check bits in the wide edition.
fn wide_record(data: u128, check: u16) -> Vec<u8> {
    [&data.to_le_bytes()[..], &check.to_le_bytes()].concat()
}

#[test]
fn the_judge_sees_all_80_places() {
    for r in [8, 16] {
        assert_eq!(rows_judge(&narrow(64, r)), Judgement { number: 0, told: 0 });
    }
    for place in [0, 63, 64, 71] {
        let mut code = narrow(64, 8);
        code.columns[place] = 256;
        assert_eq!(rows_judge(&code), Judgement { number: 3, told: place });
        assert_eq!(rows_row_balance(&code), RowBalance { number: 3, told: place, rows: [0; 16] });
    }
    for place in [72, 75, 79] {
        let mut code = narrow(64, 8);
        code.columns[place] = 1;
        assert_eq!(rows_judge(&code), Judgement { number: 21, told: place });
    }
    for n in [0, 7, 8, 73, 81, usize::MAX] {
        assert_eq!(rows_judge(&RowCode { n, ..narrow(64, 8) }), Judgement { number: 1, told: 0 });
    }
    for r in [2, 17] {
        assert_eq!(rows_judge(&RowCode { n: 20, r, ..narrow(12, 8) }), Judgement { number: 2, told: 0 });
    }
}

#[test]
fn the_judge_sees_all_144_places() {
    for r in [9, 16] {
        assert_eq!(wide_rows_judge(&wide(128, r)), Judgement { number: 0, told: 0 });
    }
    for place in [0, 63, 64, 127, 128, 136] {
        let mut code = wide(128, 9);
        code.columns[place] = 512;
        assert_eq!(wide_rows_judge(&code), Judgement { number: 3, told: place });
        assert_eq!(wide_rows_row_balance(&code), RowBalance { number: 3, told: place, rows: [0; 16] });
    }
    for place in [137, 140, 143] {
        let mut code = wide(128, 9);
        code.columns[place] = 1;
        assert_eq!(wide_rows_judge(&code), Judgement { number: 21, told: place });
    }
    for n in [0, 8, 9, 138, 145, usize::MAX] {
        assert_eq!(wide_rows_judge(&WideRowCode { n, ..wide(128, 9) }), Judgement { number: 1, told: 0 });
    }
    for r in [2, 17] {
        assert_eq!(wide_rows_judge(&WideRowCode { n: 20, r, ..wide(12, 8) }), Judgement { number: 2, told: 0 });
    }
}

#[test]
fn each_reason_is_told() {
    // The place that is changed, its column, the set, and the reason.
    let cases: [(usize, u16, u16, usize); 8] = [
        (0, 7, 0, 1),
        (0, 7, 256, 1),
        (11, 7, 1, 2),
        (11, 0, 1, 2),
        (11, 129, 1, 2),
        (19, 1, 1, 2),
        (13, 131, 1, 3),
        (11, 254, 1, 4),
    ];
    for (place, column, rows, reason) in cases {
        let (mut code, mut other) = (RowCode { rows, ..narrow(12, 8) }, WideRowCode { rows, ..wide(12, 8) });
        code.columns[place] = column;
        other.columns[place] = column;
        assert_eq!(rows_judge(&code), Judgement { number: 20, told: reason }, "{} at {}", column, place);
        assert_eq!(wide_rows_judge(&other), Judgement { number: 20, told: reason }, "{} at {}", column, place);
        assert_eq!(code.judge(), Err(Refusal::RowSet { reason }));
    }
}

#[test]
fn a_flip_of_every_place_is_mended() {
    let code = narrow(64, 8);
    let data = 0xFEDC_BA98_7654_3210;
    let check = rows_write(&code, data).check;
    for place in 0..72 {
        let flipped =
            |from: usize| if place < from { 0 } else { 1_u64.checked_shl((place - from) as u32).unwrap_or(0) };
        let (verdict, syndrome) = (1 + usize::from(place >= 64), code.columns[place]);
        let answer = ReadWord { number: 0, told: 0, verdict, place, syndrome, data, check };
        assert_eq!(rows_read(&code, data ^ flipped(0), check ^ flipped(64) as u16), answer);
    }
    let clean = ReadWord { number: 0, told: 0, verdict: 0, place: 255, syndrome: 0, data, check };
    assert_eq!(rows_read(&code, data, check), clean);
}

#[test]
fn a_flip_of_every_place_of_the_wide_edition_is_mended() {
    let code = wide(128, 9);
    let data = 0xFEDC_BA98_7654_3210_0123_4567_89AB_CDEF_u128;
    let check = wide_rows_write(&code, data as u64, (data >> 64) as u64).check;
    let written = WideWord { check, ..data.into() };
    for place in 0..137 {
        let mut word = written;
        match place {
            0..=63 => word.low ^= 1 << place,
            64..=127 => word.high ^= 1 << (place - 64),
            _ => word.check ^= 1 << (place - 128),
        }
        let (verdict, syndrome) = (1 + usize::from(place >= 128), code.columns[place]);
        let answer = WideReadWord { number: 0, told: 0, verdict, place, syndrome, word: written };
        assert_eq!(wide_rows_read(&code, word), answer);
    }
    let clean = WideReadWord { number: 0, told: 0, verdict: 0, place: 255, syndrome: 0, word: written };
    assert_eq!(wide_rows_read(&code, written), clean);
}

#[test]
fn even_and_odd_go_by_the_set() {
    let code = narrow(12, 8);
    // Columns 7 and 11 make 12; with check column 3 they make 15, which is a column, and with 129 they make 141, which is none.
    assert_eq!(code.columns[..4], [7, 11, 13, 15]);
    let left =
        |verdict, data, check, syndrome| ReadWord { verdict, place: 255, data, check, syndrome, ..Default::default() };
    assert_eq!(rows_read(&code, 3, 0), left(3, 3, 0, 12));
    assert_eq!(rows_read(&code, 3, 2).place, 3);
    assert_eq!(rows_read(&code, 3, 128), left(4, 3, 128, 141));
    let word = |low, check| WideWord { low, high: 0, check };
    let read = |low, check| wide_rows_read(&wide(12, 8), word(low, check));
    let left = |verdict, word, syndrome| WideReadWord { verdict, place: 255, word, syndrome, ..Default::default() };
    assert_eq!(read(3, 0), left(3, word(3, 0), 12));
    assert_eq!(read(3, 2).place, 3);
    assert_eq!(read(3, 128), left(4, word(3, 128), 141));
}

#[test]
fn a_stray_bit_in_each_part() {
    for (k, r) in [(1, 3), (20, 8), (63, 8), (64, 8)] {
        let code = narrow(k, r);
        for bit in 0..64 {
            let refused = usize::from(bit >= k) * 7;
            assert_eq!((rows_write(&code, 1 << bit).number, rows_read(&code, 1 << bit, 0).number), (refused, refused));
        }
        for bit in 0..16 {
            assert_eq!(rows_read(&code, 0, 1 << bit).number, usize::from(bit >= r) * 7);
        }
    }
    for (k, r) in [(1, 3), (63, 8), (64, 8), (65, 8), (127, 9), (128, 9)] {
        let code = wide(k, r);
        for bit in 0..128 {
            let word = WideWord::from(1 << bit);
            let answers = (wide_rows_write(&code, word.low, word.high).number, wide_rows_read(&code, word).number);
            assert_eq!(answers, (usize::from(bit >= k) * 7, usize::from(bit >= k) * 7));
        }
        for bit in 0..16 {
            let answer = wide_rows_read(&code, WideWord { low: 0, high: 0, check: 1 << bit });
            assert_eq!(answer.number, usize::from(bit >= r) * 7);
        }
    }
    assert_eq!(rows_read(&narrow(63, 8), 1 << 63, 3), ReadWord { number: 7, ..Default::default() });
    let stray = WideWord { low: 5, high: 1 << 63, check: 3 };
    assert_eq!(wide_rows_read(&wide(127, 9), stray), WideReadWord { number: 7, ..Default::default() });
}

#[test]
fn the_longest_list() {
    let code = RowCode { columns: paired(), n: 80, r: 16, rows: u16::MAX };
    let mut list = [0xEE; LONGEST_LIST];
    let short = rows_explain(&code, 0, 3, 2, &mut list[..LONGEST_LIST - 1]);
    assert_eq!((short, list), (Listing { number: 10, told: 40, length: 0 }, [0xEE; LONGEST_LIST]));
    assert_eq!(rows_explain(&code, 0, 3, 2, &mut list), Listing { number: 0, told: 0, length: 40 });
    list.sort_unstable();
    assert_eq!(list.to_vec(), (0..80).collect::<Vec<u8>>());
}

#[test]
fn the_longest_list_of_the_wide_edition() {
    let code = WideRowCode { columns: paired(), n: 144, r: 16, rows: u16::MAX };
    let word = WideWord { low: 0, high: 0, check: 3 };
    let mut list = [0xEE; WIDE_LONGEST_LIST];
    let short = wide_rows_explain(&code, word, 2, &mut list[..WIDE_LONGEST_LIST - 1]);
    assert_eq!((short, list), (Listing { number: 10, told: 72, length: 0 }, [0xEE; WIDE_LONGEST_LIST]));
    assert_eq!(wide_rows_explain(&code, word, 2, &mut list), Listing { number: 0, told: 0, length: 72 });
    list.sort_unstable();
    assert_eq!(list.to_vec(), (0..144).collect::<Vec<u8>>());
}

/// What a pass of either edition is: an image, the journal, the count in use and the stamp.
type Pass<'a> = &'a dyn Fn(&mut [u8], &mut [u8], usize, u32) -> PassAnswer;

/// A pass over five records of 12 data bits and 8 check bits: clean, data bit 0, check bit 7, data bits 0 and 1, a stray bit.
/// Behind one entry in use, without room and with it.
fn a_pass_by(pass: Pass, before: &[Vec<u8>; 5], entry: usize) {
    let mut image = before.concat();
    let mut journal = vec![0xEE; 5 * entry + 7];
    journal[..4].fill(9);
    let lent = journal.clone();
    let short = pass(&mut image, &mut journal[..5 * entry - 1], 1, 0x0A09_0909);
    assert_eq!(short, PassAnswer { number: 13, told: 4, ..PassAnswer::default() });
    assert_eq!((&image, &journal), (&before.concat(), &lent));

    let answer = pass(&mut image, &mut journal, 1, 0x0A09_0909);
    let tally = Tally { clean: 1, data: 1, check: 1, even: 1, odd: 0, stray: 1 };
    assert_eq!(answer, PassAnswer { number: 0, told: 0, used: 5, tally });
    let clean = &before[0];
    let left = [clean, clean, clean, &before[3], &before[4]];
    assert_eq!(image, left.map(|record| &record[..]).concat());
    let heads = [[1, 0, 1, 0, 7, 0], [2, 0, 2, 19, 129, 0], [3, 0, 3, 255, 12, 0], [4, 0, 5, 255, 0, 0]];
    let entries = (1..5).map(|at| [&[9, 9, 9, 10], &heads[at - 1][..], &before[at], left[at]].concat());
    assert_eq!(journal[entry..5 * entry], entries.flatten().collect::<Vec<u8>>());
    assert_eq!((&journal[..entry], &journal[5 * entry..]), (&lent[..entry], &lent[5 * entry..]));
}

#[test]
fn a_pass_over_records_of_10_bytes_by_both_engines() {
    let before = [(0, 0), (1, 0), (0, 128), (3, 0), (1 << 12, 0)].map(|(data, check)| common::record(data, check));
    assert_eq!(before[0].len(), RECORD);
    for pass in [rows_pass, rows_quick_pass] {
        let pass =
            |image: &mut [u8], journal: &mut [u8], used, stamp| pass(&narrow(12, 8), image, 0, 5, journal, used, stamp);
        a_pass_by(&pass, &before, ENTRY);
    }
}

#[test]
fn a_pass_over_records_of_18_bytes_by_both_engines() {
    let before = [(0, 0), (1, 0), (0, 128), (3, 0), (1 << 100, 0)].map(|(data, check)| wide_record(data, check));
    assert_eq!(before[0].len(), WIDE_RECORD);
    for pass in [wide_rows_pass, wide_rows_quick_pass] {
        let pass =
            |image: &mut [u8], journal: &mut [u8], used, stamp| pass(&wide(12, 8), image, 0, 5, journal, used, stamp);
        a_pass_by(&pass, &before, WIDE_ENTRY);
    }
}

#[test]
fn cards_begin_again_at_the_first_check_place() {
    // Data columns 7, 11 and 13 make 1, which is a check column.
    let weak = CardCheck { number: 9, told: 0, card: 0, mask: 7 };
    assert_eq!((rows_cards(&narrow(12, 8), 3), wide_rows_cards(&wide(12, 8), 3)), (weak, weak));
    // Check columns 1, 3 and 5 make 7, the one data column, which has card 0.
    let weak = CardCheck { card: 1, ..weak };
    assert_eq!((rows_cards(&narrow(1, 8), 8), wide_rows_cards(&wide(1, 8), 8)), (weak, weak));
    let refused = CardCheck { number: 8, ..CardCheck::default() };
    assert_eq!((rows_cards(&narrow(1, 8), 9), wide_rows_cards(&wide(1, 8), 9)), (refused, refused));
}

#[test]
fn bad_places_to_the_last() {
    let (code, data) = (narrow(64, 8), 0x0123_4567_89AB_CDEF);
    let check = rows_write(&code, data).check;
    let done = Recovered { number: 0, told: 0, data, check };
    assert_eq!(rows_recover(&code, data ^ 1 << 63 ^ 1, check ^ 128, &[71, 0, 63]), done);
    assert_eq!(rows_recover(&code, data, check, &[72]), Recovered { number: 22, ..Default::default() });
    assert_eq!(rows_recover(&code, data ^ 3, check, &[]), Recovered { number: 23, ..Default::default() });
    let found = BadPlaces { number: 0, told: 0, data: 1 << 63, check: 128 };
    assert_eq!(rows_find_bad(&code, (data, check), (!data ^ 1 << 63, check ^ 127)), found);
    assert_eq!(code.places(Word { data: 1 << 63, check: 128 }), [63, 71]);

    let (code, high) = (wide(128, 9), 0xFEDC_BA98_7654_3210);
    let written = WideWord { low: data, high, check: wide_rows_write(&code, data, high).check };
    let read = WideWord { low: data ^ 1, high: high ^ 1 << 63, check: written.check ^ 256 };
    assert_eq!(wide_rows_recover(&code, read, &[136, 0, 127]), WideRecovered { number: 0, told: 0, word: written });
    assert_eq!(wide_rows_recover(&code, written, &[137]), WideRecovered { number: 22, ..Default::default() });
    let other = WideWord { low: !data, high: !high ^ 1 << 63, check: written.check ^ 255 };
    let found = WideWord { low: 0, high: 1 << 63, check: 256 };
    assert_eq!(wide_rows_find_bad(&code, written, other), WideBadPlaces { number: 0, told: 0, word: found });
    assert_eq!(code.places(found), [127, 136]);
}

#[test]
fn the_wrapper_says_the_same() {
    let code = RowCode::new(&narrow(64, 8).columns[..72], 8, 1).unwrap();
    let word = Word { data: 1 << 60 | 1 << 7, check: code.write(1 << 60).unwrap() };
    let reading = code.read(word).unwrap();
    assert_eq!((reading.verdict, reading.place, reading.word.data), (Verdict::Data, Some(7), 1 << 60));
    assert_eq!((code.card_check(9), code.explain(word, 3)), (Err(Refusal::CardSize), Err(Refusal::FlipLimit)));
    assert_eq!(RowCode::new(&[7; 81], 8, 1), Err(Refusal::DataBits));

    let code = WideRowCode::new(&wide(128, 9).columns[..137], 9, 1).unwrap();
    let word = WideWord { check: code.write(1 << 100).unwrap(), ..(1 << 100 | 1 << 7).into() };
    let reading = code.read(word).unwrap();
    assert_eq!((reading.verdict, reading.place, u128::from(reading.word)), (Verdict::Data, Some(7), 1 << 100));
    assert_eq!((code.card_check(9), code.explain(word, 3)), (Err(Refusal::CardSize), Err(Refusal::FlipLimit)));
    assert_eq!(WideRowCode::new(&[7; 145], 8, 1), Err(Refusal::DataBits));
}
