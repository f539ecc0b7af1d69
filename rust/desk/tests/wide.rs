//! The wide edition, seen from Rust: every field of every answer, both halves of a word, and the lent bytes that it must
//! leave.

use desk::ffi::*;
use desk::{Refusal, Verdict, WIDE_ENTRY, WIDE_IMAGE, WIDE_LONGEST_LIST, WIDE_RECORD};

/// The code of 128 data bits and 9 check bits that is made.
fn widest() -> WideCode {
    wide_make(128, 9).code
}

/// Every place in a pair whose columns differ by 3, so that a word of syndrome 3 has 72 explanations.
fn paired() -> WideCode {
    let of_checks = (2..16).map(|row| 1 << row ^ 3);
    let of_data = (4..=u16::MAX).step_by(4).filter(|column| column.count_ones() == 3);
    let columns: Vec<u16> = of_checks.chain(of_data.flat_map(|column| [column, column ^ 3])).take(128).collect();
    WideCode { columns: columns.try_into().unwrap(), k: 128, r: 16 }
}

/// A record of these data and check bits.
fn record(data: u128, check: u16) -> Vec<u8> {
    [&data.to_le_bytes()[..], &check.to_le_bytes()].concat()
}

#[test]
fn check_bits_to_128() {
    for k in 0..=300 {
        let bits = match k {
            1 => 3,
            2..=4 => 4,
            5..=11 => 5,
            12..=26 => 6,
            27..=57 => 7,
            58..=120 => 8,
            121..=128 => 9,
            _ => 0,
        };
        assert_eq!(wide_check_bits(k), CheckBits { number: usize::from(bits == 0), bits });
    }
}

#[test]
fn the_judge_sees_all_128_places() {
    assert_eq!(wide_judge(&widest()), Judgement { number: 0, told: 0 });
    for place in [0, 63, 64, 127] {
        let mut code = widest();
        code.columns[place] = 512;
        assert_eq!(wide_judge(&code), Judgement { number: 3, told: place });
        assert_eq!(wide_row_balance(&code), RowBalance { number: 3, told: place, rows: [0; 16] });
    }
    for k in [1, 63, 64, 65, 127] {
        assert_eq!(wide_judge(&WideCode { k, ..widest() }), Judgement { number: 21, told: k });
    }
    for k in [0, 129, usize::MAX] {
        assert_eq!(wide_judge(&WideCode { k, ..widest() }), Judgement { number: 1, told: 0 });
    }
}

#[test]
fn a_flip_of_every_place_is_mended() {
    let code = widest();
    let data = 0xFEDC_BA98_7654_3210_0123_4567_89AB_CDEF_u128;
    let check = wide_write(&code, data as u64, (data >> 64) as u64).check;
    let written = WideWord { check, ..data.into() };
    for place in 0..137 {
        let mut word = written;
        match place {
            0..=63 => word.low ^= 1 << place,
            64..=127 => word.high ^= 1 << (place - 64),
            _ => word.check ^= 1 << (place - 128),
        }
        let (verdict, syndrome) = if place < 128 { (1, code.columns[place]) } else { (2, 1 << (place - 128)) };
        let answer = WideReadWord { number: 0, told: 0, verdict, place, syndrome, word: written };
        assert_eq!(wide_read(&code, word), answer);
    }
    let clean = WideReadWord { number: 0, told: 0, verdict: 0, place: 255, syndrome: 0, word: written };
    assert_eq!(wide_read(&code, written), clean);
}

#[test]
fn a_stray_bit_in_each_part() {
    for (k, r) in [(1, 3), (63, 8), (64, 8), (65, 8), (100, 8), (127, 9), (128, 9)] {
        let code = wide_make(k, r).code;
        for bit in 0..128 {
            let word = WideWord::from(1 << bit);
            let refused = usize::from(bit >= k) * 7;
            assert_eq!(wide_write(&code, word.low, word.high).number, refused);
            assert_eq!(wide_read(&code, word).number, refused);
        }
        for bit in 0..16 {
            let answer = wide_read(&code, WideWord { low: 0, high: 0, check: 1 << bit });
            assert_eq!(answer.number, usize::from(bit >= r) * 7);
        }
    }
    let refused = WideReadWord { number: 7, ..WideReadWord::default() };
    assert_eq!(wide_read(&wide_make(127, 9).code, WideWord { low: 5, high: 1 << 63, check: 3 }), refused);
}

#[test]
fn the_longest_list() {
    let mut list = [0xEE; WIDE_LONGEST_LIST];
    let word = WideWord { low: 0, high: 0, check: 3 };
    let short = wide_explain(&paired(), word, 2, &mut list[..WIDE_LONGEST_LIST - 1]);
    assert_eq!(short, Listing { number: 10, told: 72, length: 0 });
    assert_eq!(list, [0xEE; WIDE_LONGEST_LIST]);
    assert_eq!(wide_explain(&paired(), word, 2, &mut list), Listing { number: 0, told: 0, length: 72 });
    assert_eq!(paired().explain(word, 2).unwrap().len(), 72);
    let mut places: Vec<u8> = list.to_vec();
    places.sort_unstable();
    assert_eq!(places, (0..144).collect::<Vec<u8>>());
}

#[test]
fn a_pass_over_records_of_18_bytes_by_both_engines() {
    for pass in [wide_pass, wide_quick_pass] {
        a_pass_by(pass);
    }
}

type WidePass = fn(&WideCode, &mut [u8], usize, usize, &mut [u8], usize, u32) -> PassAnswer;

fn a_pass_by(pass: WidePass) {
    let code = wide_make(120, 8).code;
    let words = [(0, 0), (1 << 119, 0), (0, 128), (3 << 63, 0), (1 << 120, 0)];
    let mut image: Vec<u8> = words.iter().flat_map(|&(data, check)| record(data, check)).collect();
    let before = image.clone();
    let mut journal = vec![0xEE; 5 * WIDE_ENTRY + 7];
    let short = pass(&code, &mut image, 0, 5, &mut journal[..4 * WIDE_ENTRY - 1], 0, 9);
    assert_eq!(short, PassAnswer { number: 13, told: 4, ..PassAnswer::default() });
    assert_eq!((&image, journal.iter().all(|&byte| byte == 0xEE)), (&before, true));

    let answer = pass(&code, &mut image, 0, 5, &mut journal, 0, 9);
    let tally = Tally { clean: 1, data: 1, check: 1, even: 1, odd: 0, stray: 1 };
    assert_eq!(answer, PassAnswer { number: 0, told: 0, used: 4, tally });
    assert_eq!(image, [record(0, 0).repeat(3), record(3 << 63, 0), record(1 << 120, 0)].concat());
    let heads = [[1, 0, 1, 119, 254, 0], [2, 0, 2, 127, 128, 0], [3, 0, 3, 255, 12, 0], [4, 0, 5, 255, 0, 0]];
    for (at, head) in heads.iter().enumerate() {
        let entry = &journal[at * WIDE_ENTRY..][..WIDE_ENTRY];
        let number = at + 1;
        assert_eq!(entry[..10], [&[9, 0, 0, 0], &head[..]].concat());
        assert_eq!(entry[10..28], before[number * WIDE_RECORD..][..WIDE_RECORD]);
        assert_eq!(entry[28..], image[number * WIDE_RECORD..][..WIDE_RECORD]);
    }
    assert!(journal[4 * WIDE_ENTRY..].iter().all(|&byte| byte == 0xEE));
}

#[test]
fn images_of_3640_records_and_one_more() {
    let mut image = vec![0; WIDE_IMAGE + WIDE_RECORD];
    let tally = Tally { clean: 3640, ..Tally::default() };
    for pass in [wide_pass, wide_quick_pass] {
        let done = pass(&widest(), &mut image[..WIDE_IMAGE], 0, 3640, &mut [], 0, 0);
        assert_eq!(done, PassAnswer { tally, ..PassAnswer::default() });
    }
    for length in [WIDE_IMAGE + WIDE_RECORD, WIDE_IMAGE + 1, WIDE_IMAGE - 1, 10, 20, 30, 1] {
        let refused = wide_pass(&widest(), &mut image[..length], 0, 0, &mut [], 0, 0);
        assert_eq!(refused, PassAnswer { number: 12, ..PassAnswer::default() });
    }
}

#[test]
fn a_journal_of_the_other_edition_is_counted_in_own_entries() {
    let mut image = record(1, 0);
    let mut journal = [0; 90];
    assert_eq!(wide_pass(&widest(), &mut image, 0, 1, &mut journal[..30], 0, 0).number, 13);
    assert_eq!(wide_pass(&widest(), &mut image, 0, 0, &mut journal, 2, 0).number, 17);
    assert_eq!(wide_pass(&widest(), &mut image, 0, 1, &mut journal, 0, 0).used, 1);
}

#[test]
fn the_ten_byte_edition_still_refuses_65_data_bits() {
    let mut code = Code { columns: [0; 64], k: 65, r: 8 };
    code.columns.copy_from_slice(&widest().columns[..64]);
    assert_eq!(judge(&code), Judgement { number: 1, told: 0 });
    assert_eq!(check_bits(65), CheckBits { number: 1, bits: 0 });
    assert_eq!(make(65, 8).number, 1);
}

#[test]
fn halves_and_128_bits() {
    for data in [0, 1, 1 << 63, 1 << 64, 1 << 127, u128::MAX, 0x0123_4567_89AB_CDEF_FEDC_BA98_7654_3210] {
        let word = WideWord::from(data);
        assert_eq!((word.low, word.high, word.check), (data as u64, (data >> 64) as u64, 0));
        assert_eq!(u128::from(WideWord { check: 5, ..word }), data);
    }
}

#[test]
fn the_wrapper_says_the_same() {
    let code = desk::WideCode::made(128, 9).unwrap();
    let word = WideWord { check: code.write(1 << 100).unwrap(), ..(1 << 100 | 1 << 7).into() };
    let reading = code.read(word).unwrap();
    assert_eq!((reading.verdict, reading.place, u128::from(reading.word)), (Verdict::Data, Some(7), 1 << 100));
    assert_eq!(code.card_check(9), Err(Refusal::CardSize));
    assert_eq!(code.explain(word, 3), Err(Refusal::FlipLimit));
    assert_eq!(desk::WideCode::new(&[7; 2], 4), Err(Refusal::RepeatedColumn { place: 1 }));
}
