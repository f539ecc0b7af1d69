//! "When the desk says no": every line of the table, exactly when, and the order.

mod common;

use common::*;
use second::*;

/// Every question that is given the code is refused with this number and place, and writes nothing.
fn refused_everywhere(code: Code, number: usize, told: usize) {
    assert_eq!(judge(&code), judged(number, told));
    assert_eq!(row_balance(&code), Balanced { number, told, rows: [0; 16] });
    for data in [0, 1, u64::MAX] {
        assert_eq!(write(&code, data), Written { number, told, check: 0 });
        let nothing = Reading { number, told, verdict: 0, place: 0, data: 0, check: 0, syndrome: 0 };
        assert_eq!(read(&code, data, 0xFFFF), nothing);
        for limit in [0, 2, 3, usize::MAX] {
            let mut list = [0xEE; 80];
            assert_eq!(explain(&code, data, 0xFFFF, limit, &mut list), list_refused(number, told));
            assert_eq!(list, [0xEE; 80]);
        }
    }
    for b in [0, 2, 8, 9, usize::MAX] {
        assert_eq!(card_check(&code, b), cards_refused(number, told));
    }
    for (bytes, start, end) in [(20, 0, 2), (20, 2, 1), (20, 0, 3), (19, 0, 1), (65_540, 0, 1)] {
        for used in [0, 1, 2, usize::MAX] {
            let (mut image, mut journal) = (vec![0xA6; bytes], [0xEE; 59]);
            let asked = Pass { used, ..over(start, end) };
            assert_eq!(pass(&code, &mut image, &mut journal, &asked), pass_refused(number, told));
            assert!(image == vec![0xA6; bytes] && journal == [0xEE; 59]);
        }
    }
}

#[test]
fn number_1_k_is_0_or_over_64() {
    for k in [0, 65, 66, 255, 256, 264, 65_544, (1 << 32) + 8, usize::MAX] {
        refused_everywhere(Code { k, ..sample_code() }, 1, 0);
        assert_eq!(wanted(k), Wanted { number: 1, check_bits: 0 });
    }
}

#[test]
fn number_2_r_below_3_or_over_16() {
    for r in [0, 1, 2, 17, 18, 32, 64, 255, 261, 65_541, (1 << 32) + 5, usize::MAX] {
        refused_everywhere(Code { r, ..sample_code() }, 2, 0);
    }
}

#[test]
fn numbers_3_to_6_a_column() {
    for place in 0..8 {
        for wide in [32, 33, 35, 64, 0x8000, 0xFFFF] {
            refused_everywhere(sample_with(place, wide), 3, place);
        }
        for even in [0, 3, 6, 12, 15, 24, 30] {
            refused_everywhere(sample_with(place, even), 4, place);
        }
        for single in [1, 2, 4, 8, 16] {
            refused_everywhere(sample_with(place, single), 5, place);
        }
        for earlier in 0..place {
            refused_everywhere(sample_with(place, sample_code().columns[earlier]), 6, place);
        }
    }
    // With 16 rows no column is too wide.
    assert_eq!(judge(&Code::of(&[0x8000], 16)), judged(5, 0));
    assert_eq!(judge(&Code::of(&[0xFFFF], 16)), judged(4, 0));
}

#[test]
fn the_order_within_a_code() {
    refused_everywhere(Code { k: 0, r: 2, ..sample_code() }, 1, 0);
    refused_everywhere(Code { k: 65, r: 17, ..sample_code() }, 1, 0);
    refused_everywhere(Code { r: 2, ..sample_with(0, 0) }, 2, 0);
    // The lowest bad column first, whatever it has; then 3, 4, 5, 6.
    refused_everywhere(Code::of(&[28, 28, 12, 32], 5), 6, 1);
    refused_everywhere(Code::of(&[28, 16, 12, 32], 5), 5, 1);
    refused_everywhere(Code::of(&[28, 12, 32], 5), 4, 1);
    refused_everywhere(Code::of(&[28, 33, 33], 5), 3, 1);
    refused_everywhere(Code::of(&[28, 32, 16], 5), 3, 1);
    refused_everywhere(Code::of(&[16, 16], 5), 5, 0);
    refused_everywhere(Code::of(&[3, 3], 5), 4, 0);
}

#[test]
fn number_21_leftovers_past_k() {
    for left in [1, 3, 28, 32, 0xFFFF] {
        for first in 8..64 {
            let mut code = sample_code();
            code.columns[first] = left;
            refused_everywhere(code, 21, first);
            code.columns[first..].fill(left);
            refused_everywhere(code, 21, first);
        }
    }
    // With 64 data columns no place is past k.
    let allowed = (0..256u16).filter(|column| column.count_ones() % 2 == 1 && column.count_ones() > 1);
    assert_eq!(judge(&Code::of(&allowed.take(64).collect::<Vec<_>>(), 8)), judged(0, 0));
}

#[test]
fn number_21_comes_after_the_columns() {
    let mut code = sample_with(7, 28);
    code.columns[8] = 1;
    refused_everywhere(code, 6, 7);
    refused_everywhere(Code { r: 2, ..code }, 2, 0);
    // With k one higher the leftover is a column.
    let mut code = sample_code();
    code.columns[8] = 1;
    refused_everywhere(code, 21, 8);
    refused_everywhere(Code { k: 9, ..code }, 5, 8);
}

#[test]
fn number_7_stray_bits_of_a_single_word() {
    let code = sample_code();
    for data in [0x100, 0x1A5, 1 << 63, u64::MAX] {
        assert_eq!(write(&code, data), Written { number: 7, told: 0, check: 0 });
        assert_eq!(read(&code, data, 27), Reading { number: 7, ..Reading::default() });
        assert_eq!(explain(&code, data, 27, 2, &mut [0; 80]), list_refused(7, 0));
    }
    for check in [0x20, 0x3B, 0x8000, 0xFFFF] {
        assert_eq!(read(&code, 0xA5, check), Reading { number: 7, ..Reading::default() });
        assert_eq!(explain(&code, 0xA5, check, 2, &mut [0; 80]), list_refused(7, 0));
    }
    for data in 0..=0xFF {
        assert_eq!(write(&code, data).number, 0);
        assert!((0..32).all(|check| read(&code, data, check).number == 0));
    }
}

#[test]
fn number_8_and_9_cards() {
    for b in [0, 1, 9, 10, 255, 258, 65_538, (1 << 32) + 2, usize::MAX] {
        assert_eq!(card_check(&sample_code(), b), cards_refused(8, 0));
    }
    for b in 2..=8 {
        assert!([0, 9].contains(&card_check(&sample_code(), b).number));
    }
}

#[test]
fn number_10_the_list_is_longer_than_its_room() {
    for bytes in 0..=14 {
        let mut list = vec![0xEE; bytes];
        let answer = explain(&sample_code(), 0xA6, 27, 2, &mut list);
        if bytes < 10 {
            assert_eq!((answer, list), (list_refused(10, 5), vec![0xEE; bytes]));
        } else {
            assert_eq!(answer, list_done(5));
            assert!(list[10..].iter().all(|&byte| byte == 0xEE));
        }
    }
}

#[test]
fn number_11_the_flip_limit_after_7_and_before_10() {
    for limit in [3, 4, 255, 256, 65_536, 1 << 32, usize::MAX] {
        assert_eq!(explain(&sample_code(), 0xA6, 27, limit, &mut []), list_refused(11, 0));
        assert_eq!(explain(&sample_code(), 0x1A6, 27, limit, &mut []), list_refused(7, 0));
    }
}

/// A pass of the sample code over zero bytes with `bad` records of A6 with 27 in front, in a journal of so many bytes whose
/// entries have the stamps 0x0101_0101, 0x0202_0202 and so on; nothing changes.
fn unchanged(bytes: usize, bad: usize, asked: Pass, journal: usize) -> Passed {
    let mut image = vec![0; bytes];
    for at in 0..bad {
        image[10 * at..10 * at + 10].copy_from_slice(&record(0xA6, 27));
    }
    let before = image.clone();
    let filled: Vec<u8> = (0..journal).map(|at| (1 + at / 30) as u8).collect();
    let mut noted = filled.clone();
    let answer = pass(&sample_code(), &mut image, &mut noted, &asked);
    assert!(image == before && noted == filled);
    answer
}

/// The same with the stamp 0 and none in use.
fn refused_pass(bytes: usize, bad: usize, (start, end): (usize, usize), journal: usize) -> Passed {
    unchanged(bytes, bad, over(start, end), journal)
}

#[test]
fn number_12_the_images_length() {
    for bytes in [1, 9, 11, 19, 65_529, 65_531, 65_535, 65_536, 65_539, 65_540, 131_060] {
        assert_eq!(refused_pass(bytes, 0, (0, 0), 0), pass_refused(12, 0), "{} bytes", bytes);
        assert_eq!(refused_pass(bytes, 0, (1, 0), 0), pass_refused(12, 0), "12 before 14");
        assert_eq!(refused_pass(bytes, 0, (0, usize::MAX), 0), pass_refused(12, 0), "12 before 14");
    }
    assert_eq!(refused_pass(25, 2, (0, 2), 0), pass_refused(12, 0), "12 before 13");
}

#[test]
fn number_14_the_run() {
    let beyond = [(0, 4), (3, 4), (4, 4), (0, usize::MAX), (usize::MAX, usize::MAX), (0, 1 << 61)];
    let backwards = [(1, 0), (3, 2), (usize::MAX, 3), (usize::MAX, 0)];
    for run in beyond.into_iter().chain(backwards) {
        assert_eq!(refused_pass(30, 3, run, 0), pass_refused(14, 0), "14 before 13");
        assert_eq!(refused_pass(30, 3, run, 90), pass_refused(14, 0));
        let (start, end) = run;
        for (used, stamp) in [(4, 9), (usize::MAX, 0), (1, 0)] {
            let asked = Pass { start, end, used, stamp };
            assert_eq!(unchanged(30, 3, asked, 90), pass_refused(14, 0), "14 before 17 and 16");
        }
    }
    assert_eq!(refused_pass(0, 0, (0, 1), 0), pass_refused(14, 0));
}

#[test]
fn number_13_the_journals_room() {
    for journal in 0..90 {
        assert_eq!(refused_pass(50, 3, (0, 5), journal), pass_refused(13, 3));
    }
    assert_eq!(refused_pass(50, 3, (2, 5), 29), pass_refused(13, 1));
    assert_eq!(refused_pass(50, 3, (3, 5), 0), pass_done(0, [2, 0, 0, 0, 0, 0]));
}

#[test]
fn number_13_counts_the_room_that_is_left() {
    for used in 1..=4 {
        let asked = Pass { used, stamp: u32::MAX, ..over(0, 5) };
        for journal in 30 * used..30 * (used + 3) {
            assert_eq!(unchanged(50, 3, asked, journal), pass_refused(13, 3));
        }
        let full = Pass { start: 3, ..asked };
        assert_eq!(unchanged(50, 3, full, 30 * used), pass_done(used, [2, 0, 0, 0, 0, 0]));
    }
}

#[test]
fn number_17_the_count_in_use_after_14_and_before_16_and_13() {
    for journal in [0, 1, 29, 30, 59, 60, 89, 90] {
        let room = journal / 30;
        for used in [room + 1, room + 2, 256 + room, 1 << 32, (1 << 32) + room, usize::MAX] {
            for (start, end) in [(0, 0), (3, 5), (0, 5)] {
                for stamp in [0, u32::MAX] {
                    let asked = Pass { start, end, used, stamp };
                    assert_eq!(unchanged(50, 3, asked, journal), pass_refused(17, 0));
                    assert_eq!(unchanged(49, 3, asked, journal), pass_refused(12, 0), "12 before 17");
                }
            }
        }
        let full = Pass { used: room, stamp: u32::MAX, ..over(3, 5) };
        assert_eq!(unchanged(50, 3, full, journal), pass_done(room, [2, 0, 0, 0, 0, 0]));
    }
}

#[test]
fn number_16_the_stamp_of_the_last_used_entry_before_13() {
    for used in 1..=3 {
        let last = used as u32 * 0x0101_0101;
        for (start, end) in [(0, 0), (3, 5), (0, 5)] {
            for stamp in [0, 1, last - 1, last & 0xFF, 0x0101_0100] {
                let asked = Pass { start, end, used, stamp };
                assert_eq!(unchanged(50, 3, asked, 30 * 3), pass_refused(16, 0));
                assert_eq!(unchanged(49, 3, asked, 30 * 3), pass_refused(12, 0), "12 before 16");
            }
        }
        for stamp in [last, last + 1, u32::MAX] {
            let asked = Pass { start: 3, end: 5, used, stamp };
            assert_eq!(unchanged(50, 3, asked, 30 * 3), pass_done(used, [2, 0, 0, 0, 0, 0]));
        }
    }
    // With none in use any stamp will do, whatever the bytes are.
    assert_eq!(unchanged(50, 3, over(3, 5), 30 * 3), pass_done(0, [2, 0, 0, 0, 0, 0]));
}

#[test]
fn number_16_looks_at_the_last_used_entry_alone() {
    let high_then_low = [vec![0xFF; 30], vec![0; 4], vec![0xFF; 26 + 30]].concat();
    let mut journal = high_then_low.clone();
    let asked = Pass { used: 2, stamp: 0, ..over(0, 0) };
    assert_eq!(pass(&sample_code(), &mut [], &mut journal, &asked), pass_done(2, [0; 6]));
    assert_eq!(pass(&sample_code(), &mut [], &mut journal, &Pass { used: 3, ..asked }), pass_refused(16, 0));
    assert_eq!(pass(&sample_code(), &mut [], &mut journal, &Pass { used: 1, ..asked }), pass_refused(16, 0));
    assert_eq!(journal, high_then_low);
}
