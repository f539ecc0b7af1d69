//! "The code": the check bits wanted, the rule, the row balance, over every shape of code.

mod common;

use common::*;
use second::*;

/// The columns below 2^r with an odd count of ones, three at least.
fn allowed(r: usize) -> Vec<u16> {
    let all = (0..1u32 << r).filter(|column| column.count_ones() % 2 == 1 && column.count_ones() > 1);
    all.map(|column| column as u16).collect()
}

#[test]
fn check_bits_wanted() {
    let ranges = [(1..=1, 3), (2..=4, 4), (5..=11, 5), (12..=26, 6), (27..=57, 7), (58..=64, 8)];
    for (range, check_bits) in ranges {
        for k in range {
            assert_eq!(wanted(k), Wanted { number: 0, check_bits }, "k {}", k);
            assert!(k <= (1 << (check_bits - 1)) - check_bits, "enough");
            assert!(check_bits == 3 || k > (1 << (check_bits - 2)) - (check_bits - 1), "no fewer");
        }
    }
    assert_eq!(wanted(0), Wanted { number: 1, check_bits: 0 });
    assert_eq!(wanted(65), Wanted { number: 1, check_bits: 0 });
}

#[test]
fn a_code_exists_with_the_check_bits_wanted_and_none_with_fewer() {
    for k in 1..=64 {
        let r = wanted(k).check_bits;
        assert_eq!(judge(&Code::of(&allowed(r)[..k], r)), judged(0, 0));
        assert!(r == 3 || allowed(r - 1).len() < k);
    }
}

#[test]
fn every_single_column_is_judged() {
    for r in 3..=16 {
        for column in 0..=u16::MAX {
            let number = match column.count_ones() {
                _ if u32::from(column) >= 1 << r => 3,
                ones if ones % 2 == 0 => 4,
                1 => 5,
                _ => 0,
            };
            assert_eq!(judge(&Code::of(&[column], r)), judged(number, 0));
        }
    }
}

#[test]
fn the_rule_is_what_is_accepted() {
    let mut cases = Cases::new(11);
    for _ in 0..20_000 {
        let code = cases.code();
        let in_range = (1..=64).contains(&code.k) && (3..=16).contains(&code.r);
        let by_the_rule = in_range && {
            let checks = (0..code.r).map(|row| 1u16 << row);
            let columns: Vec<u16> = code.columns[..code.k].iter().copied().chain(checks).collect();
            let differ = (0..columns.len()).all(|at| !columns[..at].contains(&columns[at]));
            let fit = columns.iter().all(|&column| u32::from(column) < 1 << code.r);
            let is_empty_past_k = code.columns[code.k..].iter().all(|&left| left == 0);
            differ && fit && is_empty_past_k && columns.iter().all(|column| column.count_ones() % 2 == 1)
        };
        assert_eq!(judge(&code).number == 0, by_the_rule, "{:?}", code);
    }
}

#[test]
fn balances_add_up_to_0() {
    let mut cases = Cases::new(12);
    for _ in 0..2_000 {
        let code = cases.sound_code();
        let balances = row_balance(&code);
        assert_eq!((balances.number, balances.told), (0, 0));
        assert_eq!(balances.rows.iter().sum::<i32>(), 0);
        assert!(balances.rows[code.r..].iter().all(|&balance| balance == 0));
        let data_ones: u32 = code.columns[..code.k].iter().map(|column| column.count_ones()).sum();
        for row in 0..code.r {
            let in_row = code.columns[..code.k].iter().filter(|&&column| column >> row & 1 == 1).count() + 1;
            assert_eq!(balances.rows[row], (code.r * in_row) as i32 - (data_ones as i32 + code.r as i32));
        }
    }
}
