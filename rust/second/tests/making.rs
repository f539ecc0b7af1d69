//! Making a code: the order, the totals, what is refused, and that no code has fewer ones.

use second::{judge, make, wanted, Code, Made};

/// The ones of all n columns.
fn ones(code: &Code) -> u32 {
    code.columns[..code.k].iter().map(|column| column.count_ones()).sum::<u32>() + code.r as u32
}

fn refused(number: usize) -> Made {
    Made { number, code: Code::of(&[], 0) }
}

#[test]
fn the_totals() {
    let totals = [(16, 6, 54), (24, 6, 86), (32, 7, 103), (48, 7, 177), (64, 8, 216)];
    for (k, r, total) in totals {
        assert_eq!(ones(&make(k, r).code), total, "{} with {}", k, r);
    }
}

#[test]
fn the_order() {
    assert_eq!(make(11, 5).code, Code::of(&[7, 11, 13, 14, 19, 21, 22, 25, 26, 28, 31], 5));
    for r in 3..=16 {
        for k in (1..=64).filter(|&k| make(k, r).number == 0) {
            let code = make(k, r).code;
            assert_eq!((judge(&code).number, code.k, code.r), (0, k, r));
            let by_ones: Vec<(u32, u16)> = code.columns[..k].iter().map(|&c| (c.count_ones(), c)).collect();
            assert!(by_ones.windows(2).all(|pair| pair[0] < pair[1]));
            let last = *by_ones.last().expect("k is not 0");
            let all = (0..1u32 << r).map(|c| (c.count_ones(), c as u16));
            let before = all.filter(|&c| c.0 % 2 == 1 && c.0 > 1 && c <= last);
            assert_eq!(before.count(), k, "nothing is left out");
        }
    }
}

#[test]
fn refused_exactly() {
    for k in [0, 65, 66, 256 + 8, (1 << 32) + 8, usize::MAX] {
        for r in [0, 2, 3, 5, 16, 17, usize::MAX] {
            assert_eq!(make(k, r), refused(1));
        }
    }
    for r in [0, 1, 2, 17, 256 + 5, (1 << 32) + 5, usize::MAX] {
        for k in [1, 2, 64] {
            assert_eq!(make(k, r), refused(2));
        }
    }
    for k in 1..=64 {
        for r in 3..=16 {
            assert_eq!(make(k, r).number == 15, k > (1 << (r - 1)) - r, "{} with {}", k, r);
            assert_eq!(make(k, r).number == 15, r < wanted(k).check_bits, "{} with {}", k, r);
        }
    }
    assert_eq!(make(12, 5), refused(15));
}

/// Every set of columns of five rows is a code, and none of its size has fewer ones.
#[test]
fn no_code_of_five_rows_has_fewer_ones() {
    let all = make(11, 5).code.columns;
    for set in 1..1usize << 11 {
        let columns: Vec<u16> = (0..11).filter(|place| set >> place & 1 == 1).map(|place| all[place]).collect();
        let code = Code::of(&columns, 5);
        assert_eq!(judge(&code).number, 0);
        assert!(ones(&make(columns.len(), 5).code) <= ones(&code));
    }
}
