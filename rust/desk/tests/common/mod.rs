//! The codes that the tests ask about, and records.
#![allow(dead_code)]

use desk::Code;

/// The code of these data columns, at most 64, unjudged.
pub fn code_of(data_columns: &[u16], r: usize) -> Code {
    let mut columns = [0; 64];
    columns[..data_columns.len()].copy_from_slice(data_columns);
    Code { columns, k: data_columns.len(), r }
}

/// Source document 002, figure 2.
pub fn sample() -> Code {
    code_of(&[28, 26, 25, 22, 21, 19, 14, 13], 5)
}

/// The 64 lowest columns of an odd weight of three or more, with r check bits; 8 are enough.
pub fn full(r: usize) -> Code {
    let odd = (0..=u16::MAX).filter(|column| column.count_ones() % 2 == 1 && column.count_ones() > 1);
    code_of(&odd.take(64).collect::<Vec<u16>>(), r)
}

/// A record of these data and check bits.
pub fn record(data: u64, check: u16) -> Vec<u8> {
    [&data.to_le_bytes()[..], &check.to_le_bytes()].concat()
}
