//! The code: its check by sets, the check bits wanted, the row balance.

use crate::answers::{Balanced, Judged, Refusal, Wanted};
use crate::cases::CasesOf;
use std::collections::HashSet;
use std::fmt;

/// Data bits of an edition: as many as a number of 64 or of 128 bits has.
pub trait Data: Copy + fmt::Debug + Default + PartialEq + Into<u128> {
    /// The lowest bits of the number.
    fn of(number: u128) -> Self;
}

impl Data for u64 {
    fn of(number: u128) -> u64 {
        number as u64
    }
}

impl Data for u128 {
    fn of(number: u128) -> u128 {
        number
    }
}

/// A code as one of the editions hands it about, of either family: nothing about it is trusted.
pub trait Coded: Copy + fmt::Debug + PartialEq {
    /// The data bits of a word.
    type Data: Data;
    /// The most data bits.
    const PLACES: usize;
    /// Bytes of a record, of an entry of the journal, and of the longest image.
    const RECORD: usize;
    const ENTRY: usize;
    const IMAGE: usize;
    fn k(&self) -> usize;
    fn r(&self) -> usize;
    /// The n columns as switches, if it is accepted.
    fn accepted(&self) -> Result<Vec<[bool; 16]>, Refusal>;
    /// Whether row j counts where a syndrome is even or odd.
    fn counts(&self, row: usize) -> bool;
    /// A sound one, and one with something done to it.
    fn sound(cases: &mut CasesOf<Self>) -> Self;
    fn damaged(cases: &mut CasesOf<Self>) -> Self;
}

/// A code of Hsiao's family, which has as many column places as data bits at most.
pub trait Hsiao: Coded {
    /// Its column places, of which the first are `columns` and the others 0, with k and r.
    fn with(columns: &[u16], k: usize, r: usize) -> Self;
    fn columns(&self) -> &[u16];
    fn columns_mut(&mut self) -> &mut [u16];
}

/// A code of one edition.
macro_rules! edition {
    ($(#[$doc:meta])* $code:ident, $data:ty, $places:literal, $record:literal, $entry:literal, $image:literal) => {
        $(#[$doc])*
        #[derive(Clone, Copy, PartialEq, Eq, Debug)]
        pub struct $code {
            pub columns: [u16; $places],
            pub k: usize,
            pub r: usize,
        }

        impl $code {
            /// The code of these data columns, no more than it has places, with r check bits.
            pub fn of(data_columns: &[u16], r: usize) -> $code {
                <$code as Hsiao>::with(data_columns, data_columns.len(), r)
            }
        }

        impl Coded for $code {
            type Data = $data;
            const PLACES: usize = $places;
            const RECORD: usize = $record;
            const ENTRY: usize = $entry;
            const IMAGE: usize = $image;

            fn k(&self) -> usize {
                self.k
            }

            fn r(&self) -> usize {
                self.r
            }

            fn accepted(&self) -> Result<Vec<[bool; 16]>, Refusal> {
                accepted_columns(self)
            }

            fn counts(&self, _row: usize) -> bool {
                true
            }

            fn sound(cases: &mut CasesOf<$code>) -> $code {
                cases.sound_code()
            }

            fn damaged(cases: &mut CasesOf<$code>) -> $code {
                cases.damaged_code()
            }
        }

        impl Hsiao for $code {
            fn with(columns: &[u16], k: usize, r: usize) -> $code {
                let mut places = [0; $places];
                places[..columns.len()].copy_from_slice(columns);
                $code { columns: places, k, r }
            }

            fn columns(&self) -> &[u16] {
                &self.columns
            }

            fn columns_mut(&mut self) -> &mut [u16] {
                &mut self.columns
            }
        }
    };
}

edition!(
    /// A code of the ten-byte edition.
    Code, u64, 64, 10, 30, 65_530
);
edition!(
    /// A code of the wide edition.
    WideCode, u128, 128, 18, 46, 65_520
);

/// A number as switches, the lowest bit first.
pub fn switches(number: u128, width: usize) -> Vec<bool> {
    let mut rest = number;
    let mut row = Vec::with_capacity(width);
    for _ in 0..width {
        row.push(rest % 2 == 1);
        rest /= 2;
    }
    row
}

/// A column as switches, row 0 first.
pub fn rows_of(column: u16) -> [bool; 16] {
    let mut rest = column;
    [(); 16].map(|_| {
        let on = rest % 2 == 1;
        rest /= 2;
        on
    })
}

/// How many switches are on.
pub fn ones(row: &[bool]) -> usize {
    row.iter().filter(|&&on| on).count()
}

/// Which refusal an otherwise sound code's next column earns; `earlier` holds the data columns before it.
fn column_fault(column: u16, r: usize, earlier: &HashSet<u16>) -> Option<usize> {
    let rows = rows_of(column);
    if rows[r..].contains(&true) {
        Some(3)
    } else if ones(&rows) % 2 == 0 {
        Some(4)
    } else if ones(&rows) == 1 {
        Some(5)
    } else if earlier.contains(&column) {
        Some(6)
    } else {
        None
    }
}

/// The n columns of an accepted code as switches: the data columns, then the check columns.
fn accepted_columns<C: Hsiao>(code: &C) -> Result<Vec<[bool; 16]>, Refusal> {
    let (places, k, r) = (code.columns(), code.k(), code.r());
    if !(1..=C::PLACES).contains(&k) {
        return Err(Refusal::plain(1));
    }
    if !(3..=16).contains(&r) {
        return Err(Refusal::plain(2));
    }
    let mut earlier = HashSet::with_capacity(k);
    for (place, &column) in places[..k].iter().enumerate() {
        if let Some(number) = column_fault(column, r, &earlier) {
            return Err(Refusal { number, told: place });
        }
        earlier.insert(column);
    }
    if let Some(place) = (k..C::PLACES).find(|&place| places[place] != 0) {
        return Err(Refusal { number: 21, told: place });
    }
    let check_columns = (0..r).map(|row| 1 << row);
    Ok(places[..k].iter().copied().chain(check_columns).map(rows_of).collect())
}

/// Is this a code?
pub fn judge<C: Coded>(code: &C) -> Judged {
    match code.accepted() {
        Ok(_) => Judged::default(),
        Err(refusal) => refusal.into(),
    }
}

/// For each row j below r: r times the ones in row j, less all ones of the matrix.
pub fn row_balance<C: Coded>(code: &C) -> Balanced {
    let columns = match code.accepted() {
        Ok(columns) => columns,
        Err(refusal) => return refusal.into(),
    };
    let all: usize = columns.iter().map(|column| ones(column)).sum();
    let mut rows = [0; 16];
    for (row, balance) in rows.iter_mut().enumerate().take(code.r()) {
        let in_row = columns.iter().filter(|column| column[row]).count();
        *balance = (code.r() * in_row) as i32 - all as i32;
    }
    Balanced { rows, ..Balanced::default() }
}

/// The smallest r for which a code of k data bits exists.
pub fn wanted(k: usize) -> Wanted {
    wanted_in::<Code>(k)
}

/// The same in any edition: found by listing the columns that r check bits allow.
pub fn wanted_in<C: Coded>(k: usize) -> Wanted {
    if !(1..=C::PLACES).contains(&k) {
        return Wanted { number: 1, ..Wanted::default() };
    }
    let allowed = |r: usize| {
        let counts = (0..1u128 << r).map(|column| ones(&switches(column, r)));
        counts.filter(|&count| count % 2 == 1 && count > 1).count()
    };
    let check_bits = (3..=16).find(|&r| k <= allowed(r)).expect("9 check bits serve 128 data bits");
    Wanted { number: 0, check_bits }
}
