//! Codes with a chosen set of rows (02's request 109, source document 002), judged by lists of switches.

use crate::answers::Refusal;
use crate::cases::CasesOf;
use crate::code::{ones, rows_of, Coded, Hsiao};
use std::collections::HashSet;

/// A code of this family: all n columns, the last r of them check columns, and a set of rows.
pub trait Chosen: Coded {
    /// The same data bits in Hsiao's family.
    type Old: Hsiao<Data = Self::Data>;
    /// How many column places it keeps.
    const KEPT: usize;
    fn with(columns: &[u16], n: usize, r: usize, rows: u16) -> Self;
    fn columns(&self) -> &[u16];
    fn n(&self) -> usize;
    fn rows(&self) -> u16;

    /// An old code as one of this family: its check columns behind its own, and all r rows in the set.
    fn from_old(old: &Self::Old) -> Self {
        let checks = (0..old.r()).map(|row| 1 << row);
        let columns: Vec<u16> = old.columns()[..old.k()].iter().copied().chain(checks).collect();
        Self::with(&columns, columns.len(), old.r(), ((1u32 << old.r()) - 1) as u16)
    }
}

/// Which reason of 20 holds first of columns that are narrow enough.
fn reason(columns: &[[bool; 16]], k: usize, r: usize, rows: &[bool; 16]) -> Option<usize> {
    if ones(rows) == 0 || rows[r..].contains(&true) {
        return Some(1);
    }
    let different: HashSet<&[bool; 16]> = columns.iter().collect();
    if different.len() < columns.len() || columns.iter().any(|column| ones(column) == 0) {
        return Some(2);
    }
    // The square of the check columns: a one on each diagonal, and one of the two corners empty.
    let at = |row: usize, column: usize| columns[k + column][row];
    let diagonal = (0..r).all(|j| at(j, j));
    let above = (0..r).any(|column| (0..column).any(|row| at(row, column)));
    let below = (0..r).any(|column| (column + 1..r).any(|row| at(row, column)));
    if !diagonal || above && below {
        return Some(3);
    }
    let within = |column: &[bool; 16]| (0..16).filter(|&row| column[row] && rows[row]).count();
    if columns.iter().any(|column| within(column) % 2 == 0) {
        return Some(4);
    }
    None
}

/// The n columns of an accepted code as switches.
fn accepted_columns<C: Chosen>(code: &C) -> Result<Vec<[bool; 16]>, Refusal> {
    let (places, n, r) = (code.columns(), code.n(), code.r());
    if n <= r || n - r > C::PLACES {
        return Err(Refusal::plain(1));
    }
    if !(3..=16).contains(&r) {
        return Err(Refusal::plain(2));
    }
    let columns: Vec<[bool; 16]> = places[..n].iter().copied().map(rows_of).collect();
    if let Some(place) = columns.iter().position(|column| column[r..].contains(&true)) {
        return Err(Refusal { number: 3, told: place });
    }
    if let Some(reason) = reason(&columns, n - r, r, &rows_of(code.rows())) {
        return Err(Refusal { number: 20, told: reason });
    }
    if let Some(place) = (n..C::KEPT).find(|&place| places[place] != 0) {
        return Err(Refusal { number: 21, told: place });
    }
    Ok(columns)
}

/// A code of one edition.
macro_rules! edition {
    ($(#[$doc:meta])* $code:ident, $old:ty, $kept:literal) => {
        $(#[$doc])*
        #[derive(Clone, Copy, PartialEq, Eq, Debug)]
        pub struct $code {
            pub columns: [u16; $kept],
            pub n: usize,
            pub r: usize,
            pub rows: u16,
        }

        impl Coded for $code {
            type Data = <$old as Coded>::Data;
            const PLACES: usize = <$old as Coded>::PLACES;
            const RECORD: usize = <$old as Coded>::RECORD;
            const ENTRY: usize = <$old as Coded>::ENTRY;
            const IMAGE: usize = <$old as Coded>::IMAGE;

            fn k(&self) -> usize {
                self.n.saturating_sub(self.r)
            }

            fn r(&self) -> usize {
                self.r
            }

            fn accepted(&self) -> Result<Vec<[bool; 16]>, Refusal> {
                accepted_columns(self)
            }

            fn counts(&self, row: usize) -> bool {
                rows_of(self.rows)[row]
            }

            fn sound(cases: &mut CasesOf<$code>) -> $code {
                cases.sound_rows()
            }

            fn damaged(cases: &mut CasesOf<$code>) -> $code {
                cases.damaged_rows()
            }
        }

        impl Chosen for $code {
            type Old = $old;
            const KEPT: usize = $kept;

            fn with(columns: &[u16], n: usize, r: usize, rows: u16) -> $code {
                let mut places = [0; $kept];
                places[..columns.len()].copy_from_slice(columns);
                $code { columns: places, n, r, rows }
            }

            fn columns(&self) -> &[u16] {
                &self.columns
            }

            fn n(&self) -> usize {
                self.n
            }

            fn rows(&self) -> u16 {
                self.rows
            }
        }
    };
}

edition!(
    /// A code with a set of rows of the ten-byte edition.
    RowCode, crate::code::Code, 80
);
edition!(
    /// A code with a set of rows of the wide edition.
    WideRowCode, crate::code::WideCode, 144
);
