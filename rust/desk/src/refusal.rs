//! When the desk says no: the table of docs/refusals.txt, which a test holds it to.

use crate::VERSION;
use std::error::Error;
use std::fmt;

/// The plain values of an answer that say why it is refused.
#[derive(Clone, Copy, Default)]
pub(crate) struct Plain {
    pub number: usize,
    pub told: usize,
    pub card: usize,
    pub mask: usize,
    pub count: usize,
}

/// The enum, and all that goes by its cases. A line has the number, the case and what it tells (a field, the plain value
/// that it is, and its name in the table), exactly when, and the words of the error.
macro_rules! refusals {
    ($(
        $number:literal $case:ident $({ $($field:ident = $plain:ident $told:literal),+ })?,
        $when:literal, $words:literal;
    )+) => {
        /// Why the desk refuses, with what it tells. [`Refusal::number`] is the number in the table of documents 01 and 02.
        #[derive(Clone, Copy, PartialEq, Eq, Hash, Debug)]
        pub enum Refusal {
            $(
                #[doc = concat!($number, ": ", $when, ".")]
                $case $({ $(#[doc = concat!("Told: ", $told, ".")] $field: usize),+ })?,
            )+
        }

        impl Refusal {
            /// The refusal of these values; `None` for number 0, done.
            ///
            /// # Panics
            ///
            /// Where the table has no such number.
            pub(crate) fn of(plain: Plain) -> Option<Refusal> {
                match plain.number {
                    0 => None,
                    $($number => Some(Refusal::$case $({ $($field: plain.$plain),+ })?),)+
                    other => panic!("libdesk.a answers {}, which is no number of version {}", other, VERSION),
                }
            }

            fn plain(self) -> Plain {
                match self {
                    $(Refusal::$case $({ $($field),+ })? => {
                        Plain { number: $number, $($($plain: $field,)+)? ..Plain::default() }
                    })+
                }
            }
        }

        impl fmt::Display for Refusal {
            fn fmt(&self, f: &mut fmt::Formatter<'_>) -> fmt::Result {
                write!(f, "refused {}: ", self.number())?;
                match self {
                    $(Refusal::$case $({ $($field),+ })? => write!(f, $words),)+
                }
            }
        }

        /// The lines of the table: number, case, what is told, exactly when.
        #[cfg(test)]
        const TABLE: &[(usize, &str, &[&str], &str)] =
            &[$(($number, stringify!($case), &[$($($told),+)?], $when)),+];
    };
}

refusals! {
    1 DataBits,
        "k is 0 or over 64; wide edition: over 128; with a set of rows k is n - r, and 0 where n is below r",
        "k is 0 or over 64, in the wide edition over 128";
    2 CheckBits,
        "r below 3 or over 16", "r is below 3 or over 16";
    3 WideColumn { place = told "first bad place" },
        "a column is 2^r or more", "column {place} is 2^r or more";
    4 EvenColumn { place = told "place" },
        "a column has an even count of ones, 0 included", "column {place} has an even count of ones";
    5 SingleOne { place = told "place" },
        "a data column has a single one", "column {place} has a single one";
    6 RepeatedColumn { place = told "place" },
        "a column equals an earlier data column", "column {place} equals an earlier one";
    7 StrayBits,
        "single word: a data bit at k or above, or a check bit at r or above, is set (writing: data only); word of ten \
         bytes: a bit at 30 or above (writing: a data bit at 21 or above)",
        "a bit past the word's data or check bits is set";
    8 CardSize,
        "b below 2 or over 8", "b is below 2 or over 8";
    9 WeakCard { card = card "card", mask = mask "mask" },
        "code not card-proof for b", "card {card} is weak at mask {mask}";
    10 ListRoom { length = told "list's length" },
        "list longer than its room", "the list has {length} entries, more than its room";
    11 FlipLimit,
        "flip limit over 2", "the flip limit is over 2";
    12 ImageLength,
        "image length no multiple of 10, or over 65,530; wide edition: of 18, over 65,520",
        "the image's length is no multiple of a record's, or over that of the longest image";
    13 JournalRoom { needed = told "entries needed" },
        "journal room left (its length / 30, wide edition: / 46, down, less the entries in use) below the entries needed",
        "the pass needs room for {needed} entries behind those in use";
    14 Run,
        "run's start above its end, or its end above the number of records", "the run does not lie in the image";
    15 ColumnRoom,
        "making a code: k is over 2^(r-1) - r", "there are fewer than k columns of r rows";
    16 Stamp,
        "the pass's stamp is below the last used entry's", "the stamp is below that of the last entry in use";
    17 CountInUse,
        "the count of entries in use is over the journal's room", "more entries are in use than the journal has room for";
    18 Mismatch { count = count "entries put back" },
        "putting back: an entry's record number lies outside the image, or that record does not hold the entry's bytes as \
         left",
        "an entry does not match the image; put back before it: {count}";
    19 Sheet,
        "device count 0 or over 65,535, word count 0 or over 65,535, mended above words, hours not finite or not above \
         zero, a limit's figure not finite or below zero, a band upside down",
        "the counts, the hours or the limit make no sheet";
    20 RowSet { reason = told "reason" },
        "codes with a set of rows, the first reason that holds: 1, the set is empty or names a row at r or above; 2, a zero \
         or repeated column; 3, the last r columns are not triangular with ones on the diagonal; 4, a column has an even \
         count of ones within the set",
        "the code does not go with its set of rows, by reason {reason}";
    21 Leftover { place = told "first such place" },
        "a place past k is not 0; with a set of rows: past n", "place {place}, past the columns, is not 0";
    22 BadPlaces,
        "more than three bad places, a repeat, or a place at n or above",
        "the bad places are more than three, name one twice, or name one at n or above";
    23 NoCodeWord,
        "bad places: no code word differs from the word as read, outside them, in at most one place where none or one is \
         bad, in none where two or three are",
        "no code word is near enough to the word as read";
}

impl Refusal {
    /// The refusal's number in the table.
    pub fn number(self) -> usize {
        self.plain().number
    }

    /// What is told beside the number: a place, a reason, a length or the entries needed, 0 where nothing is told.
    ///
    /// Card and mask of [`Refusal::WeakCard`] and the count of [`Refusal::Mismatch`] stand in those cases alone.
    pub fn told(self) -> usize {
        self.plain().told
    }
}

impl Error for Refusal {}

#[cfg(test)]
mod tests {
    use super::*;

    /// The lines of docs/refusals.txt: number, name, what is told, exactly when.
    fn text() -> Vec<Vec<&'static str>> {
        let lines = include_str!("../../../docs/refusals.txt").lines().filter(|line| !line.starts_with('#'));
        lines.map(|line| line.split('|').map(str::trim).collect()).collect()
    }

    /// The words of a case's name.
    fn words(case: &str) -> String {
        let spaced = case.chars().map(|c| if c.is_uppercase() { format!(" {}", c.to_lowercase()) } else { c.into() });
        spaced.collect::<String>().trim_start().to_string()
    }

    #[test]
    fn the_cases_are_those_of_the_text() {
        let line = |&(number, case, told, when): &(usize, &str, &[&str], &str)| {
            vec![number.to_string(), words(case), told.join(", "), when.to_string()]
        };
        assert_eq!(TABLE.iter().map(line).collect::<Vec<_>>(), text());
    }

    #[test]
    fn the_table_of_readme_is_the_text() {
        let cell = |text: &str| if text.is_empty() { " ".to_string() } else { format!(" {} ", text) };
        let row = |line: Vec<&str>| format!("|{}|{}|{}|", cell(line[0]), cell(line[3]), cell(line[2]));
        let is_row = |line: &&str| line.starts_with("| ") && line[2..].starts_with(|c: char| c.is_ascii_digit());
        let readme: Vec<&str> = include_str!("../../../README.md").lines().filter(is_row).collect();
        assert_eq!(readme, text().into_iter().map(row).collect::<Vec<String>>());
    }
}
