//! The archive as it is: a safe function for each exported one, with plain numbers in and out.
//!
//! `include/desk.h` says the same for C. In every answer `number` is 0 (done) or the number of the refusal, and `told`
//! is what [`Refusal`](crate::Refusal) has with that number, else 0. A refusal has 0 in every other field (9 has its card
//! and mask, 18 its count, and 19 says no) and changes no byte that was lent; after 18 alone what was put back before it
//! stays. Calls share no state, and may run on any thread.
//!
//! This is the only module with `unsafe`.
#![allow(unsafe_code)]

use crate::version;

/// A code as it is handed about: `k` data columns, each with row j as its bit j, and `r` check bits.
///
/// Nothing about it is trusted: every question judges it first. Column places past `k` hold 0.
#[repr(C)]
#[derive(Clone, Copy, PartialEq, Eq, Hash, Debug)]
pub struct Code {
    /// The data columns, then 0.
    pub columns: [u16; 64],
    /// How many data bits, 1 to 64.
    pub k: usize,
    /// How many check bits, 3 to 16.
    pub r: usize,
}

/// A code of the wide edition, of 128 column places; else as [`Code`].
#[repr(C)]
#[derive(Clone, Copy, PartialEq, Eq, Hash, Debug)]
pub struct WideCode {
    /// The data columns, then 0.
    pub columns: [u16; 128],
    /// How many data bits, 1 to 128.
    pub k: usize,
    /// How many check bits, 3 to 16.
    pub r: usize,
}

/// A code with a set of rows: `n` columns, the last `r` of them check columns, which need not be single ones.
///
/// Nothing about it is trusted. Its k is n - r. Column places past `n` hold 0.
#[repr(C)]
#[derive(Clone, Copy, PartialEq, Eq, Hash, Debug)]
pub struct RowCode {
    /// The n columns, then 0.
    pub columns: [u16; 80],
    /// How many columns, more than r.
    pub n: usize,
    /// How many check bits, 3 to 16.
    pub r: usize,
    /// The set of rows, bit j for row j.
    pub rows: u16,
}

/// A code with a set of rows of the wide edition, of 144 column places; else as [`RowCode`].
#[repr(C)]
#[derive(Clone, Copy, PartialEq, Eq, Hash, Debug)]
pub struct WideRowCode {
    /// The n columns, then 0.
    pub columns: [u16; 144],
    /// How many columns, more than r.
    pub n: usize,
    /// How many check bits, 3 to 16.
    pub r: usize,
    /// The set of rows, bit j for row j.
    pub rows: u16,
}

/// A word of the wide edition: its data in two halves.
///
/// ```
/// use desk::WideWord;
///
/// let word = WideWord { check: 5, ..WideWord::from(1 << 64 | 3) };
/// assert_eq!(word, WideWord { low: 3, high: 1, check: 5 });
/// assert_eq!(u128::from(word), 1 << 64 | 3);
/// ```
#[repr(C)]
#[derive(Clone, Copy, PartialEq, Eq, Hash, Debug, Default)]
pub struct WideWord {
    /// Data bit i below 64 is bit i.
    pub low: u64,
    /// Data bit 64 + i is bit i.
    pub high: u64,
    /// Check bit j is bit j; its place in the word is k + j.
    pub check: u16,
}

/// How many records of a run have each verdict.
#[repr(C)]
#[derive(Clone, Copy, PartialEq, Eq, Hash, Debug, Default)]
pub struct Tally {
    /// Verdict 0.
    pub clean: u16,
    /// Verdict 1.
    pub data: u16,
    /// Verdict 2.
    pub check: u16,
    /// Verdict 3.
    pub even: u16,
    /// Verdict 4.
    pub odd: u16,
    /// Verdict 5.
    pub stray: u16,
}

/// The answer of [`check_bits`].
#[repr(C)]
#[derive(Clone, Copy, PartialEq, Eq, Debug, Default)]
pub struct CheckBits {
    /// 0, or the number of the refusal.
    pub number: usize,
    /// The check bits wanted.
    pub bits: usize,
}

/// The answer of [`judge`].
#[repr(C)]
#[derive(Clone, Copy, PartialEq, Eq, Debug, Default)]
pub struct Judgement {
    /// 0, or the number of the refusal.
    pub number: usize,
    /// What goes with the number.
    pub told: usize,
}

/// The answer of [`row_balance`].
#[repr(C)]
#[derive(Clone, Copy, PartialEq, Eq, Debug, Default)]
pub struct RowBalance {
    /// 0, or the number of the refusal.
    pub number: usize,
    /// What goes with the number.
    pub told: usize,
    /// The balance of each row, 0 for rows at r or above.
    pub rows: [i32; 16],
}

/// The answer of [`write`](fn@write).
#[repr(C)]
#[derive(Clone, Copy, PartialEq, Eq, Debug, Default)]
pub struct CheckWord {
    /// 0, or the number of the refusal.
    pub number: usize,
    /// What goes with the number.
    pub told: usize,
    /// The check bits.
    pub check: u16,
}

/// The answer of [`read`].
#[repr(C)]
#[derive(Clone, Copy, PartialEq, Eq, Debug, Default)]
pub struct ReadWord {
    /// 0, or the number of the refusal.
    pub number: usize,
    /// What goes with the number.
    pub told: usize,
    /// The verdict, 0 to 4.
    pub verdict: usize,
    /// The flipped place, 255 for none.
    pub place: usize,
    /// The data handed back.
    pub data: u64,
    /// The check bits handed back.
    pub check: u16,
    /// The syndrome of the word as read: 0 exactly where it is clean, the column of the place where there is one.
    pub syndrome: u16,
}

/// The answer of [`wide_read`].
#[repr(C)]
#[derive(Clone, Copy, PartialEq, Eq, Debug, Default)]
pub struct WideReadWord {
    /// 0, or the number of the refusal.
    pub number: usize,
    /// What goes with the number.
    pub told: usize,
    /// The verdict, 0 to 4.
    pub verdict: usize,
    /// The flipped place, 255 for none.
    pub place: usize,
    /// The syndrome of the word as read.
    pub syndrome: u16,
    /// The word handed back.
    pub word: WideWord,
}

/// The answer of [`explain`].
#[repr(C)]
#[derive(Clone, Copy, PartialEq, Eq, Debug, Default)]
pub struct Listing {
    /// 0, or the number of the refusal.
    pub number: usize,
    /// What goes with the number.
    pub told: usize,
    /// The length of a done list, in entries.
    pub length: usize,
}

/// The answer of [`cards`].
#[repr(C)]
#[derive(Clone, Copy, PartialEq, Eq, Debug, Default)]
pub struct CardCheck {
    /// 0, or the number of the refusal.
    pub number: usize,
    /// What goes with the number.
    pub told: usize,
    /// With number 9, the first weak card: data cards are numbered first, then check cards, from `(k + b - 1) / b` on.
    pub card: usize,
    /// With number 9, the smallest weak mask on that card; bit t is the card's place t.
    pub mask: usize,
}

/// The answer of [`pass`].
#[repr(C)]
#[derive(Clone, Copy, PartialEq, Eq, Debug, Default)]
pub struct PassAnswer {
    /// 0, or the number of the refusal.
    pub number: usize,
    /// What goes with the number.
    pub told: usize,
    /// The entries in use after a done pass.
    pub used: usize,
    /// The counts of the run.
    pub tally: Tally,
}

/// The answer of [`put_back`].
#[repr(C)]
#[derive(Clone, Copy, PartialEq, Eq, Debug, Default)]
pub struct PutBack {
    /// 0, or the number of the refusal.
    pub number: usize,
    /// What goes with the number: 0.
    pub told: usize,
    /// The entries put back: done, all that are in use; with number 18, those behind the one that does not match.
    pub count: usize,
}

/// A station sheet.
#[repr(C)]
#[derive(Clone, Copy, PartialEq, Debug, Default)]
pub struct Sheet {
    /// Hours per device, as given.
    pub device: f64,
    /// Hours per station: hours per device / devices, rounded once. It may round to 0.
    pub station: f64,
    /// The share of words mended: mended / words, rounded once, from 0 to 1.
    pub share: f64,
}

/// The answer of [`sheet_ceiling`], [`sheet_band`] and [`sheet_open`].
#[repr(C)]
#[derive(Clone, Copy, PartialEq, Debug, Default)]
pub struct SheetAnswer {
    /// 0, or the number of the refusal, which is 19.
    pub number: usize,
    /// What goes with the number: 0.
    pub told: usize,
    /// Whether the share is within the limit.
    pub yes: bool,
    /// The three figures.
    pub sheet: Sheet,
}

/// The answer of [`make`].
#[repr(C)]
#[derive(Clone, Copy, PartialEq, Eq, Debug)]
pub struct Made {
    /// 0, or the number of the refusal, which tells nothing.
    pub number: usize,
    /// The code that is made; k, r and every column are 0 where it is refused.
    pub code: Code,
}

/// The answer of [`wide_make`].
#[repr(C)]
#[derive(Clone, Copy, PartialEq, Eq, Debug)]
pub struct WideMade {
    /// 0, or the number of the refusal, which tells nothing.
    pub number: usize,
    /// The code that is made; k, r and every column are 0 where it is refused.
    pub code: WideCode,
}

/// The number of a byte of three bits in a word of ten: 0 to 6 are data bytes, 7 to 9 check bytes.
///
/// It is a kind of its own, so that it is not taken for a place, which is a `usize`:
///
/// ```
/// let byte: desk::ByteNumber = desk::byte_read(1)?.byte.unwrap();
/// assert_eq!(byte, desk::ByteNumber(0));
/// # Ok::<(), desk::Refusal>(())
/// ```
///
/// ```compile_fail
/// let place: usize = desk::byte_read(1)?.byte.unwrap();
/// assert_eq!(place, 0);
/// # Ok::<(), desk::Refusal>(())
/// ```
#[repr(C)]
#[derive(Clone, Copy, PartialEq, Eq, PartialOrd, Ord, Hash, Debug, Default)]
pub struct ByteNumber(pub usize);

/// The answer of [`byte_write`].
#[repr(C)]
#[derive(Clone, Copy, PartialEq, Eq, Debug, Default)]
pub struct ByteWriting {
    /// 0, or the number of the refusal, which is 7.
    pub number: usize,
    /// What goes with the number: 0.
    pub told: usize,
    /// The word of 30 bits.
    pub word: u64,
}

/// The answer of [`byte_read`].
#[repr(C)]
#[derive(Clone, Copy, PartialEq, Eq, Debug, Default)]
pub struct ByteReading {
    /// 0, or the number of the refusal, which is 7.
    pub number: usize,
    /// What goes with the number: 0.
    pub told: usize,
    /// The verdict, 0 to 3.
    pub verdict: usize,
    /// The byte that was wrong, 255 for none; 0 where it is refused.
    pub byte: ByteNumber,
    /// The word handed back.
    pub word: u64,
}

/// The answer of [`recover`].
#[repr(C)]
#[derive(Clone, Copy, PartialEq, Eq, Debug, Default)]
pub struct Recovered {
    /// 0, or the number of the refusal.
    pub number: usize,
    /// What goes with the number.
    pub told: usize,
    /// The data of the code word.
    pub data: u64,
    /// The check bits of the code word.
    pub check: u16,
}

/// The answer of [`find_bad`].
#[repr(C)]
#[derive(Clone, Copy, PartialEq, Eq, Debug, Default)]
pub struct BadPlaces {
    /// 0, or the number of the refusal.
    pub number: usize,
    /// What goes with the number.
    pub told: usize,
    /// A one for each bad data bit.
    pub data: u64,
    /// A one for each bad check bit.
    pub check: u16,
}

/// The answer of [`wide_recover`].
#[repr(C)]
#[derive(Clone, Copy, PartialEq, Eq, Debug, Default)]
pub struct WideRecovered {
    /// 0, or the number of the refusal.
    pub number: usize,
    /// What goes with the number.
    pub told: usize,
    /// The code word.
    pub word: WideWord,
}

/// The answer of [`wide_find_bad`].
#[repr(C)]
#[derive(Clone, Copy, PartialEq, Eq, Debug, Default)]
pub struct WideBadPlaces {
    /// 0, or the number of the refusal.
    pub number: usize,
    /// What goes with the number.
    pub told: usize,
    /// A one for each bad place.
    pub word: WideWord,
}

extern "C" {
    fn desk_version() -> usize;
    fn desk_check_bits(k: usize) -> CheckBits;
    fn desk_judge(code: Code) -> Judgement;
    fn desk_row_balance(code: Code) -> RowBalance;
    fn desk_write(code: Code, data: u64) -> CheckWord;
    fn desk_read(code: Code, data: u64, check: u16) -> ReadWord;
    fn desk_explain(code: Code, data: u64, check: u16, limit: usize, list: *mut u8, list_length: usize) -> Listing;
    fn desk_cards(code: Code, b: usize) -> CardCheck;
    fn desk_put_back(
        image: *mut u8,
        image_length: usize,
        journal: *const u8,
        journal_length: usize,
        used: usize,
    ) -> PutBack;
    fn desk_sheet_ceiling(hours: f64, devices: usize, words: usize, mended: usize, high: f64) -> SheetAnswer;
    fn desk_sheet_band(hours: f64, devices: usize, words: usize, mended: usize, low: f64, high: f64) -> SheetAnswer;
    fn desk_sheet_open(hours: f64, devices: usize, words: usize, mended: usize) -> SheetAnswer;
    fn desk_make(k: usize, r: usize) -> Made;
    fn desk_byte_write(data: u64) -> ByteWriting;
    fn desk_byte_read(word: u64) -> ByteReading;
    fn desk_recover(code: Code, data: u64, check: u16, bad: *const usize, count: usize) -> Recovered;
    fn desk_find_bad(code: Code, first_data: u64, first_check: u16, second_data: u64, second_check: u16) -> BadPlaces;
    fn desk_wide_check_bits(k: usize) -> CheckBits;
    fn desk_wide_make(k: usize, r: usize) -> WideMade;
    fn desk_wide_judge(code: WideCode) -> Judgement;
    fn desk_wide_row_balance(code: WideCode) -> RowBalance;
    fn desk_wide_write(code: WideCode, low: u64, high: u64) -> CheckWord;
    fn desk_wide_read(code: WideCode, low: u64, high: u64, check: u16) -> WideReadWord;
    fn desk_wide_explain(
        code: WideCode,
        low: u64,
        high: u64,
        check: u16,
        limit: usize,
        list: *mut u8,
        list_length: usize,
    ) -> Listing;
    fn desk_wide_cards(code: WideCode, b: usize) -> CardCheck;
    fn desk_wide_put_back(
        image: *mut u8,
        image_length: usize,
        journal: *const u8,
        journal_length: usize,
        used: usize,
    ) -> PutBack;
    fn desk_wide_recover(
        code: WideCode,
        low: u64,
        high: u64,
        check: u16,
        bad: *const usize,
        count: usize,
    ) -> WideRecovered;
    fn desk_wide_find_bad(code: WideCode, first: WideWord, second: WideWord) -> WideBadPlaces;
    fn desk_rows_judge(code: RowCode) -> Judgement;
    fn desk_rows_row_balance(code: RowCode) -> RowBalance;
    fn desk_rows_write(code: RowCode, data: u64) -> CheckWord;
    fn desk_rows_read(code: RowCode, data: u64, check: u16) -> ReadWord;
    fn desk_rows_explain(
        code: RowCode,
        data: u64,
        check: u16,
        limit: usize,
        list: *mut u8,
        list_length: usize,
    ) -> Listing;
    fn desk_rows_cards(code: RowCode, b: usize) -> CardCheck;
    fn desk_rows_recover(code: RowCode, data: u64, check: u16, bad: *const usize, count: usize) -> Recovered;
    fn desk_rows_find_bad(
        code: RowCode,
        first_data: u64,
        first_check: u16,
        second_data: u64,
        second_check: u16,
    ) -> BadPlaces;
    fn desk_wide_rows_recover(
        code: WideRowCode,
        low: u64,
        high: u64,
        check: u16,
        bad: *const usize,
        count: usize,
    ) -> WideRecovered;
    fn desk_wide_rows_find_bad(code: WideRowCode, first: WideWord, second: WideWord) -> WideBadPlaces;
    fn desk_wide_rows_judge(code: WideRowCode) -> Judgement;
    fn desk_wide_rows_row_balance(code: WideRowCode) -> RowBalance;
    fn desk_wide_rows_write(code: WideRowCode, low: u64, high: u64) -> CheckWord;
    fn desk_wide_rows_read(code: WideRowCode, low: u64, high: u64, check: u16) -> WideReadWord;
    fn desk_wide_rows_explain(
        code: WideRowCode,
        low: u64,
        high: u64,
        check: u16,
        limit: usize,
        list: *mut u8,
        list_length: usize,
    ) -> Listing;
    fn desk_wide_rows_cards(code: WideRowCode, b: usize) -> CardCheck;
}

/// Asks the archive, once it is known to be of this crate's version.
///
/// Why this is safe: the declarations are those of that version; each function is total and asks nothing of its numbers,
/// nor of a float's bits; a lent slice is live, its length is its own, and two slices lent at once are apart because one
/// at least is `&mut`; the archive reads what is lent by a pointer to const, and does not write it; `yes` is a `bool` in
/// the archive too.
macro_rules! ask {
    ($function:ident($($argument:expr),*)) => {{
        version::compared();
        // SAFETY: see above; the archive keeps no pointer after a call (c/check: it has no variables) and does not unwind.
        unsafe { $function($($argument),*) }
    }};
}

/// The version of the archive, to be compared with [`VERSION`](crate::VERSION); every other function here does so.
pub fn version() -> usize {
    // SAFETY: this function is the same in every version.
    unsafe { desk_version() }
}

/// The smallest number of check bits for which a code of `k` data bits exists; refuses with 1.
pub fn check_bits(k: usize) -> CheckBits {
    ask!(desk_check_bits(k))
}

/// Whether this is a code; refuses with 1 to 6 and 21, as every question about a code does.
pub fn judge(code: &Code) -> Judgement {
    ask!(desk_judge(*code))
}

/// For each row: r times the ones in that row, less all ones of the matrix.
pub fn row_balance(code: &Code) -> RowBalance {
    ask!(desk_row_balance(*code))
}

/// The check bits that go with the data; refuses with 7.
pub fn write(code: &Code, data: u64) -> CheckWord {
    ask!(desk_write(*code, data))
}

/// What is in the word as read, its syndrome, and the word mended where one flip explains it; refuses with 7.
pub fn read(code: &Code, data: u64, check: u16) -> ReadWord {
    ask!(desk_read(*code, data, check))
}

/// All sets of at most `limit` places that explain the word, into `list`, two bytes a set; refuses with 7, 11, 10.
pub fn explain(code: &Code, data: u64, check: u16, limit: usize, list: &mut [u8]) -> Listing {
    ask!(desk_explain(*code, data, check, limit, list.as_mut_ptr(), list.len()))
}

/// Whether every error of two or more bits within one card of `b` places is flagged; refuses with 8, 9. Cards begin
/// again at place k.
pub fn cards(code: &Code, b: usize) -> CardCheck {
    ask!(desk_cards(*code, b))
}

/// The passes, which differ by their code alone: what the archive has, and the function here.
macro_rules! passes {
    ($($(#[$doc:meta])* $name:ident($code:ty) = $function:ident;)+) => {
        extern "C" {
            $(fn $function(
                code: $code,
                image: *mut u8,
                image_length: usize,
                start: usize,
                end: usize,
                journal: *mut u8,
                journal_length: usize,
                used: usize,
                stamp: u32,
            ) -> PassAnswer;)+
        }

        $($(#[$doc])*
        pub fn $name(
            code: &$code,
            image: &mut [u8],
            start: usize,
            end: usize,
            journal: &mut [u8],
            used: usize,
            stamp: u32,
        ) -> PassAnswer {
            let (image, image_length) = (image.as_mut_ptr(), image.len());
            let (journal, journal_length) = (journal.as_mut_ptr(), journal.len());
            ask!($function(*code, image, image_length, start, end, journal, journal_length, used, stamp))
        })+
    };
}

passes! {
    /// Mends the records from `start` up to but not `end` and notes each that is not clean, with the stamp, behind the `used`
    /// entries that the journal has in use; refuses with 12, 14, 17, 16, 13.
    pass(Code) = desk_pass;
    /// [`pass`] by the quick engine: the same answer, image and journal, whatever is asked.
    quick_pass(Code) = desk_quick_pass;
    /// [`pass`] of the wide edition: records of 18 bytes, entries of 46.
    wide_pass(WideCode) = desk_wide_pass;
    /// [`wide_pass`] by the quick engine.
    wide_quick_pass(WideCode) = desk_wide_quick_pass;
    /// [`pass`] under a code with a set of rows.
    rows_pass(RowCode) = desk_rows_pass;
    /// [`rows_pass`] by the quick engine.
    rows_quick_pass(RowCode) = desk_rows_quick_pass;
    /// [`wide_pass`] under a code with a set of rows.
    wide_rows_pass(WideRowCode) = desk_wide_rows_pass;
    /// [`wide_rows_pass`] by the quick engine.
    wide_rows_quick_pass(WideRowCode) = desk_wide_rows_quick_pass;
}

/// From the last of the `used` entries of the journal to the first, gives a record that holds an entry's bytes as left its
/// bytes as read; refuses with 12, 17, then 18 at the first entry that does not match.
pub fn put_back(image: &mut [u8], journal: &[u8], used: usize) -> PutBack {
    ask!(desk_put_back(image.as_mut_ptr(), image.len(), journal.as_ptr(), journal.len(), used))
}

/// The sheet of a station, judged against a ceiling: share ≤ `high`; refuses with 19, as the next two do.
pub fn sheet_ceiling(hours: f64, devices: usize, words: usize, mended: usize, high: f64) -> SheetAnswer {
    ask!(desk_sheet_ceiling(hours, devices, words, mended, high))
}

/// The sheet of a station, judged against a band: `low` ≤ share and share ≤ `high`.
pub fn sheet_band(hours: f64, devices: usize, words: usize, mended: usize, low: f64, high: f64) -> SheetAnswer {
    ask!(desk_sheet_band(hours, devices, words, mended, low, high))
}

/// The sheet of a station with no limit: yes.
pub fn sheet_open(hours: f64, devices: usize, words: usize, mended: usize) -> SheetAnswer {
    ask!(desk_sheet_open(hours, devices, words, mended))
}

/// The code of `k` data bits and `r` check bits with the fewest ones, three ones first; refuses with 1, 2, 15.
pub fn make(k: usize, r: usize) -> Made {
    ask!(desk_make(k, r))
}

/// The word of 30 bits with these data bits, which are its bits 0 to 20; refuses with 7, as the next does.
pub fn byte_write(data: u64) -> ByteWriting {
    ask!(desk_byte_write(data))
}

/// What is in the word of ten bytes as read, and the word put right where an error within one byte explains it.
pub fn byte_read(word: u64) -> ByteReading {
    ask!(desk_byte_read(word))
}

/// The code word that differs from the word as read in `bad` places and, where none or one is bad, in one place more;
/// refuses with 7, 22, 23.
pub fn recover(code: &Code, data: u64, check: u16, bad: &[usize]) -> Recovered {
    ask!(desk_recover(*code, data, check, bad.as_ptr(), bad.len()))
}

/// The places where two reads, after a pattern and its complement were written, agree, as ones; refuses with 7.
pub fn find_bad(code: &Code, first: (u64, u16), second: (u64, u16)) -> BadPlaces {
    ask!(desk_find_bad(*code, first.0, first.1, second.0, second.1))
}

/// [`check_bits`] of the wide edition, to 128 data bits.
pub fn wide_check_bits(k: usize) -> CheckBits {
    ask!(desk_wide_check_bits(k))
}

/// [`make`] of the wide edition.
pub fn wide_make(k: usize, r: usize) -> WideMade {
    ask!(desk_wide_make(k, r))
}

/// [`judge`] of the wide edition.
pub fn wide_judge(code: &WideCode) -> Judgement {
    ask!(desk_wide_judge(*code))
}

/// [`row_balance`] of the wide edition.
pub fn wide_row_balance(code: &WideCode) -> RowBalance {
    ask!(desk_wide_row_balance(*code))
}

/// [`write`](fn@write) of the wide edition: the data in two halves.
pub fn wide_write(code: &WideCode, low: u64, high: u64) -> CheckWord {
    ask!(desk_wide_write(*code, low, high))
}

/// [`read`] of the wide edition.
pub fn wide_read(code: &WideCode, word: WideWord) -> WideReadWord {
    ask!(desk_wide_read(*code, word.low, word.high, word.check))
}

/// [`explain`] of the wide edition.
pub fn wide_explain(code: &WideCode, word: WideWord, limit: usize, list: &mut [u8]) -> Listing {
    ask!(desk_wide_explain(*code, word.low, word.high, word.check, limit, list.as_mut_ptr(), list.len()))
}

/// [`cards`] of the wide edition.
pub fn wide_cards(code: &WideCode, b: usize) -> CardCheck {
    ask!(desk_wide_cards(*code, b))
}

/// [`put_back`] of the wide edition.
pub fn wide_put_back(image: &mut [u8], journal: &[u8], used: usize) -> PutBack {
    ask!(desk_wide_put_back(image.as_mut_ptr(), image.len(), journal.as_ptr(), journal.len(), used))
}

/// [`recover`] of the wide edition.
pub fn wide_recover(code: &WideCode, word: WideWord, bad: &[usize]) -> WideRecovered {
    ask!(desk_wide_recover(*code, word.low, word.high, word.check, bad.as_ptr(), bad.len()))
}

/// [`find_bad`] of the wide edition.
pub fn wide_find_bad(code: &WideCode, first: WideWord, second: WideWord) -> WideBadPlaces {
    ask!(desk_wide_find_bad(*code, first, second))
}

/// [`judge`] of a code with a set of rows; refuses with 1, 2, 3, 20 and 21.
pub fn rows_judge(code: &RowCode) -> Judgement {
    ask!(desk_rows_judge(*code))
}

/// [`row_balance`] of a code with a set of rows.
pub fn rows_row_balance(code: &RowCode) -> RowBalance {
    ask!(desk_rows_row_balance(*code))
}

/// [`write`](fn@write) of a code with a set of rows: the check bits are solved for.
pub fn rows_write(code: &RowCode, data: u64) -> CheckWord {
    ask!(desk_rows_write(*code, data))
}

/// [`read`] of a code with a set of rows.
pub fn rows_read(code: &RowCode, data: u64, check: u16) -> ReadWord {
    ask!(desk_rows_read(*code, data, check))
}

/// [`explain`] of a code with a set of rows.
pub fn rows_explain(code: &RowCode, data: u64, check: u16, limit: usize, list: &mut [u8]) -> Listing {
    ask!(desk_rows_explain(*code, data, check, limit, list.as_mut_ptr(), list.len()))
}

/// [`cards`] of a code with a set of rows.
pub fn rows_cards(code: &RowCode, b: usize) -> CardCheck {
    ask!(desk_rows_cards(*code, b))
}

/// [`wide_judge`] of a code with a set of rows; refuses with 1, 2, 3, 20 and 21.
pub fn wide_rows_judge(code: &WideRowCode) -> Judgement {
    ask!(desk_wide_rows_judge(*code))
}

/// [`wide_row_balance`] of a code with a set of rows.
pub fn wide_rows_row_balance(code: &WideRowCode) -> RowBalance {
    ask!(desk_wide_rows_row_balance(*code))
}

/// [`wide_write`] of a code with a set of rows: the check bits are solved for.
pub fn wide_rows_write(code: &WideRowCode, low: u64, high: u64) -> CheckWord {
    ask!(desk_wide_rows_write(*code, low, high))
}

/// [`wide_read`] of a code with a set of rows.
pub fn wide_rows_read(code: &WideRowCode, word: WideWord) -> WideReadWord {
    ask!(desk_wide_rows_read(*code, word.low, word.high, word.check))
}

/// [`wide_explain`] of a code with a set of rows.
pub fn wide_rows_explain(code: &WideRowCode, word: WideWord, limit: usize, list: &mut [u8]) -> Listing {
    ask!(desk_wide_rows_explain(*code, word.low, word.high, word.check, limit, list.as_mut_ptr(), list.len()))
}

/// [`wide_cards`] of a code with a set of rows.
pub fn wide_rows_cards(code: &WideRowCode, b: usize) -> CardCheck {
    ask!(desk_wide_rows_cards(*code, b))
}

/// [`recover`] under a code with a set of rows.
pub fn rows_recover(code: &RowCode, data: u64, check: u16, bad: &[usize]) -> Recovered {
    ask!(desk_rows_recover(*code, data, check, bad.as_ptr(), bad.len()))
}

/// [`find_bad`] under a code with a set of rows.
pub fn rows_find_bad(code: &RowCode, first: (u64, u16), second: (u64, u16)) -> BadPlaces {
    ask!(desk_rows_find_bad(*code, first.0, first.1, second.0, second.1))
}

/// [`wide_recover`] under a code with a set of rows.
pub fn wide_rows_recover(code: &WideRowCode, word: WideWord, bad: &[usize]) -> WideRecovered {
    ask!(desk_wide_rows_recover(*code, word.low, word.high, word.check, bad.as_ptr(), bad.len()))
}

/// [`wide_find_bad`] under a code with a set of rows.
pub fn wide_rows_find_bad(code: &WideRowCode, first: WideWord, second: WideWord) -> WideBadPlaces {
    ask!(desk_wide_rows_find_bad(*code, first, second))
}
