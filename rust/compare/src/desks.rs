//! The linked desk as the second program's questions have it: by the archive's own numbers, and through the wrapper.

use crate::program;
use desk::{ffi, WideWord, Word};
use second::{
    Balanced, ByteRead, ByteWritten, CardsChecked, Code, Desk, Explained, Found, Judged, Limit, Made, OfCodes,
};
use second::{
    Pass, Passed, PutBack, Questions, Reading, Recovered, Refusal, RowCode, Sheeted, Station, Wanted, WideCode,
};
use second::{WideRowCode, Written};

/// The same code for the linked desk, and for the second program.
fn linked(code: &Code) -> desk::Code {
    desk::Code { columns: code.columns, k: code.k, r: code.r }
}

fn unlinked(code: desk::Code) -> Code {
    Code { columns: code.columns, k: code.k, r: code.r }
}

fn linked_wide(code: &WideCode) -> desk::WideCode {
    desk::WideCode { columns: code.columns, k: code.k, r: code.r }
}

fn unlinked_wide(code: desk::WideCode) -> WideCode {
    WideCode { columns: code.columns, k: code.k, r: code.r }
}

fn linked_rows(code: &RowCode) -> desk::RowCode {
    desk::RowCode { columns: code.columns, n: code.n, r: code.r, rows: code.rows }
}

fn linked_wide_rows(code: &WideRowCode) -> desk::WideRowCode {
    desk::WideRowCode { columns: code.columns, n: code.n, r: code.r, rows: code.rows }
}

/// A word of one half, or of two.
fn whole((data, check): (u64, u16)) -> Word {
    Word { data, check }
}

fn halved((data, check): (u128, u16)) -> WideWord {
    WideWord { check, ..data.into() }
}

/// Its data bits as one number.
fn data_of(word: Word) -> u64 {
    word.data
}

fn wide_data_of(word: WideWord) -> u128 {
    word.into()
}

/// The counts of a tally in the order of verdicts.
fn counts(tally: desk::Tally) -> [usize; 6] {
    [tally.clean, tally.data, tally.check, tally.even, tally.odd, tally.stray].map(usize::from)
}

/// A sheet with the bits of its figures.
fn in_bits(yes: bool, sheet: desk::Sheet) -> Sheeted {
    let [device, station, share] = [sheet.device, sheet.station, sheet.share].map(f64::to_bits);
    Sheeted { number: 0, told: 0, yes, device, station, share }
}

/// Bytes that stand on both sides of what is lent to the quick engine, and must stay.
const GUARD: [u8; 32] = [0xA7; 32];

fn guarded(bytes: &[u8]) -> Vec<u8> {
    [&GUARD, bytes, &GUARD].concat()
}

fn within(guarded: &mut [u8]) -> &mut [u8] {
    let end = guarded.len() - GUARD.len();
    &mut guarded[GUARD.len()..end]
}

/// What the plain engine answers, once the quick one was asked the same of copies between guards: both must agree on the
/// answer and on every byte.
fn by_both<A: PartialEq + std::fmt::Debug>(
    (image, journal): (&mut [u8], &mut [u8]),
    plain: impl Fn(&mut [u8], &mut [u8]) -> A,
    quick: impl Fn(&mut [u8], &mut [u8]) -> A,
) -> A {
    let (mut quick_image, mut quick_journal) = (guarded(image), guarded(journal));
    let quickly = quick(within(&mut quick_image), within(&mut quick_journal));
    let answer = plain(image, journal);
    assert_eq!(quickly, answer, "the quick engine answers as the plain one");
    assert!(quick_image == guarded(image), "the quick engine leaves the image as the plain one, and its guards");
    assert!(quick_journal == guarded(journal), "the quick engine leaves the journal as the plain one, and its guards");
    answer
}

/// The archive: every field of every answer, refused ones too.
pub struct Archive;

/// The questions of a code of either edition whose answers have no word.
macro_rules! archive_of_any {
    ($code:ty, $linked:ident, $judge:ident, $row_balance:ident, $cards:ident, $pass:ident, $quick_pass:ident) => {
        fn name(&self) -> &'static str {
            "archive"
        }

        fn judge(&self, code: &$code) -> Judged {
            let ffi::Judgement { number, told } = ffi::$judge(&$linked(code));
            Judged { number, told }
        }

        fn row_balance(&self, code: &$code) -> Balanced {
            let ffi::RowBalance { number, told, rows } = ffi::$row_balance(&$linked(code));
            Balanced { number, told, rows }
        }

        fn card_check(&self, code: &$code, b: usize) -> CardsChecked {
            let ffi::CardCheck { number, told, card, mask } = ffi::$cards(&$linked(code), b);
            CardsChecked { number, told, card, mask }
        }

        fn pass(&self, code: &$code, image: &mut [u8], journal: &mut [u8], asked: &Pass) -> Passed {
            let Pass { start, end, used, stamp } = *asked;
            let code = $linked(code);
            let ffi::PassAnswer { number, told, used, tally } = by_both(
                (image, journal),
                |image, journal| ffi::$pass(&code, image, start, end, journal, used, stamp),
                |image, journal| ffi::$quick_pass(&code, image, start, end, journal, used, stamp),
            );
            Passed { number, told, used, tally: counts(tally) }
        }
    };
}

/// Those with a word of up to 64 data bits.
macro_rules! archive_of_64 {
    ($code:ty, $linked:ident, $write:ident, $read:ident, $explain:ident, $recover:ident, $find_bad:ident) => {
        fn write(&self, code: &$code, data: u64) -> Written {
            let ffi::CheckWord { number, told, check } = ffi::$write(&$linked(code), data);
            Written { number, told, check }
        }

        fn read(&self, code: &$code, data: u64, check: u16) -> Reading {
            let answer = ffi::$read(&$linked(code), data, check);
            let ffi::ReadWord { number, told, verdict, place, data, check, syndrome } = answer;
            Reading { number, told, verdict, place, data, check, syndrome }
        }

        fn explain(&self, code: &$code, data: u64, check: u16, limit: usize, list: &mut [u8]) -> Explained {
            let ffi::Listing { number, told, length } = ffi::$explain(&$linked(code), data, check, limit, list);
            Explained { number, told, length }
        }

        fn recover(&self, code: &$code, data: u64, check: u16, bad: &[usize]) -> Recovered {
            let ffi::Recovered { number, told, data, check } = ffi::$recover(&$linked(code), data, check, bad);
            Recovered { number, told, data, check }
        }

        fn find_bad(&self, code: &$code, first: (u64, u16), second: (u64, u16)) -> Found {
            let ffi::BadPlaces { number, told, data, check } = ffi::$find_bad(&$linked(code), first, second);
            Found { number, told, data, check }
        }
    };
}

/// Those with a word of two halves.
macro_rules! archive_of_128 {
    ($code:ty, $linked:ident, $write:ident, $read:ident, $explain:ident, $recover:ident, $find_bad:ident) => {
        fn write(&self, code: &$code, data: u128) -> Written {
            let WideWord { low, high, .. } = data.into();
            let ffi::CheckWord { number, told, check } = ffi::$write(&$linked(code), low, high);
            Written { number, told, check }
        }

        fn read(&self, code: &$code, data: u128, check: u16) -> Reading<u128> {
            let answer = ffi::$read(&$linked(code), halved((data, check)));
            let ffi::WideReadWord { number, told, verdict, place, syndrome, word } = answer;
            Reading { number, told, verdict, place, data: word.into(), check: word.check, syndrome }
        }

        fn explain(&self, code: &$code, data: u128, check: u16, limit: usize, list: &mut [u8]) -> Explained {
            let answer = ffi::$explain(&$linked(code), halved((data, check)), limit, list);
            let ffi::Listing { number, told, length } = answer;
            Explained { number, told, length }
        }

        fn recover(&self, code: &$code, data: u128, check: u16, bad: &[usize]) -> Recovered<u128> {
            let answer = ffi::$recover(&$linked(code), halved((data, check)), bad);
            let ffi::WideRecovered { number, told, word } = answer;
            Recovered { number, told, data: word.into(), check: word.check }
        }

        fn find_bad(&self, code: &$code, first: (u128, u16), second: (u128, u16)) -> Found<u128> {
            let answer = ffi::$find_bad(&$linked(code), halved(first), halved(second));
            let ffi::WideBadPlaces { number, told, word } = answer;
            Found { number, told, data: word.into(), check: word.check }
        }
    };
}

impl Desk for Archive {
    archive_of_any!(Code, linked, judge, row_balance, cards, pass, quick_pass);
    archive_of_64!(Code, linked, write, read, explain, recover, find_bad);

    fn wanted(&self, k: usize) -> Wanted {
        let ffi::CheckBits { number, bits } = ffi::check_bits(k);
        Wanted { number, check_bits: bits }
    }

    fn put_back(&self, image: &mut [u8], journal: &mut [u8], used: usize) -> PutBack {
        let ffi::PutBack { number, told, count } = ffi::put_back(image, journal, used);
        PutBack { number, told, count }
    }

    fn sheet(&self, asked: &Station) -> Sheeted {
        let Station { hours, devices, words, mended, limit } = *asked;
        let (hours, figure) = (f64::from_bits(hours), f64::from_bits);
        let ffi::SheetAnswer { number, told, yes, sheet } = match limit {
            Limit::Ceiling(high) => ffi::sheet_ceiling(hours, devices, words, mended, figure(high)),
            Limit::Band(low, high) => ffi::sheet_band(hours, devices, words, mended, figure(low), figure(high)),
            Limit::Open => ffi::sheet_open(hours, devices, words, mended),
        };
        Sheeted { number, told, ..in_bits(yes, sheet) }
    }

    fn make(&self, k: usize, r: usize) -> Made {
        let ffi::Made { number, code } = ffi::make(k, r);
        Made { number, code: unlinked(code) }
    }

    fn byte_write(&self, data: u64) -> ByteWritten {
        let ffi::ByteWriting { number, told, word } = ffi::byte_write(data);
        ByteWritten { number, told, word }
    }

    fn byte_read(&self, word: u64) -> ByteRead {
        let ffi::ByteReading { number, told, verdict, byte, word } = ffi::byte_read(word);
        ByteRead { number, told, verdict, byte: byte.0, word }
    }

    fn mend(&self, input: &[u8]) -> String {
        program::mend(input)
    }
}

impl OfCodes<WideCode> for Archive {
    archive_of_any!(WideCode, linked_wide, wide_judge, wide_row_balance, wide_cards, wide_pass, wide_quick_pass);
    archive_of_128!(WideCode, linked_wide, wide_write, wide_read, wide_explain, wide_recover, wide_find_bad);
}

impl Questions<WideCode> for Archive {
    fn wanted(&self, k: usize) -> Wanted {
        let ffi::CheckBits { number, bits } = ffi::wide_check_bits(k);
        Wanted { number, check_bits: bits }
    }

    fn put_back(&self, image: &mut [u8], journal: &mut [u8], used: usize) -> PutBack {
        let ffi::PutBack { number, told, count } = ffi::wide_put_back(image, journal, used);
        PutBack { number, told, count }
    }

    fn make(&self, k: usize, r: usize) -> Made<WideCode> {
        let ffi::WideMade { number, code } = ffi::wide_make(k, r);
        Made { number, code: unlinked_wide(code) }
    }
}

impl OfCodes<RowCode> for Archive {
    archive_of_any!(RowCode, linked_rows, rows_judge, rows_row_balance, rows_cards, rows_pass, rows_quick_pass);
    archive_of_64!(RowCode, linked_rows, rows_write, rows_read, rows_explain, rows_recover, rows_find_bad);
}

impl OfCodes<WideRowCode> for Archive {
    archive_of_any!(
        WideRowCode,
        linked_wide_rows,
        wide_rows_judge,
        wide_rows_row_balance,
        wide_rows_cards,
        wide_rows_pass,
        wide_rows_quick_pass
    );
    archive_of_128!(
        WideRowCode,
        linked_wide_rows,
        wide_rows_write,
        wide_rows_read,
        wide_rows_explain,
        wide_rows_recover,
        wide_rows_find_bad
    );
}

/// The wrapper: its numbers must be the archive's, with nothing lost.
pub struct Wrapper;

/// A refusal of the wrapper by its numbers.
fn refused(refusal: desk::Refusal) -> Refusal {
    Refusal { number: refusal.number(), told: refusal.told() }
}

/// The questions of a code of any family and edition, whose words the wrapper has as `$word`.
macro_rules! wrapper_of {
    ($code:ty, $linked:ident, $data:ty, $word:ident, $data_of:ident) => {
        fn name(&self) -> &'static str {
            "wrapper"
        }

        fn judge(&self, code: &$code) -> Judged {
            $linked(code).judge().map_or_else(|refusal| refused(refusal).into(), |()| Judged::default())
        }

        fn row_balance(&self, code: &$code) -> Balanced {
            let done = |rows| Balanced { rows, ..Balanced::default() };
            $linked(code).row_balance().map_or_else(|refusal| refused(refusal).into(), done)
        }

        fn write(&self, code: &$code, data: $data) -> Written {
            let done = |check| Written { check, ..Written::default() };
            $linked(code).write(data).map_or_else(|refusal| refused(refusal).into(), done)
        }

        fn read(&self, code: &$code, data: $data, check: u16) -> Reading<$data> {
            let done = |reading: desk::Reading<_>| Reading {
                verdict: reading.verdict.number(),
                place: reading.place.unwrap_or(255),
                data: $data_of(reading.word),
                check: reading.word.check,
                syndrome: reading.syndrome,
                ..Reading::default()
            };
            $linked(code).read($word((data, check))).map_or_else(|refusal| refused(refusal).into(), done)
        }

        fn explain(&self, code: &$code, data: $data, check: u16, limit: usize, list: &mut [u8]) -> Explained {
            let done = |length| Explained { length, ..Explained::default() };
            let answer = $linked(code).explain_into($word((data, check)), limit, list);
            answer.map_or_else(|refusal| refused(refusal).into(), done)
        }

        fn card_check(&self, code: &$code, b: usize) -> CardsChecked {
            match $linked(code).card_check(b) {
                Ok(()) => CardsChecked::default(),
                Err(desk::Refusal::WeakCard { card, mask }) => CardsChecked { number: 9, told: 0, card, mask },
                Err(refusal) => refused(refusal).into(),
            }
        }

        fn pass(&self, code: &$code, image: &mut [u8], journal: &mut [u8], asked: &Pass) -> Passed {
            let Pass { start, end, used, stamp } = *asked;
            let code = $linked(code);
            let answer = by_both(
                (image, journal),
                |image, journal| code.pass(image, start..end, journal, used, stamp),
                |image, journal| code.quick_pass(image, start..end, journal, used, stamp),
            );
            let done =
                |passed: desk::Passed| Passed { used: passed.used, tally: counts(passed.tally), ..Passed::default() };
            answer.map_or_else(|refusal| refused(refusal).into(), done)
        }

        fn recover(&self, code: &$code, data: $data, check: u16, bad: &[usize]) -> Recovered<$data> {
            let answer = $linked(code).recover($word((data, check)), bad);
            answer.map_or_else(
                |refusal| refused(refusal).into(),
                |word| Recovered { data: $data_of(word), check: word.check, ..Recovered::default() },
            )
        }

        fn find_bad(&self, code: &$code, first: ($data, u16), second: ($data, u16)) -> Found<$data> {
            let answer = $linked(code).find_bad($word(first), $word(second));
            answer.map_or_else(
                |refusal| refused(refusal).into(),
                |word| Found { data: $data_of(word), check: word.check, ..Found::default() },
            )
        }
    };
}

impl Desk for Wrapper {
    wrapper_of!(Code, linked, u64, whole, data_of);

    fn wanted(&self, k: usize) -> Wanted {
        match desk::check_bits_wanted(k) {
            Ok(check_bits) => Wanted { number: 0, check_bits },
            Err(refusal) => Wanted { number: refusal.number(), check_bits: refusal.told() },
        }
    }

    fn put_back(&self, image: &mut [u8], journal: &mut [u8], used: usize) -> PutBack {
        match desk::put_back(image, journal, used) {
            Ok(count) => PutBack { count, ..PutBack::default() },
            Err(desk::Refusal::Mismatch { count }) => PutBack { number: 18, told: 0, count },
            Err(refusal) => refused(refusal).into(),
        }
    }

    fn sheet(&self, asked: &Station) -> Sheeted {
        let Station { hours, devices, words, mended, limit } = *asked;
        let limit = match limit {
            Limit::Ceiling(high) => desk::Limit::Ceiling(f64::from_bits(high)),
            Limit::Band(low, high) => desk::Limit::Band { low: f64::from_bits(low), high: f64::from_bits(high) },
            Limit::Open => desk::Limit::Open,
        };
        let station = desk::Station { hours: f64::from_bits(hours), devices, words, mended };
        let done = |judged: desk::JudgedSheet| in_bits(judged.yes, judged.sheet);
        station.sheet(limit).map_or_else(|refusal| refused(refusal).into(), done)
    }

    fn make(&self, k: usize, r: usize) -> Made {
        match desk::Code::made(k, r) {
            Ok(code) => Made { number: 0, code: unlinked(code) },
            Err(refusal) => Made { number: refusal.number(), code: Code::of(&[], refusal.told()) },
        }
    }

    fn byte_write(&self, data: u64) -> ByteWritten {
        let done = |word| ByteWritten { word, ..ByteWritten::default() };
        desk::byte_write(data).map_or_else(|refusal| refused(refusal).into(), done)
    }

    fn byte_read(&self, word: u64) -> ByteRead {
        let done = |reading: desk::ByteReading| ByteRead {
            verdict: reading.verdict.number(),
            byte: reading.byte.map_or(255, |byte| byte.0),
            word: reading.word,
            ..ByteRead::default()
        };
        desk::byte_read(word).map_or_else(|refusal| refused(refusal).into(), done)
    }

    fn mend(&self, input: &[u8]) -> String {
        program::mend(input)
    }
}

impl OfCodes<WideCode> for Wrapper {
    wrapper_of!(WideCode, linked_wide, u128, halved, wide_data_of);
}

impl Questions<WideCode> for Wrapper {
    fn wanted(&self, k: usize) -> Wanted {
        match desk::wide_check_bits_wanted(k) {
            Ok(check_bits) => Wanted { number: 0, check_bits },
            Err(refusal) => Wanted { number: refusal.number(), check_bits: refusal.told() },
        }
    }

    fn put_back(&self, image: &mut [u8], journal: &mut [u8], used: usize) -> PutBack {
        match desk::wide_put_back(image, journal, used) {
            Ok(count) => PutBack { count, ..PutBack::default() },
            Err(desk::Refusal::Mismatch { count }) => PutBack { number: 18, told: 0, count },
            Err(refusal) => refused(refusal).into(),
        }
    }

    fn make(&self, k: usize, r: usize) -> Made<WideCode> {
        match desk::WideCode::made(k, r) {
            Ok(code) => Made { number: 0, code: unlinked_wide(code) },
            Err(refusal) => Made { number: refusal.number(), code: WideCode::of(&[], refusal.told()) },
        }
    }
}

impl OfCodes<RowCode> for Wrapper {
    wrapper_of!(RowCode, linked_rows, u64, whole, data_of);
}

impl OfCodes<WideRowCode> for Wrapper {
    wrapper_of!(WideRowCode, linked_wide_rows, u128, halved, wide_data_of);
}

#[cfg(test)]
mod tests {
    use super::*;

    #[test]
    fn every_worked_case() {
        assert_eq!(second::worked(&Archive), Vec::<String>::new());
        assert_eq!(second::worked(&Wrapper), Vec::<String>::new());
        assert_eq!(second::worked_wide(&Archive), Vec::<String>::new());
        assert_eq!(second::worked_wide(&Wrapper), Vec::<String>::new());
        assert_eq!(second::worked_rows(&Archive), Vec::<String>::new());
        assert_eq!(second::worked_rows(&Wrapper), Vec::<String>::new());
    }
}
