//! A desk is whatever answers all questions: the second program here, the linked desk in a comparison.

use crate::answers::{Balanced, CardsChecked, Explained, Found, Judged, Passed, PutBack, Reading, Recovered};
use crate::answers::{Wanted, Written};
use crate::bytes::{ByteRead, ByteWritten};
use crate::code::{Code, Coded, Hsiao};
use crate::make::Made;
use crate::pass::Pass;
use crate::sheet::{Sheeted, Station};

/// Every question of document 01, and 02's put-back, sheet, maker, words of ten bytes, bad places and finder. No method has a
/// body here: a desk must not fall back on another's answer.
pub trait Desk {
    fn name(&self) -> &'static str;
    fn wanted(&self, k: usize) -> Wanted;
    fn judge(&self, code: &Code) -> Judged;
    fn row_balance(&self, code: &Code) -> Balanced;
    fn write(&self, code: &Code, data: u64) -> Written;
    fn read(&self, code: &Code, data: u64, check: u16) -> Reading;
    fn explain(&self, code: &Code, data: u64, check: u16, limit: usize, list: &mut [u8]) -> Explained;
    fn card_check(&self, code: &Code, b: usize) -> CardsChecked;
    fn pass(&self, code: &Code, image: &mut [u8], journal: &mut [u8], asked: &Pass) -> Passed;
    /// The journal is lent to be read; it could be written here, so that a desk which does so is noticed.
    fn put_back(&self, image: &mut [u8], journal: &mut [u8], used: usize) -> PutBack;
    fn sheet(&self, asked: &Station) -> Sheeted;
    fn make(&self, k: usize, r: usize) -> Made;
    fn byte_write(&self, data: u64) -> ByteWritten;
    fn byte_read(&self, word: u64) -> ByteRead;
    fn recover(&self, code: &Code, data: u64, check: u16, bad: &[usize]) -> Recovered;
    fn find_bad(&self, code: &Code, first: (u64, u16), second: (u64, u16)) -> Found;
    fn mend(&self, input: &[u8]) -> String;
}

/// Every question that takes a code, of one family and edition.
pub trait OfCodes<C: Coded> {
    fn name(&self) -> &'static str;
    fn judge(&self, code: &C) -> Judged;
    fn row_balance(&self, code: &C) -> Balanced;
    fn write(&self, code: &C, data: C::Data) -> Written;
    fn read(&self, code: &C, data: C::Data, check: u16) -> Reading<C::Data>;
    fn explain(&self, code: &C, data: C::Data, check: u16, limit: usize, list: &mut [u8]) -> Explained;
    fn card_check(&self, code: &C, b: usize) -> CardsChecked;
    fn pass(&self, code: &C, image: &mut [u8], journal: &mut [u8], asked: &Pass) -> Passed;
    fn recover(&self, code: &C, data: C::Data, check: u16, bad: &[usize]) -> Recovered<C::Data>;
    fn find_bad(&self, code: &C, first: (C::Data, u16), second: (C::Data, u16)) -> Found<C::Data>;
}

/// And the others of an edition, whose codes are made of Hsiao's family.
pub trait Questions<C: Hsiao>: OfCodes<C> {
    fn wanted(&self, k: usize) -> Wanted;
    fn put_back(&self, image: &mut [u8], journal: &mut [u8], used: usize) -> PutBack;
    fn make(&self, k: usize, r: usize) -> Made<C>;
}

/// A desk answers those of the ten-byte edition.
impl OfCodes<Code> for &dyn Desk {
    fn name(&self) -> &'static str {
        (**self).name()
    }

    fn judge(&self, code: &Code) -> Judged {
        (**self).judge(code)
    }

    fn row_balance(&self, code: &Code) -> Balanced {
        (**self).row_balance(code)
    }

    fn write(&self, code: &Code, data: u64) -> Written {
        (**self).write(code, data)
    }

    fn read(&self, code: &Code, data: u64, check: u16) -> Reading {
        (**self).read(code, data, check)
    }

    fn explain(&self, code: &Code, data: u64, check: u16, limit: usize, list: &mut [u8]) -> Explained {
        (**self).explain(code, data, check, limit, list)
    }

    fn card_check(&self, code: &Code, b: usize) -> CardsChecked {
        (**self).card_check(code, b)
    }

    fn pass(&self, code: &Code, image: &mut [u8], journal: &mut [u8], asked: &Pass) -> Passed {
        (**self).pass(code, image, journal, asked)
    }

    fn recover(&self, code: &Code, data: u64, check: u16, bad: &[usize]) -> Recovered {
        (**self).recover(code, data, check, bad)
    }

    fn find_bad(&self, code: &Code, first: (u64, u16), second: (u64, u16)) -> Found {
        (**self).find_bad(code, first, second)
    }
}

impl Questions<Code> for &dyn Desk {
    fn wanted(&self, k: usize) -> Wanted {
        (**self).wanted(k)
    }

    fn put_back(&self, image: &mut [u8], journal: &mut [u8], used: usize) -> PutBack {
        (**self).put_back(image, journal, used)
    }

    fn make(&self, k: usize, r: usize) -> Made {
        (**self).make(k, r)
    }
}

/// The second program.
#[derive(Clone, Copy, Debug)]
pub struct Second;

impl Desk for Second {
    fn name(&self) -> &'static str {
        "second"
    }

    fn wanted(&self, k: usize) -> Wanted {
        crate::wanted(k)
    }

    fn judge(&self, code: &Code) -> Judged {
        crate::judge(code)
    }

    fn row_balance(&self, code: &Code) -> Balanced {
        crate::row_balance(code)
    }

    fn write(&self, code: &Code, data: u64) -> Written {
        crate::write(code, data)
    }

    fn read(&self, code: &Code, data: u64, check: u16) -> Reading {
        crate::read(code, data, check)
    }

    fn explain(&self, code: &Code, data: u64, check: u16, limit: usize, list: &mut [u8]) -> Explained {
        crate::explain(code, data, check, limit, list)
    }

    fn card_check(&self, code: &Code, b: usize) -> CardsChecked {
        crate::card_check(code, b)
    }

    fn pass(&self, code: &Code, image: &mut [u8], journal: &mut [u8], asked: &Pass) -> Passed {
        crate::pass(code, image, journal, asked)
    }

    fn put_back(&self, image: &mut [u8], journal: &mut [u8], used: usize) -> PutBack {
        crate::put_back(image, journal, used)
    }

    fn sheet(&self, asked: &Station) -> Sheeted {
        crate::sheet(asked)
    }

    fn make(&self, k: usize, r: usize) -> Made {
        crate::make(k, r)
    }

    fn byte_write(&self, data: u64) -> ByteWritten {
        crate::byte_write(data)
    }

    fn byte_read(&self, word: u64) -> ByteRead {
        crate::byte_read(word)
    }

    fn recover(&self, code: &Code, data: u64, check: u16, bad: &[usize]) -> Recovered {
        crate::recover(code, data, check, bad)
    }

    fn find_bad(&self, code: &Code, first: (u64, u16), second: (u64, u16)) -> Found {
        crate::find_bad(code, first, second)
    }

    fn mend(&self, input: &[u8]) -> String {
        crate::mend(input)
    }
}

/// In any edition it goes by the same brute force.
impl<C: Coded> OfCodes<C> for Second {
    fn name(&self) -> &'static str {
        "second"
    }

    fn judge(&self, code: &C) -> Judged {
        crate::judge(code)
    }

    fn row_balance(&self, code: &C) -> Balanced {
        crate::row_balance(code)
    }

    fn write(&self, code: &C, data: C::Data) -> Written {
        crate::write(code, data)
    }

    fn read(&self, code: &C, data: C::Data, check: u16) -> Reading<C::Data> {
        crate::read(code, data, check)
    }

    fn explain(&self, code: &C, data: C::Data, check: u16, limit: usize, list: &mut [u8]) -> Explained {
        crate::explain(code, data, check, limit, list)
    }

    fn card_check(&self, code: &C, b: usize) -> CardsChecked {
        crate::card_check(code, b)
    }

    fn pass(&self, code: &C, image: &mut [u8], journal: &mut [u8], asked: &Pass) -> Passed {
        crate::pass(code, image, journal, asked)
    }

    fn recover(&self, code: &C, data: C::Data, check: u16, bad: &[usize]) -> Recovered<C::Data> {
        crate::recover(code, data, check, bad)
    }

    fn find_bad(&self, code: &C, first: (C::Data, u16), second: (C::Data, u16)) -> Found<C::Data> {
        crate::find_bad(code, first, second)
    }
}

impl<C: Hsiao> Questions<C> for Second {
    fn wanted(&self, k: usize) -> Wanted {
        crate::wanted_in::<C>(k)
    }

    fn put_back(&self, image: &mut [u8], journal: &mut [u8], used: usize) -> PutBack {
        crate::put_back_in::<C>(image, journal, used)
    }

    fn make(&self, k: usize, r: usize) -> Made<C> {
        crate::make_in(k, r)
    }
}
