//! The two editions, for engines that are written once: each is compiled for records of 10 bytes and for records of 18.

use desk::ffi::{self, Code, PassAnswer, WideCode};
use std::ops::{BitAnd, BitXor, Shl, Shr};

/// The data bits of a word.
pub trait Data:
    Copy
    + Default
    + PartialEq
    + BitAnd<Output = Self>
    + BitXor<Output = Self>
    + Shl<usize, Output = Self>
    + Shr<usize, Output = Self>
{
    const BYTES: usize;
    const ONE: Self;
    const ALL: Self;
    fn of(bit: u16) -> Self;
    fn read(bytes: &[u8]) -> Self;
    fn put(self, bytes: &mut [u8]);
    fn ones(self) -> u32;
    /// Its bits from 64 times `at` on.
    fn half(self, at: usize) -> u64;
}

macro_rules! data {
    ($bits:ident) => {
        impl Data for $bits {
            const BYTES: usize = $bits::BITS as usize / 8;
            const ONE: Self = 1;
            const ALL: Self = $bits::MAX;

            fn of(bit: u16) -> Self {
                bit.into()
            }

            fn read(bytes: &[u8]) -> Self {
                $bits::from_le_bytes(bytes[..Self::BYTES].try_into().expect("as many bytes"))
            }

            fn put(self, bytes: &mut [u8]) {
                bytes[..Self::BYTES].copy_from_slice(&self.to_le_bytes());
            }

            fn ones(self) -> u32 {
                self.count_ones()
            }

            fn half(self, at: usize) -> u64 {
                (self >> (64 * at)) as u64
            }
        }
    };
}

data!(u64);
data!(u128);

pub type Pass<C> = fn(&C, &mut [u8], usize, usize, &mut [u8], usize, u32) -> PassAnswer;

/// An edition: its codes as the archive takes them, its sizes, and the archive's own passes.
pub trait Edition: Sized {
    type Code: Copy;
    type Data: Data;
    const NAME: &'static str;
    const RECORD: usize = Self::Data::BYTES + 2;
    const ENTRY: usize = 10 + 2 * Self::RECORD;
    const IMAGE: usize = 65_535 / Self::RECORD * Self::RECORD;
    const QUICK: Pass<Self::Code>;
    const PLAIN: Pass<Self::Code>;
    fn columns(code: &Self::Code) -> &[u16];
    fn k(code: &Self::Code) -> usize;
    fn r(code: &Self::Code) -> usize;
    /// The code that is timed, with as many data bits as there are.
    fn full() -> Self::Code;
    fn check_bits(code: &Self::Code, data: Self::Data) -> u16;
}

/// The first so many columns of r rows with three ones, then five.
fn odd_columns<const K: usize>(r: usize) -> [u16; K] {
    let with = |ones: u32| (0..1u32 << r).filter(move |column| column.count_ones() == ones);
    let columns: Vec<u16> = with(3).chain(with(5)).take(K).map(|column| column as u16).collect();
    columns.try_into().expect("so many columns")
}

/// Records of 10 bytes.
pub struct Ten;

impl Edition for Ten {
    type Code = Code;
    type Data = u64;
    const NAME: &'static str = "10-byte records, 64 data bits, 8 check bits";
    const QUICK: Pass<Code> = ffi::quick_pass;
    const PLAIN: Pass<Code> = ffi::pass;

    fn columns(code: &Code) -> &[u16] {
        &code.columns
    }

    fn k(code: &Code) -> usize {
        code.k
    }

    fn r(code: &Code) -> usize {
        code.r
    }

    fn full() -> Code {
        Code { columns: odd_columns(8), k: 64, r: 8 }
    }

    fn check_bits(code: &Code, data: u64) -> u16 {
        ffi::write(code, data).check
    }
}

/// Records of 18 bytes.
pub struct Eighteen;

impl Edition for Eighteen {
    type Code = WideCode;
    type Data = u128;
    const NAME: &'static str = "18-byte records, 128 data bits, 9 check bits";
    const QUICK: Pass<WideCode> = ffi::wide_quick_pass;
    const PLAIN: Pass<WideCode> = ffi::wide_pass;

    fn columns(code: &WideCode) -> &[u16] {
        &code.columns
    }

    fn k(code: &WideCode) -> usize {
        code.k
    }

    fn r(code: &WideCode) -> usize {
        code.r
    }

    fn full() -> WideCode {
        WideCode { columns: odd_columns(9), k: 128, r: 9 }
    }

    fn check_bits(code: &WideCode, data: u128) -> u16 {
        ffi::wide_write(code, data as u64, (data >> 64) as u64).check
    }
}
