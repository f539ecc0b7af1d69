//! Version, sizes and the layout of every struct as Rust has them, against c/layout.txt, which C is held to as well.

use desk::ffi::*;
use desk::{ENTRY, IMAGE, LONGEST_LIST, NO_BYTE, NO_PLACE, RECORD, VERSION};
use desk::{WIDE_ENTRY, WIDE_IMAGE, WIDE_LONGEST_LIST, WIDE_RECORD};
use std::mem::{align_of, size_of, size_of_val};

/// The lines of a struct: its size, then each of its fields.
macro_rules! lines {
    ($name:ident { $($field:ident),* } of $value:expr) => {{
        let value: $name = $value;
        let $name { $($field: _),* } = value;
        let start = &value as *const $name as usize;
        let mut lines = vec![format!("{} size {} align {}", stringify!($name), size_of::<$name>(), align_of::<$name>())];
        $({
            let at = &value.$field as *const _ as usize - start;
            let size = size_of_val(&value.$field);
            lines.push(format!("{}.{} at {} size {}", stringify!($name), stringify!($field), at, size));
        })*
        lines
    }};
}

/// The lines of these constants.
macro_rules! sizes {
    ($($name:ident)*) => { vec![$(format!("{} {}", stringify!($name), $name)),*] };
}

#[test]
fn rust_lays_out_every_struct_as_c_does() {
    let lines = [
        sizes!(VERSION RECORD ENTRY IMAGE LONGEST_LIST NO_PLACE),
        vec![format!("NO_BYTE {}", NO_BYTE.0)],
        sizes!(WIDE_RECORD WIDE_ENTRY WIDE_IMAGE WIDE_LONGEST_LIST),
        lines!(Code { columns, k, r } of Code { columns: [0; 64], k: 0, r: 0 }),
        lines!(CheckBits { number, bits } of Default::default()),
        lines!(Judgement { number, told } of Default::default()),
        lines!(RowBalance { number, told, rows } of Default::default()),
        lines!(CheckWord { number, told, check } of Default::default()),
        lines!(ReadWord { number, told, verdict, place, data, check, syndrome } of Default::default()),
        lines!(Listing { number, told, length } of Default::default()),
        lines!(CardCheck { number, told, card, mask } of Default::default()),
        lines!(Tally { clean, data, check, even, odd, stray } of Default::default()),
        lines!(PassAnswer { number, told, used, tally } of Default::default()),
        lines!(PutBack { number, told, count } of Default::default()),
        lines!(Sheet { device, station, share } of Default::default()),
        lines!(SheetAnswer { number, told, yes, sheet } of Default::default()),
        lines!(Made { number, code } of Made { number: 0, code: Code { columns: [0; 64], k: 0, r: 0 } }),
        vec![format!("ByteNumber size {} align {}", size_of::<ByteNumber>(), align_of::<ByteNumber>())],
        lines!(ByteWriting { number, told, word } of Default::default()),
        lines!(ByteReading { number, told, verdict, byte, word } of Default::default()),
        lines!(Recovered { number, told, data, check } of Default::default()),
        lines!(BadPlaces { number, told, data, check } of Default::default()),
        lines!(WideCode { columns, k, r } of WideCode { columns: [0; 128], k: 0, r: 0 }),
        lines!(WideWord { low, high, check } of Default::default()),
        lines!(WideReadWord { number, told, verdict, place, syndrome, word } of Default::default()),
        lines!(WideMade { number, code } of WideMade { number: 0, code: WideCode { columns: [0; 128], k: 0, r: 0 } }),
        lines!(WideRecovered { number, told, word } of Default::default()),
        lines!(WideBadPlaces { number, told, word } of Default::default()),
        lines!(RowCode { columns, n, r, rows } of RowCode { columns: [0; 80], n: 0, r: 0, rows: 0 }),
        lines!(WideRowCode { columns, n, r, rows } of WideRowCode { columns: [0; 144], n: 0, r: 0, rows: 0 }),
    ];
    let expected: Vec<&str> = include_str!("../../../c/layout.txt").lines().collect();
    assert_eq!(lines.concat(), expected);
}
