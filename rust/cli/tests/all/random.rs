//! A thousand command lines and damaged files: no panic, and never another status than 0, 1, 2 or 3.

use crate::common::{command, is_emulated, status, Room, AS_READ};
use std::ffi::OsString;
use std::os::unix::ffi::OsStringExt;

/// Numbers from a fixed seed (xorshift).
struct Any(u64);

impl Any {
    fn below(&mut self, end: usize) -> usize {
        self.0 ^= self.0 << 13;
        self.0 ^= self.0 >> 7;
        self.0 ^= self.0 << 17;
        (self.0 >> 11) as usize % end
    }

    fn of<'a, T: ?Sized>(&mut self, list: &[&'a T]) -> &'a T {
        list[self.below(list.len())]
    }

    fn bytes(&mut self, length: usize) -> Vec<u8> {
        (0..length).map(|_| self.below(256) as u8).collect()
    }
}

/// Lines that mean something in a fresh room; the last ones are refused.
const LINES: &str = "code make 8 5
code make 100 --edition 128 --out made.toml
code judge code.toml
code show wide.toml
code show rows.toml
word write code.toml A5
word read code.toml A4 1B
word explain code.toml A6 1B --limit 2
word recover code.toml A6 19 --bad d0,d1,c1
word read rows.toml A4 1B
word read wide.toml A4 1B
pass code.toml image journal
pass code.toml image journal --run 0..1 --stamp 9999999
pass code.toml image journal --resume
pass wide.toml wide wide-journal
journal journal
journal wide-journal --edition 128
put-back image journal --out made
put-back wide wide-journal --out made --edition 128
report code.toml image journal --out page
report wide.toml wide wide-journal --out page
sheet --hours 6 --devices 4 --words 8 --mended 1 --ceiling 0.25
sheet --hours 6 --devices 4 --words 8 --mended 1 --band 0.1..0.25
bytes write 8
bytes read 223C0008
--json pass code.toml image journal
code make 12 5
word write code.toml 1FF
word recover code.toml A6 1B
word recover code.toml A6 1B --bad d0,d0
pass code.toml image journal --run 1..9
pass code.toml image journal --stamp 1
pass wide.toml image journal
sheet --hours 0 --devices 4 --words 8 --mended 1
bytes read FFFFFFFF";

/// Words that mean something somewhere, and some that do not, apart by bars.
const WORDS: &str = "code|word|pass|journal|put-back|sheet|bytes|report|make|judge|show|write|read|explain|recover|help|\
    --json|--help|--version|--out|--replace|--run|--stamp|--resume|--edition|--limit|--bad|--hours|--devices|--words|\
    --mended|--ceiling|--band|--|-||image|journal|code.toml|wide.toml|rows.toml|wide|wide-journal|missing|.|/|/dev/null|\
    /dev/zero|missing/file|.image.desk-lock|0|1|2|3|8|64|65|128|-1|1e308|NaN|inf|0..1|1..0|0..99999999999999999999|..|a..b|\
    18446744073709551615|18446744073709551616|FFFFFFFFFFFFFFFFFFFFFFFFFFFFFFFF|0x|1_0|d99999999999999999999|c7,c7|\
    data bit 3|2106-02-07T06:28:16Z|0000-00-00|1969-12-31T23:59:59Z|é|💥|\n";

fn fresh() -> Room {
    let room = Room::new();
    room.says(&["pass", "code.toml", "image", "journal", "--stamp", "1000"]);
    room.write("rows.toml", b"family = \"rows\"\nedition = 64\nr = 5\nrows = [4]\ncolumns = [28, 26, 25, 22, 21, 19, 30, 29, 17, 18, 20, 24, 16]\n");
    room.says(&["code", "make", "128", "--edition", "128", "--out", "wide.toml"]);
    room.write("wide", &[&[1; 1][..], &[0; 35]].concat());
    room.says(&["pass", "wide.toml", "wide", "wide-journal", "--stamp", "1000"]);
    room
}

/// Damages a file: a bit, a byte, its end, or all of it.
fn damage(any: &mut Any, room: &Room) {
    let name = any.of(&["code.toml", "image", "journal", "wide.toml", "wide", "wide-journal", "rows.toml"]);
    let mut bytes = if room.has(name) { room.read(name) } else { AS_READ.to_vec() };
    let at = any.below(bytes.len() + 1);
    match any.below(7) {
        0 if at < bytes.len() => bytes[at] ^= 1 << any.below(8),
        1 if at < bytes.len() => bytes[at] = any.below(256) as u8,
        2 => bytes.truncate(at),
        3 => bytes.extend(any.bytes(at)),
        4 => bytes = any.bytes(at),
        _ => digit(any, &mut bytes),
    }
    room.write(name, &bytes);
}

/// Another digit for one of a text's digits.
fn digit(any: &mut Any, bytes: &mut [u8]) {
    let digits: Vec<usize> = (0..bytes.len()).filter(|&at| bytes[at].is_ascii_digit()).collect();
    if !digits.is_empty() {
        bytes[digits[any.below(digits.len())]] = b'0' + any.below(2) as u8;
    }
}

/// A line of words: one that is done, with none to three of its words exchanged, or any words at all.
fn line(any: &mut Any) -> Vec<OsString> {
    if any.below(8) == 0 {
        return (0..any.below(9)).map(|_| word(any)).collect();
    }
    let mut line: Vec<OsString> = any.of(&LINES.lines().collect::<Vec<_>>()).split(' ').map(OsString::from).collect();
    for _ in 0..any.below(6).saturating_sub(2) {
        let at = any.below(line.len());
        line[at] = word(any);
    }
    line
}

/// A word, none of which has a zero byte, which no command line can have.
fn word(any: &mut Any) -> OsString {
    let length = any.below(12);
    let bytes = if any.below(10) == 0 {
        any.bytes(length)
    } else {
        any.of(&WORDS.split('|').collect::<Vec<_>>()).as_bytes().to_vec()
    };
    OsString::from_vec(bytes.into_iter().filter(|&byte| byte != 0).collect())
}

#[test]
fn a_thousand_lines_and_damaged_files() {
    let lines = if is_emulated() { 100 } else { 1000 };
    if is_emulated() {
        println!("LEFT OUT: 900 of a thousand random command lines, under the emulator");
    }
    let (mut any, mut met) = (Any(0x5DEECE66D), [0; 4]);
    for number in 0..lines / 10 {
        let room = fresh();
        for _ in 0..10 {
            if number % 3 > 0 {
                damage(&mut any, &room);
            }
            let line = line(&mut any);
            let done = command(&room, &[]).args(&line).output().unwrap();
            let says = String::from_utf8_lossy(&done.stderr).into_owned();
            assert!((0..4).contains(&status(&done)) && !says.contains("panicked"), "{:?}: {:?}", line, done);
            assert!(status(&done) == 0 || !says.is_empty(), "{:?} is not done and says nothing", line);
            met[status(&done) as usize] += 1;
        }
    }
    println!("statuses 0 to 3 were met {:?} times", met);
    assert!(met.iter().all(|&times| times * 40 > lines), "{:?}", met);
}
