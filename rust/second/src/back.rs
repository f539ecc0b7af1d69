//! Putting back: what a record holds once the last entries were put back is what the first of them says was read there.
//!
//! Nothing is undone step by step: every entry is asked whether it would match, and the image is built anew.

use crate::answers::{PutBack, Refusal};
use crate::code::{Code, Coded};

/// What an entry says: the number of its record, and the record's bytes as read and as left. The rest is not judged.
struct Said<'a> {
    record: usize,
    read: &'a [u8],
    left: &'a [u8],
}

fn said<C: Coded>(entry: &[u8]) -> Said<'_> {
    let (head, bytes) = entry.split_at(C::ENTRY - 2 * C::RECORD);
    let (read, left) = bytes.split_at(C::RECORD);
    Said { record: usize::from(head[4]) + 256 * usize::from(head[5]), read, left }
}

/// What a record holds once these entries were put back, if it held so much before.
fn holds<'a>(record: usize, held: &'a [u8], back: &[Said<'a>]) -> &'a [u8] {
    back.iter().find(|one| one.record == record).map_or(held, |one| one.read)
}

/// Puts back the entries in use behind the last of them that does not match, or all.
pub fn put_back(image: &mut [u8], journal: &[u8], used: usize) -> PutBack {
    put_back_in::<Code>(image, journal, used)
}

/// The same in any edition.
pub fn put_back_in<C: Coded>(image: &mut [u8], journal: &[u8], used: usize) -> PutBack {
    if image.len() % C::RECORD != 0 || image.len() > C::IMAGE {
        return Refusal::plain(12).into();
    }
    let entries: Vec<Said> = journal.chunks_exact(C::ENTRY).take(used).map(said::<C>).collect();
    if entries.len() < used {
        return Refusal::plain(17).into();
    }
    let before = image.to_vec();
    let records: Vec<&[u8]> = before.chunks(C::RECORD).collect();
    let fits = |(at, one): (usize, &Said)| {
        let held = records.get(one.record);
        held.map_or(false, |held| holds(one.record, held, &entries[at + 1..]) == one.left)
    };
    let fitting: Vec<bool> = entries.iter().enumerate().map(fits).collect();
    let unfit = fitting.iter().rposition(|&fit| !fit);
    let back = &entries[unfit.map_or(0, |at| at + 1)..];
    let anew = records.iter().enumerate().map(|(record, held)| holds(record, held, back));
    image.copy_from_slice(&anew.collect::<Vec<_>>().concat());
    PutBack { number: if unfit.is_some() { 18 } else { 0 }, told: 0, count: back.len() }
}
