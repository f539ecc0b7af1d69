//! Putting an image back as it was read.

use crate::refusal::Plain;
use crate::{ffi, Refusal};

/// Puts the image back as it was read, from its journal: how many entries were put back.
///
/// From the last of the `used` entries in use to the first, a record that holds an entry's bytes as left gets its bytes as
/// read. Where all match, all `used` are put back. After passes from a new journal, each told the true count in use, the
/// image is then, byte for byte, what it was before the first of them. No code is needed, and the journal is only read.
///
/// ```
/// use desk::{put_back, Code, Refusal, ENTRY};
///
/// # fn main() -> Result<(), Refusal> {
/// let code = Code::new(&[28, 26, 25, 22, 21, 19, 14, 13], 5)?;
/// let as_read = [0xA4, 0, 0, 0, 0, 0, 0, 0, 27, 0, 0xA6, 0, 0, 0, 0, 0, 0, 0, 27, 0];
/// let mut image = as_read;
/// let mut journal = [0; 2 * ENTRY];
/// let passed = code.pass(&mut image, 0..2, &mut journal, 0, 7)?;
/// assert_eq!((image[0], passed.used), (0xA5, 2));
///
/// assert_eq!(put_back(&mut image, &journal, passed.used), Ok(2));
/// assert_eq!(image, as_read);
/// # Ok(())
/// # }
/// ```
///
/// An entry whose record lies outside the image, or holds other bytes than those as left, stops it with
/// [`Refusal::Mismatch`], which tells how many were put back before. Unlike any other refusal this one leaves a changed
/// image: those entries stay put back, and nothing else is touched. Stamp, verdict, place and syndrome of an entry are not
/// judged.
///
/// ```
/// use desk::{put_back, Code, Refusal, ENTRY};
///
/// # fn main() -> Result<(), Refusal> {
/// let code = Code::new(&[28, 26, 25, 22, 21, 19, 14, 13], 5)?;
/// let mut image = [0xA4, 0, 0, 0, 0, 0, 0, 0, 27, 0, 0xA5, 0, 0, 0, 0, 0, 0, 0, 26, 0];
/// let mut journal = [0; 2 * ENTRY];
/// let used = code.pass(&mut image, 0..2, &mut journal, 0, 7)?.used;
///
/// // Somebody changes the first record after the pass: the second entry is put back, the first is not.
/// image[0] = 0xA7;
/// assert_eq!(put_back(&mut image, &journal, used), Err(Refusal::Mismatch { count: 1 }));
/// assert_eq!((image[0], image[18]), (0xA7, 26));
///
/// // No more entries are in use than the journal has room for, and an image is whole records.
/// assert_eq!(put_back(&mut image, &journal, 3), Err(Refusal::CountInUse));
/// assert_eq!(put_back(&mut image[..19], &journal, 3), Err(Refusal::ImageLength));
/// # Ok(())
/// # }
/// ```
pub fn put_back(image: &mut [u8], journal: &[u8], used: usize) -> Result<usize, Refusal> {
    let ffi::PutBack { number, told, count } = ffi::put_back(image, journal, used);
    Refusal::of(Plain { number, told, count, ..Plain::default() }).map_or(Ok(count), Err)
}
