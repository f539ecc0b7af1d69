//! The version of the archive that this crate goes with.

use crate::ffi;
use std::sync::atomic::{AtomicBool, Ordering};

/// The version of `libdesk.a` that this crate is written for: raised whenever a struct, a size or a meaning changes.
///
/// The first call through this crate compares it with the archive's own, [`ffi::version`]. Where they differ, that call
/// and every later one panics.
pub const VERSION: usize = 5;

/// Whether the versions were compared and are the same.
static IS_SAME: AtomicBool = AtomicBool::new(false);

/// Stops at an archive of another version; once it is known to be the same, this is a look at a flag.
pub(crate) fn compared() {
    if !IS_SAME.load(Ordering::Relaxed) {
        compare(VERSION, ffi::version());
        IS_SAME.store(true, Ordering::Relaxed);
    }
}

/// Stops where the two versions differ.
fn compare(wrapper: usize, archive: usize) {
    assert!(
        wrapper == archive,
        "libdesk.a has version {}, and this wrapper is for version {}: take both from one state of the repository",
        archive,
        wrapper
    );
}

#[cfg(test)]
mod tests {
    use super::*;

    #[test]
    fn the_linked_archive_has_this_version() {
        assert_eq!(ffi::version(), VERSION);
        compared();
        assert!(IS_SAME.load(Ordering::Relaxed));
    }

    #[test]
    #[should_panic(expected = "libdesk.a has version 2, and this wrapper is for version 1")]
    fn a_later_archive_stops() {
        compare(1, 2);
    }

    #[test]
    #[should_panic(expected = "libdesk.a has version 1, and this wrapper is for version 2")]
    fn an_earlier_archive_stops() {
        compare(2, 1);
    }
}
