//! A bar on standard error, where something takes longer than a second and somebody is looking.

use indicatif::ProgressBar;
use std::cell::RefCell;
use std::time::{Duration, Instant};

pub struct Progress {
    total: usize,
    begin: Instant,
    bar: RefCell<Option<ProgressBar>>,
}

impl Progress {
    pub fn new(total: usize) -> Progress {
        Progress { total, begin: Instant::now(), bar: RefCell::new(None) }
    }

    /// So many are done.
    pub fn at(&self, done: usize) {
        if done % 256 != 0 || self.begin.elapsed() < Duration::from_secs(1) {
            return;
        }
        let mut bar = self.bar.borrow_mut();
        bar.get_or_insert_with(|| ProgressBar::new(self.total as u64)).set_position(done as u64);
    }
}

impl Drop for Progress {
    fn drop(&mut self) {
        if let Some(bar) = self.bar.borrow_mut().take() {
            bar.finish_and_clear();
        }
    }
}
