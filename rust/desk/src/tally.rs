//! What a done pass hands back, and what its tally says.

use crate::{Tally, Verdict};

/// What a done pass hands back.
#[derive(Clone, Copy, PartialEq, Eq, Hash, Debug, Default)]
pub struct Passed {
    /// The journal's entries in use after the pass: those before it and those that it wrote. The next pass in the same
    /// journal is told this count.
    pub used: usize,
    /// How many records of the run have each verdict.
    pub tally: Tally,
}

impl Tally {
    /// How many records of the run have this verdict.
    pub fn count(&self, verdict: Verdict) -> u16 {
        match verdict {
            Verdict::Clean => self.clean,
            Verdict::Data => self.data,
            Verdict::Check => self.check,
            Verdict::Even => self.even,
            Verdict::Odd => self.odd,
            Verdict::Stray => self.stray,
        }
    }

    /// How many entries the pass wrote: one for each record that is not clean.
    ///
    /// ```
    /// let tally = desk::Tally { clean: 7, data: 2, even: 1, ..Default::default() };
    /// assert_eq!(tally.entries(), 3);
    /// ```
    pub fn entries(&self) -> usize {
        Verdict::ALL[1..].iter().map(|&verdict| usize::from(self.count(verdict))).sum()
    }
}
