//! Explanations: every set of places whose flipping gives a clean word.

use crate::answers::{Explained, Refusal};
use crate::code::Coded;
use crate::word::{word_of, Accepted, NO_PLACE};

/// A search through all sets of a given size, the lower places first.
struct Search<'a> {
    code: &'a Accepted,
    word: Vec<bool>,
    flipped: Vec<usize>,
    found: Vec<Vec<usize>>,
}

impl Search<'_> {
    /// Flips every set of `more` further places above those flipped so far, and keeps those that give a clean word.
    fn flip(&mut self, more: usize) {
        if more == 0 {
            if self.code.is_clean(&self.word) {
                self.found.push(self.flipped.clone());
            }
            return;
        }
        let from = self.flipped.last().map_or(0, |&highest| highest + 1);
        for place in from..self.word.len() {
            self.word[place] = !self.word[place];
            self.flipped.push(place);
            self.flip(more - 1);
            self.flipped.pop();
            self.word[place] = !self.word[place];
        }
    }
}

/// All sets of at most `limit` places that explain the word: fewer places first, then the lower first place.
pub fn explanations(code: &Accepted, word: &[bool], limit: usize) -> Vec<Vec<usize>> {
    let mut search = Search { code, word: word.to_vec(), flipped: Vec::new(), found: Vec::new() };
    for size in 0..=limit {
        search.flip(size);
    }
    search.found
}

/// Which sets of at most `limit` places explain the word as read? The list goes into `list`, two bytes an entry.
pub fn explain<C: Coded>(code: &C, data: C::Data, check: u16, limit: usize, list: &mut [u8]) -> Explained {
    let explained = Accepted::new(code).and_then(|code| try_explain(&code, data.into(), check, limit, list));
    explained.unwrap_or_else(Explained::from)
}

fn try_explain(code: &Accepted, data: u128, check: u16, limit: usize, list: &mut [u8]) -> Result<Explained, Refusal> {
    let word = word_of(code, data, check)?;
    if limit > 2 {
        return Err(Refusal::plain(11));
    }
    let found = explanations(code, &word, limit);
    if found.len() > list.len() / 2 {
        return Err(Refusal { number: 10, told: found.len() });
    }
    for (entry, places) in list.chunks_exact_mut(2).zip(&found) {
        for (t, byte) in entry.iter_mut().enumerate() {
            *byte = *places.get(t).unwrap_or(&NO_PLACE) as u8;
        }
    }
    Ok(Explained { length: found.len(), ..Explained::default() })
}

#[cfg(test)]
mod tests {
    use super::*;
    use crate::program::sample_code;

    #[test]
    fn the_three_flips_of_the_sample_are_among_those_of_three_places() {
        let sample = Accepted::new(&sample_code()).unwrap();
        let word = word_of(&sample, 0xA6, 25).unwrap();
        assert_eq!(explanations(&sample, &word, 2), [[10]]);
        assert!(explanations(&sample, &word, 3).contains(&vec![0, 1, 9]));
    }
}
