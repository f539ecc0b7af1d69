//! Places known to be bad: every word within reach is tried, and the finder compares place by place.

use crate::answers::{Found, Recovered, Refusal};
use crate::code::{Coded, Data};
use crate::word::{number, word_of, Accepted};
use std::collections::BTreeSet;

/// The words that come from this one by any values in the bad places and, beside them, at most `flips` flips.
fn within_reach(word: &[bool], bad: &[usize], flips: usize) -> Vec<Vec<bool>> {
    let mut words = vec![word.to_vec()];
    for &place in bad {
        let set = |on: bool| {
            let with = move |word: &Vec<bool>| {
                let mut word = word.clone();
                word[place] = on;
                word
            };
            words.iter().map(with).collect::<Vec<_>>()
        };
        words = [set(false), set(true)].concat();
    }
    for _ in 0..flips {
        let flipped = |word: &Vec<bool>, place: usize| {
            let mut word = word.clone();
            word[place] = !word[place];
            word
        };
        let further: Vec<_> = words.iter().flat_map(|word| (0..word.len()).map(move |p| flipped(word, p))).collect();
        words.extend(further);
    }
    words
}

/// The most t with 2t + e < 4, for e bad places.
fn flips_beside(bad: usize) -> usize {
    (0..4).filter(|t| 2 * t + bad < 4).max().unwrap_or(0)
}

/// Which code word was this, if these places are bad?
pub fn recover<C: Coded>(code: &C, data: C::Data, check: u16, bad: &[usize]) -> Recovered<C::Data> {
    try_recover(code, data.into(), check, bad).unwrap_or_else(Recovered::from)
}

fn try_recover<C: Coded>(code: &C, data: u128, check: u16, bad: &[usize]) -> Result<Recovered<C::Data>, Refusal> {
    let code = Accepted::new(code)?;
    let word = word_of(&code, data, check)?;
    let different: BTreeSet<usize> = bad.iter().copied().filter(|&place| place < code.n()).collect();
    if bad.len() > 3 || different.len() < bad.len() {
        return Err(Refusal::plain(22));
    }
    let words = within_reach(&word, bad, flips_beside(bad.len()));
    let proper: BTreeSet<Vec<bool>> = words.into_iter().filter(|word| code.is_clean(word)).collect();
    assert!(proper.len() <= 1, "two code words are within reach of {:?} with {:?} bad", word, bad);
    let word = proper.into_iter().next().ok_or_else(|| Refusal::plain(23))?;
    let (data, check) = (number(&word[..code.k]), number(&word[code.k..]) as u16);
    Ok(Recovered { data: C::Data::of(data), check, ..Recovered::default() })
}

/// Which places do not differ in two reads, after a pattern and its complement were written?
pub fn find_bad<C: Coded>(code: &C, first: (C::Data, u16), second: (C::Data, u16)) -> Found<C::Data> {
    try_find(code, first, second).unwrap_or_else(Found::from)
}

fn try_find<C: Coded>(code: &C, first: (C::Data, u16), second: (C::Data, u16)) -> Result<Found<C::Data>, Refusal> {
    let code = Accepted::new(code)?;
    let one = word_of(&code, first.0.into(), first.1)?;
    let other = word_of(&code, second.0.into(), second.1)?;
    let same: Vec<bool> = one.iter().zip(&other).map(|(a, b)| a == b).collect();
    let (data, check) = (number(&same[..code.k]), number(&same[code.k..]) as u16);
    Ok(Found { data: C::Data::of(data), check, ..Found::default() })
}

#[cfg(test)]
mod tests {
    use super::*;

    #[test]
    fn flips_by_the_document() {
        assert_eq!([0, 1, 2, 3].map(flips_beside), [1, 1, 0, 0]);
    }

    #[test]
    fn reach_by_hand() {
        let words = within_reach(&[false, false, true], &[0], 0);
        assert_eq!(words, [[false, false, true], [true, false, true]]);
        assert_eq!(within_reach(&[false; 3], &[], 1).len(), 4);
        assert_eq!(within_reach(&[false; 5], &[1, 3, 4], 0).len(), 8);
    }
}
