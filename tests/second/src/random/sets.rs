//! Sets of literals to ask a body about, as rows of yes and no and as words.

use crate::model::{clean, held};
use crate::random::{Chance, record};
use crate::table::{Literal, rules_of};

/// A set with none, few, many or all of the literals of N atoms.
pub fn literal_set(chance: &mut Chance, n: u64) -> Vec<bool> {
    let percent = chance.of(&[0, 10, 50, 80, 95, 100]);
    (0..2 * n).map(|_| chance.percent(percent)).collect()
}

/// The set of exactly the literals of these groups.
pub fn set_of(n: u64, groups: &[Vec<Literal>]) -> Vec<bool> {
    let mut set = vec![false; 2 * n as usize];
    groups.iter().flatten().for_each(|&literal| set[literal] = true);
    set
}

/// A set that has to do with the groups of a body: exactly one of them, the same less a literal, exactly those from one on, all literals
/// less one of each group before it, or any set.
pub fn body_set(chance: &mut Chance, n: u64, groups: &[Vec<Literal>]) -> Vec<bool> {
    if groups.is_empty() {
        return literal_set(chance, n);
    }
    let at = chance.index(groups.len());
    match chance.below(5) {
        0 => set_of(n, &groups[at..=at]),
        1 => {
            let mut set = set_of(n, &groups[at..=at]);
            set[chance.of(&groups[at])] = false;
            set
        }
        2 => set_of(n, &groups[at..]),
        3 => {
            let mut set = vec![true; 2 * n as usize];
            groups[..at].iter().for_each(|group| set[chance.of(group)] = false);
            set
        }
        _ => literal_set(chance, n),
    }
}

/// The words of a set, literal l as bit l mod 64, lowest first, of word l div 64: as many as it needs.
pub fn set_words(set: &[bool]) -> Vec<u64> {
    let word = |row: &[bool]| row.iter().rev().fold(0, |word, &is_in| word << 1 | u64::from(is_in));
    set.chunks(64).map(word).collect()
}

/// The words of a set, sometimes fewer of them, or more, up to 17; what stands past its literals is of chance.
pub fn any_set_words(chance: &mut Chance, set: &[bool]) -> Vec<u64> {
    let mut words = set_words(set);
    if let Some(last) = words.last_mut().filter(|_| set.len() % 64 > 0) {
        *last |= chance.number() << (set.len() % 64);
    }
    match chance.below(8) {
        0 => words.truncate(chance.index(words.len() + 1)),
        1 => words.resize_with(chance.of(&[words.len() + 1, 16, 17]), || chance.number()),
        _ => {}
    }
    words
}

/// The words of a set to ask the first record of a table about: one that has to do with its body, any, or what is held or clean at marks
/// of chance. For a table that is refused, any set.
pub fn any_set(chance: &mut Chance, n: u64, words: &[u16]) -> Vec<u64> {
    let n = n.min(512);
    let rules = rules_of(n, words).unwrap_or_default();
    let set = match chance.below(8) {
        0 => held(&rules, &record(chance, n).marked()),
        1 => clean(&rules, &record(chance, n).marked()),
        2 => literal_set(chance, n),
        _ => body_set(chance, n, rules.first().map_or(&[], |rule| &rule.groups)),
    };
    any_set_words(chance, &set)
}
