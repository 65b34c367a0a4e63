//! Model wanted: which group of a body is wholly in a set, Held, Clean, which atoms can be marked, whole evaluation, and the question of
//! conflict.

use crate::refusal::*;
use crate::table::{self, Literal, Rule, atom_of};
use crate::truth::{F, I, T, U};

/// The number of the lowest group of a body that is wholly in the set, from 1 (document 02, W4); 0 for a fact, `None` if no group is.
pub fn which_group(groups: &[Vec<Literal>], set: &[bool]) -> Option<usize> {
    if groups.is_empty() {
        return Some(0);
    }
    let before = groups.iter().position(|group| group.iter().all(|&literal| set[literal]))?;
    Some(before + 1)
}

/// What is said of a table's first record.
#[derive(Clone, Copy, Debug, PartialEq, Eq)]
pub enum OfFirst {
    Group(usize),
    NoGroup,
    NoRecord,
}

/// Which group of the table's first record is wholly in the set: literal l is bit l mod 64, lowest first, of word l div 64, and one past
/// the words is not in it. 1, 2, then the table's words.
pub fn which_group_of_first(n: u64, words: &[u16], set: &[u64]) -> Result<OfFirst, Refusal> {
    table::check_n(n)?;
    table::check_length(words)?;
    let rules = table::rules_of(n, words)?;
    let has = |literal: Literal| set.get(literal / 64).is_some_and(|word| word >> (literal % 64) & 1 == 1);
    let set: Vec<bool> = (0..2 * n as usize).map(has).collect();
    Ok(match rules.first().map(|rule| which_group(&rule.groups, &set)) {
        Some(Some(number)) => OfFirst::Group(number),
        Some(None) => OfFirst::NoGroup,
        None => OfFirst::NoRecord,
    })
}

/// The least set of literals that contains `start` and the head of each rule given that is a fact or has a group wholly in it.
fn least_set(start: Vec<bool>, rules: &[&Rule]) -> Vec<bool> {
    let mut set = start;
    loop {
        let mut grown = false;
        for rule in rules {
            if !set[rule.head] && which_group(&rule.groups, &set).is_some() {
                set[rule.head] = true;
                grown = true;
            }
        }
        if !grown {
            return set;
        }
    }
}

/// Held: both literals of each marked atom, and all that follows by any rule. `marked` has one entry for each atom.
pub fn held(rules: &[Rule], marked: &[bool]) -> Vec<bool> {
    let start = (0..2 * marked.len()).map(|literal| marked[atom_of(literal)]).collect();
    least_set(start, &rules.iter().collect::<Vec<_>>())
}

/// Clean: what follows from nothing by the rules whose head atom is unmarked.
pub fn clean(rules: &[Rule], marked: &[bool]) -> Vec<bool> {
    let unmarked: Vec<&Rule> = rules.iter().filter(|rule| !marked[atom_of(rule.head)]).collect();
    least_set(vec![false; 2 * marked.len()], &unmarked)
}

/// The atoms that can be marked: unmarked, and both literals held or one held and not clean.
pub fn markable(rules: &[Rule], marked: &[bool]) -> Vec<usize> {
    let held = held(rules, marked);
    let clean = clean(rules, marked);
    let doubtful = |literal: usize| held[literal] && !clean[literal];
    let can = |atom: &usize| {
        let (positive, negative) = (2 * atom, 2 * atom + 1);
        !marked[*atom] && (held[positive] && held[negative] || doubtful(positive) || doubtful(negative))
    };
    (0..marked.len()).filter(can).collect()
}

/// One value for each atom: i if marked; otherwise t if the positive literal is held, f if the negative one is, else u.
pub fn values_of(rules: &[Rule], marked: &[bool]) -> Vec<u8> {
    let held = held(rules, marked);
    let value = |atom: usize| {
        if marked[atom] {
            I
        } else if held[2 * atom] {
            T
        } else if held[2 * atom + 1] {
            F
        } else {
            U
        }
    };
    (0..marked.len()).map(value).collect()
}

/// The settled marking from no marks.
///
/// All atoms that can be marked are marked at once: a mark makes Held larger and Clean smaller, so what could be marked
/// before it still can be after it. Each round marks at least one atom more, and with all N marked none is left to mark.
pub fn settle(n: u64, rules: &[Rule]) -> Vec<bool> {
    let mut marked = vec![false; n as usize];
    loop {
        let next = markable(rules, &marked);
        if next.is_empty() {
            return marked;
        }
        for atom in next {
            marked[atom] = true;
        }
    }
}

/// The rules of an evaluation that is not refused: 1, 2, 3, then the words.
pub fn evaluation_rules(n: u64, words: &[u16], room: usize) -> Result<Vec<Rule>, Refusal> {
    table::check_n(n)?;
    table::check_length(words)?;
    check_room(n, room)?;
    table::rules_of(n, words)
}

pub fn check_room(n: u64, room: usize) -> Result<(), Refusal> {
    if (room as u64) < n { refuse(VALUE_ROOM_BELOW_N, 0) } else { Ok(()) }
}

/// Whole evaluation: writes N values; on refusal and past the values nothing is altered.
pub fn evaluate(n: u64, words: &[u16], values: &mut [u8]) -> Result<(), Refusal> {
    let rules = evaluation_rules(n, words, values.len())?;
    let settled = values_of(&rules, &settle(n, &rules));
    values[..settled.len()].copy_from_slice(&settled);
    Ok(())
}

/// Whether the table has an inconsistent atom (document 02, W3): some value of its whole evaluation is i. 1, 2, then the words.
pub fn conflict(n: u64, words: &[u16]) -> Result<bool, Refusal> {
    table::check_n(n)?;
    let mut values = vec![U; n as usize];
    evaluate(n, words, &mut values)?;
    Ok(values.contains(&I))
}
