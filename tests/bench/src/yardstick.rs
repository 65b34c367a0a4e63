//! Two evaluators that serve only to compare speed; both answer as `second::model::evaluate` does.
//!
//! `plain` rereads the words: each round derives Held (kept from the round before) and Clean (from nothing) by passes over
//! the table until nothing changes, and marks every atom that can be marked.
//!
//! `counters` indexes the table once: for each literal the groups it stands in, for each group how many of its literals are
//! missing. A literal that arrives lowers the counts of its groups, and a group at zero gives its head. Held's counts are
//! kept across rounds; Clean starts again from a copy of the full counts.

use second::refusal::*;
use second::truth::{F, I, T, U};

/// A set of literals: bit l mod 64 of word l div 64.
type Bits = [u64; 16];

/// The positive literals of a word of a set.
const POSITIVE: u64 = 0x5555_5555_5555_5555;

#[inline]
fn has(set: &Bits, literal: u16) -> bool {
    set[(literal >> 6) as usize & 15] >> (literal & 63) & 1 == 1
}

#[inline]
fn add(set: &mut Bits, literal: u16) {
    set[(literal >> 6) as usize & 15] |= 1 << (literal & 63);
}

/// Evaluation's refusals in their order, found without building rules.
pub fn check(n: u64, words: &[u16], room: usize) -> Result<(), Refusal> {
    if n > MOST_ATOMS {
        return refuse(N_ABOVE_512, 0);
    }
    if words.len() > MOST_WORDS {
        return refuse(TABLE_ABOVE_8192, 0);
    }
    if (room as u64) < n {
        return refuse(VALUE_ROOM_BELOW_N, 0);
    }
    let codes = 2 * n as u16;
    let mut heads: Bits = [0; 16];
    let mut at = 0;
    while at < words.len() {
        let head = words[at];
        if head >= codes {
            return refuse(LITERAL_NOT_BELOW_2N, at);
        }
        if has(&heads, head) {
            return refuse(SECOND_RULE_FOR_HEAD, at);
        }
        add(&mut heads, head);
        let Some(&line) = words.get(at + 1) else {
            return refuse(RECORD_CUT_SHORT, words.len());
        };
        if line as usize > MOST_LINE {
            return refuse(COUNT_OR_LINE_OUT_OF_RANGE, at + 1);
        }
        let Some(&m) = words.get(at + 2) else {
            return refuse(RECORD_CUT_SHORT, words.len());
        };
        if m as usize > MOST_GROUPS {
            return refuse(COUNT_OR_LINE_OUT_OF_RANGE, at + 2);
        }
        at += 3;
        for _ in 0..m {
            let Some(&k) = words.get(at) else {
                return refuse(RECORD_CUT_SHORT, words.len());
            };
            if k == 0 || k as usize > MOST_LITERALS {
                return refuse(COUNT_OR_LINE_OUT_OF_RANGE, at);
            }
            at += 1;
            let end = words.len().min(at + k as usize);
            if let Some(j) = words[at..end].iter().position(|&literal| literal >= codes) {
                return refuse(LITERAL_NOT_BELOW_2N, at + j);
            }
            if end < at + k as usize {
                return refuse(RECORD_CUT_SHORT, words.len());
            }
            at = end;
        }
    }
    Ok(())
}

/// The atoms that can be marked, each as its positive literal.
fn markable(held: &Bits, clean: &Bits, marked: &Bits) -> Bits {
    let mut next = [0; 16];
    for w in 0..16 {
        let both = held[w] & held[w] >> 1;
        let doubtful = held[w] & !clean[w];
        next[w] = (both | doubtful | doubtful >> 1) & POSITIVE & !marked[w];
    }
    next
}

fn write_values(n: u64, held: &Bits, marked: &Bits, values: &mut [u8]) {
    for (atom, value) in values.iter_mut().enumerate().take(n as usize) {
        let positive = 2 * atom as u16;
        *value = if has(marked, positive) {
            I
        } else if has(held, positive) {
            T
        } else if has(held, positive + 1) {
            F
        } else {
            U
        };
    }
}

/// Passes over the words, adding the heads that fire and are not shut out, until a pass adds nothing.
fn reread(words: &[u16], shut_out: &Bits, set: &mut Bits) {
    // Heads that need no look at their groups: shut out, or in the set already.
    let mut done = *set;
    for w in 0..16 {
        done[w] |= shut_out[w];
    }
    loop {
        let mut grown = false;
        let mut at = 0;
        while at + 2 < words.len() {
            let (head, m) = (words[at], words[at + 2]);
            at += 3;
            let mut groups = m;
            if !has(&done, head) {
                let mut fires = m == 0;
                while groups > 0 && !fires {
                    let end = at + 1 + words[at] as usize;
                    fires = words[at + 1..end].iter().all(|&literal| has(set, literal));
                    at = end;
                    groups -= 1;
                }
                if fires {
                    add(set, head);
                    add(&mut done, head);
                    grown = true;
                }
            }
            for _ in 0..groups {
                at += 1 + words[at] as usize;
            }
        }
        if !grown {
            return;
        }
    }
}

/// Plain rereading, all that can be marked marked in each round.
pub fn plain(n: u64, words: &[u16], values: &mut [u8]) -> Result<(), Refusal> {
    check(n, words, values.len())?;
    let mut marked: Bits = [0; 16];
    let mut held: Bits = [0; 16];
    let none: Bits = [0; 16];
    loop {
        reread(words, &none, &mut held);
        let mut shut_out = marked;
        for w in 0..16 {
            shut_out[w] |= marked[w] << 1;
        }
        let mut clean: Bits = [0; 16];
        reread(words, &shut_out, &mut clean);
        let next = markable(&held, &clean, &marked);
        if next == none {
            write_values(n, &held, &marked, values);
            return Ok(());
        }
        for w in 0..16 {
            marked[w] |= next[w];
            held[w] |= next[w] | next[w] << 1;
        }
    }
}

/// For each literal the groups it stands in, as often as it stands there; for each group its head and its length.
struct Index {
    /// The groups of literal l are `groups[starts[l]..starts[l + 1]]`.
    starts: Vec<u16>,
    groups: Vec<u16>,
    heads: Vec<u16>,
    lengths: Vec<u8>,
    facts: Vec<u16>,
}

impl Index {
    fn new(n: u64, words: &[u16]) -> Index {
        let mut index = Index {
            starts: vec![0; 2 * n as usize + 1],
            groups: Vec::new(),
            heads: Vec::new(),
            lengths: Vec::new(),
            facts: Vec::new(),
        };
        let mut places = 0;
        each_group(words, |head, group| match group {
            None => index.facts.push(head),
            Some(group) => {
                index.heads.push(head);
                index.lengths.push(group.len() as u8);
                places += group.len();
                for &literal in group {
                    index.starts[literal as usize + 1] += 1;
                }
            }
        });
        for l in 1..index.starts.len() {
            index.starts[l] += index.starts[l - 1];
        }
        index.groups = vec![0; places];
        let mut filled = index.starts.clone();
        let mut number = 0;
        each_group(words, |_, group| {
            for &literal in group.into_iter().flatten() {
                index.groups[filled[literal as usize] as usize] = number;
                filled[literal as usize] += 1;
            }
            number += group.is_some() as u16;
        });
        index
    }

    fn groups_of(&self, literal: u16) -> &[u16] {
        &self.groups[self.starts[literal as usize] as usize..self.starts[literal as usize + 1] as usize]
    }

    /// Adds all that follows from the pending literals, which are in the set already.
    fn derive(&self, missing: &mut [u8], pending: &mut Vec<u16>, shut_out: &Bits, set: &mut Bits) {
        while let Some(literal) = pending.pop() {
            for &group in self.groups_of(literal) {
                let missing = &mut missing[group as usize];
                *missing -= 1;
                let head = self.heads[group as usize];
                if *missing == 0 && !has(set, head) && !has(shut_out, head) {
                    add(set, head);
                    pending.push(head);
                }
            }
        }
    }
}

/// Calls with each head and group, or with a head and nothing for a fact.
fn each_group<'a>(words: &'a [u16], mut call: impl FnMut(u16, Option<&'a [u16]>)) {
    let mut rest = words;
    while let [head, _line, m, after @ ..] = rest {
        rest = after;
        if *m == 0 {
            call(*head, None);
        }
        for _ in 0..*m {
            let (group, after) = rest[1..].split_at(rest[0] as usize);
            call(*head, Some(group));
            rest = after;
        }
    }
}

/// Index by group with counters, Held kept across rounds.
pub fn counters(n: u64, words: &[u16], values: &mut [u8]) -> Result<(), Refusal> {
    counters_in_rounds(n, words, values).map(|_| ())
}

/// The same; how many rounds there were, the last of which marks nothing.
pub fn counters_in_rounds(n: u64, words: &[u16], values: &mut [u8]) -> Result<usize, Refusal> {
    check(n, words, values.len())?;
    let index = Index::new(n, words);
    let none: Bits = [0; 16];
    let mut marked: Bits = [0; 16];
    let mut held: Bits = [0; 16];
    let mut held_missing = index.lengths.clone();
    let mut clean_missing = index.lengths.clone();
    let mut pending = index.facts.clone();
    for &head in &index.facts {
        add(&mut held, head);
    }
    let mut rounds = 0;
    loop {
        rounds += 1;
        index.derive(&mut held_missing, &mut pending, &none, &mut held);
        let mut shut_out = marked;
        for w in 0..16 {
            shut_out[w] |= marked[w] << 1;
        }
        let mut clean: Bits = [0; 16];
        clean_missing.copy_from_slice(&index.lengths);
        for &head in &index.facts {
            if !has(&shut_out, head) {
                add(&mut clean, head);
                pending.push(head);
            }
        }
        index.derive(&mut clean_missing, &mut pending, &shut_out, &mut clean);
        let next = markable(&held, &clean, &marked);
        if next == none {
            write_values(n, &held, &marked, values);
            return Ok(rounds);
        }
        for w in 0..16 {
            marked[w] |= next[w];
            let mut new = (next[w] | next[w] << 1) & !held[w];
            held[w] |= new;
            while new != 0 {
                pending.push(64 * w as u16 + new.trailing_zeros() as u16);
                new &= new - 1;
            }
        }
    }
}
