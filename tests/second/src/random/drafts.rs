//! Accepted rule sheets, as drafts before they are written down.

use std::collections::BTreeSet;

use crate::random::Chance;

/// A literal of a draft: the sign and the number of its name.
#[derive(Clone, Copy, Debug, PartialEq, Eq)]
pub struct DraftLiteral {
    pub negated: bool,
    pub name: usize,
}

/// A line of a draft.
#[derive(Clone, Debug, PartialEq, Eq)]
pub struct DraftLine {
    pub head: DraftLiteral,
    pub groups: Vec<Vec<DraftLiteral>>,
}

impl DraftLine {
    /// The words that the line fills.
    pub fn words(&self) -> usize {
        3 + self.groups.iter().map(|group| 1 + group.len()).sum::<usize>()
    }
}

/// A rule sheet before it is written down; names are numbered in no particular order.
#[derive(Clone, Debug, PartialEq, Eq)]
pub struct Draft {
    pub names: Vec<Vec<u8>>,
    pub lines: Vec<DraftLine>,
}

impl Draft {
    pub fn sheet(&self) -> Vec<u8> {
        let mut sheet = Vec::new();
        for line in &self.lines {
            self.put(&mut sheet, line.head);
            for group in &line.groups {
                for (i, &literal) in group.iter().enumerate() {
                    sheet.push(if i == 0 { b'\t' } else { b' ' });
                    self.put(&mut sheet, literal);
                }
            }
            sheet.push(b'\n');
        }
        sheet
    }

    fn put(&self, sheet: &mut Vec<u8>, literal: DraftLiteral) {
        if literal.negated {
            sheet.push(b'-');
        }
        sheet.extend_from_slice(&self.names[literal.name]);
    }

    pub fn words(&self) -> usize {
        self.lines.iter().map(DraftLine::words).sum()
    }
}

/// A valid name, mostly short, sometimes of 23 or 24 bytes.
pub fn name(chance: &mut Chance) -> Vec<u8> {
    let length = match chance.below(10) {
        0 => 24,
        1 => 23,
        2..=4 => chance.between(3, 22),
        _ => chance.between(1, 2),
    };
    let mut name = vec![chance.of(b"abcxyz")];
    name.extend((1..length).map(|_| chance.of(b"abz09_.")));
    name
}

/// So many different valid names.
pub fn names(chance: &mut Chance, count: usize) -> Vec<Vec<u8>> {
    let mut met = BTreeSet::new();
    let mut names = Vec::new();
    while names.len() < count {
        let drawn = name(chance);
        if met.insert(drawn.clone()) {
            names.push(drawn);
        }
    }
    names
}

pub(super) fn draft_literal(chance: &mut Chance, names: usize) -> DraftLiteral {
    DraftLiteral {
        negated: chance.percent(35),
        name: chance.index(names),
    }
}

/// How many of the names may head a rule: all, a part, or one; the others stand only in bodies, if at all.
fn heading(chance: &mut Chance, names: usize) -> usize {
    match chance.below(8) {
        0 | 1 => names,
        2 => 1,
        3..=5 => names.div_ceil(2),
        _ => chance.between(1, names as u64) as usize,
    }
}

/// An accepted draft, within all limits: mostly small; sometimes with many names, or with bodies and groups near 64.
pub fn draft(chance: &mut Chance) -> Draft {
    let (most_names, most_lines, most_groups, most_literals) = match chance.below(12) {
        0 => (512, 300, 3, 4),
        1 => (40, 20, 64, 2),
        2 => (40, 20, 3, 64),
        3 => (200, 200, 2, 3),
        _ => (8, 10, 3, 3),
    };
    let count = chance.between(1, most_names) as usize;
    let names = names(chance, count);
    let heading = heading(chance, count);
    let mut draft = Draft { names, lines: Vec::new() };
    let mut heads = BTreeSet::new();
    let (mut bytes, mut words) = (0, 0);
    for _ in 0..chance.below(most_lines + 1) {
        let head = draft_literal(chance, heading);
        if !heads.insert((head.name, head.negated)) {
            continue;
        }
        let m = if chance.percent(30) { 0 } else { chance.between(1, most_groups) };
        let mut groups = Vec::new();
        for _ in 0..m {
            let k = chance.between(1, most_literals);
            groups.push((0..k).map(|_| draft_literal(chance, count)).collect());
        }
        let line = DraftLine { head, groups };
        words += line.words();
        bytes += 26 * line.words();
        if words > 8000 || bytes > 60_000 {
            break;
        }
        draft.lines.push(line);
    }
    draft
}

/// An accepted sheet.
pub fn accepted_sheet(chance: &mut Chance) -> Vec<u8> {
    draft(chance).sheet()
}

/// A draft of short names that fills exactly so many words, at least 200 and at most 9,000: within all limits but 14.
pub fn full_draft(chance: &mut Chance, words: usize) -> Draft {
    let names: Vec<Vec<u8>> = (b'a'..=b'z').flat_map(|a| (b'0'..=b'9').map(move |b| vec![a, b])).collect();
    let mut heads: Vec<usize> = (0..2 * names.len()).collect();
    chance.shuffle(&mut heads);
    let mut lines = Vec::new();
    let mut room = words;
    for code in heads {
        let head = DraftLiteral { negated: code % 2 == 1, name: code / 2 };
        // A line fills 3 words or at least 5; the rest must allow that.
        let groups = if room == 3 {
            Vec::new()
        } else {
            let k = if room <= 68 { room - 4 } else { 20 + chance.index(20) };
            vec![(0..k).map(|_| draft_literal(chance, names.len())).collect()]
        };
        let line = DraftLine { head, groups };
        room -= line.words();
        lines.push(line);
        if room == 0 {
            break;
        }
    }
    Draft { names, lines }
}
