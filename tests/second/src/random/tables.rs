//! Word tables: accepted ones, and ones damaged in each numbered way.

use crate::random::{Chance, awkward_number};
use crate::refusal::*;
use crate::table::{Literal, Record, Rule, encode, numbered, rules_of};

/// How rules are drawn.
#[derive(Clone, Copy, Debug)]
pub struct Shape {
    /// Percent of literals that head a rule.
    pub headed: u64,
    /// Percent of rules that are facts.
    pub facts: u64,
    /// Most groups of a body.
    pub groups: u64,
    /// Most literals of a group.
    pub literals: u64,
    /// Percent of body literals that are negative.
    pub negative: u64,
}

/// A shape that gives short loops, clashes and several groups.
pub fn small_shape(chance: &mut Chance) -> Shape {
    Shape {
        headed: chance.between(50, 100),
        facts: chance.between(5, 45),
        groups: chance.between(1, 4),
        literals: chance.between(1, 3),
        negative: chance.between(10, 70),
    }
}

/// Rules of a shape, one for each head drawn, in random order. Loops, opposite literals in one group, repeated literals and
/// heads in their own bodies come by themselves.
pub fn rules(chance: &mut Chance, n: u64, shape: Shape) -> Vec<Rule> {
    let mut rules = Vec::new();
    for head in 0..2 * n as usize {
        if chance.percent(shape.headed) {
            let m = if chance.percent(shape.facts) { 0 } else { chance.between(1, shape.groups) };
            let groups = (0..m).map(|_| group(chance, n, shape)).collect();
            rules.push(Rule { head, groups });
        }
    }
    chance.shuffle(&mut rules);
    rules
}

fn group(chance: &mut Chance, n: u64, shape: Shape) -> Vec<Literal> {
    let k = chance.between(1, shape.literals);
    (0..k).map(|_| 2 * chance.below(n) as usize + chance.percent(shape.negative) as usize).collect()
}

/// How the records of a table get their lines.
#[derive(Clone, Copy, Debug, PartialEq, Eq)]
pub enum Lines {
    ByHand,
    FromSheet,
    AnyOrder,
    SomeByHand,
    Highest,
}

pub const ALL_LINES: [Lines; 5] = [Lines::ByHand, Lines::FromSheet, Lines::AnyOrder, Lines::SomeByHand, Lines::Highest];

/// Records of these rules: 0 throughout, 1, 2, 3 .., any up to 32,768, such with zeros among them, or 32,768 throughout.
pub fn with_lines(chance: &mut Chance, rules: &[Rule], lines: Lines) -> Vec<Record> {
    let mut records = numbered(rules);
    for record in records.iter_mut() {
        let any = chance.index(MOST_LINE + 1);
        record.line = match lines {
            Lines::ByHand => 0,
            Lines::FromSheet => record.line,
            Lines::AnyOrder => any,
            Lines::SomeByHand => chance.of(&[0, record.line, any]),
            Lines::Highest => MOST_LINE,
        };
    }
    records
}

/// The words of these rules, with lines of any kind.
fn words_with_lines(chance: &mut Chance, rules: &[Rule]) -> Vec<u16> {
    let lines = chance.of(&ALL_LINES);
    encode(&with_lines(chance, rules, lines))
}

/// An accepted table once more, with lines drawn anew.
pub fn other_lines(chance: &mut Chance, n: u64, words: &[u16]) -> Vec<u16> {
    let rules = rules_of(n, words).expect("an accepted table");
    words_with_lines(chance, &rules)
}

/// An accepted table with 1 to `most_atoms` atoms, rich in negation, loops and several groups.
pub fn small_table(chance: &mut Chance, most_atoms: u64) -> (u64, Vec<u16>) {
    let n = chance.between(1, most_atoms);
    let shape = small_shape(chance);
    let rules = rules(chance, n, shape);
    (n, words_with_lines(chance, &rules))
}

/// An accepted table of any size up to the limits: sparse enough to leave all four values in it, often with a run of marks
/// that need one another, sometimes with bodies of 64 groups or groups of 64 literals.
pub fn large_table(chance: &mut Chance) -> (u64, Vec<u16>) {
    let n = if chance.one_in(3) { 512 } else { chance.between(8, 512) };
    let shape = Shape {
        headed: chance.between(20, 80),
        facts: chance.between(3, 25),
        groups: chance.between(1, 4),
        literals: chance.between(1, 4),
        negative: chance.between(5, 60),
    };
    let mut drawn = rules(chance, n, shape);
    // Chains through neighbours keep many atoms at t or f and let clashes spread in steps.
    for rule in drawn.iter_mut() {
        if !rule.groups.is_empty() && chance.percent(60) {
            let away = 1 + chance.index(4);
            let near = (rule.head + 2 * away) % (2 * n as usize);
            rule.groups = vec![vec![near]];
        }
    }
    if chance.one_in(3) && !drawn.is_empty() {
        let wide = chance.index(drawn.len());
        let (m, k) = chance.of(&[(64, 1), (1, 64), (63, 2), (8, 63)]);
        let literal = |chance: &mut Chance| chance.index(2 * n as usize);
        drawn[wide].groups = (0..m).map(|_| (0..k).map(|_| literal(chance)).collect()).collect();
    }
    while encode(&numbered(&drawn)).len() > MOST_WORDS {
        drawn.pop();
    }
    (n, words_with_lines(chance, &drawn))
}

/// An accepted table, mostly small.
pub fn accepted_table(chance: &mut Chance) -> (u64, Vec<u16>) {
    match chance.below(10) {
        0 => (chance.below(513), Vec::new()),
        1 | 2 => large_table(chance),
        3..=5 => small_table(chance, 40),
        _ => small_table(chance, 6),
    }
}

/// The ways in which `damage_table` damages a table.
#[derive(Clone, Copy, Debug, PartialEq, Eq)]
pub enum TableDamage {
    AtomsAbove512,
    WordsAbove8192,
    CutShort,
    LiteralTooHigh,
    LineTooHigh,
    TooManyGroups,
    EmptyGroup,
    TooManyLiterals,
    SecondHead,
}

pub const TABLE_DAMAGES: [TableDamage; 9] = [
    TableDamage::AtomsAbove512,
    TableDamage::WordsAbove8192,
    TableDamage::CutShort,
    TableDamage::LiteralTooHigh,
    TableDamage::LineTooHigh,
    TableDamage::TooManyGroups,
    TableDamage::EmptyGroup,
    TableDamage::TooManyLiterals,
    TableDamage::SecondHead,
];

impl TableDamage {
    /// The number by which a table damaged in this way alone is refused.
    pub fn number(self) -> u32 {
        match self {
            TableDamage::AtomsAbove512 => N_ABOVE_512,
            TableDamage::WordsAbove8192 => TABLE_ABOVE_8192,
            TableDamage::CutShort => RECORD_CUT_SHORT,
            TableDamage::LiteralTooHigh => LITERAL_NOT_BELOW_2N,
            TableDamage::LineTooHigh
            | TableDamage::TooManyGroups
            | TableDamage::EmptyGroup
            | TableDamage::TooManyLiterals => COUNT_OR_LINE_OUT_OF_RANGE,
            TableDamage::SecondHead => SECOND_RULE_FOR_HEAD,
        }
    }
}

/// What a word of a table is.
#[derive(Clone, Copy, Debug, PartialEq, Eq)]
pub enum WordRole {
    Head,
    Line,
    GroupCount,
    GroupLength,
    BodyLiteral,
}

/// The roles of all words, by the counts that stand before them, whether or not these are within their limits.
pub fn word_roles(words: &[u16]) -> Vec<WordRole> {
    let mut roles = Vec::new();
    let number = |at: usize| words.get(at).copied().unwrap_or(0);
    while roles.len() < words.len() {
        roles.extend([WordRole::Head, WordRole::Line, WordRole::GroupCount]);
        for _ in 0..number(roles.len() - 1) {
            let k = number(roles.len()) as usize;
            roles.push(WordRole::GroupLength);
            roles.resize(roles.len() + k, WordRole::BodyLiteral);
            if roles.len() >= words.len() {
                break;
            }
        }
    }
    roles.truncate(words.len());
    roles
}

/// Where the words of this role stand in a table.
fn places_of(words: &[u16], role: WordRole) -> Vec<usize> {
    let roles = word_roles(words);
    (0..words.len()).filter(|&at| roles[at] == role).collect()
}

/// Where the line words of a table stand.
pub fn line_places(words: &[u16]) -> Vec<usize> {
    places_of(words, WordRole::Line)
}

/// Where the heads of a table stand: from each on it is a table in which that record is the first.
pub fn head_places(words: &[u16]) -> Vec<usize> {
    places_of(words, WordRole::Head)
}

/// A line at the edges of its range, or anywhere in 16 bits.
pub fn any_line(chance: &mut Chance) -> u16 {
    let any = chance.number() as u16;
    chance.of(&[0, 1, 64, 65, 32_767, 32_768, 32_769, u16::MAX, any])
}

/// A line above 32,768.
fn line_too_high(chance: &mut Chance) -> u16 {
    let any = chance.between(MOST_LINE as u64 + 1, u16::MAX.into()) as u16;
    chance.of(&[32_769, u16::MAX, any])
}

/// Damages an accepted table in one way. False if this table offers no place for it; it is then unaltered.
pub fn damage_table(chance: &mut Chance, n: &mut u64, words: &mut Vec<u16>, damage: TableDamage) -> bool {
    let roles = word_roles(words);
    let places = |wanted: &[WordRole]| -> Vec<usize> {
        (0..words.len()).filter(|&at| wanted.contains(&roles[at])).collect()
    };
    let candidates = match damage {
        TableDamage::AtomsAbove512 | TableDamage::WordsAbove8192 => vec![0],
        TableDamage::CutShort => (1..words.len()).filter(|&at| roles[at] != WordRole::Head).collect(),
        TableDamage::LiteralTooHigh => places(&[WordRole::Head, WordRole::BodyLiteral]),
        TableDamage::LineTooHigh => places(&[WordRole::Line]),
        TableDamage::TooManyGroups => places(&[WordRole::GroupCount]),
        TableDamage::EmptyGroup | TableDamage::TooManyLiterals => places(&[WordRole::GroupLength]),
        TableDamage::SecondHead => places(&[WordRole::Head]),
    };
    if candidates.is_empty() {
        return false;
    }
    let at = chance.of(&candidates);
    match damage {
        TableDamage::AtomsAbove512 => {
            *n = chance.of(&[513, 514, 1 << 16, (1 << 32) + 1, (1 << 32) + 512, u64::MAX, 1 << 63]);
        }
        TableDamage::WordsAbove8192 => {
            let length = chance.of(&[8193, 8194, 8193, 10_000, 65_536, 65_537]);
            let words_before = words.clone();
            words.resize(length, 0);
            for (i, word) in words.iter_mut().enumerate().skip(words_before.len()) {
                *word = if words_before.is_empty() { i as u16 } else { words_before[i % words_before.len()] };
            }
        }
        TableDamage::CutShort => words.truncate(at),
        TableDamage::LiteralTooHigh => {
            let codes = 2 * *n as u16;
            words[at] = chance.of(&[codes, codes + 1, u16::MAX, 0x8000, codes + 64]);
        }
        TableDamage::LineTooHigh => words[at] = line_too_high(chance),
        TableDamage::TooManyGroups | TableDamage::TooManyLiterals => {
            words[at] = chance.of(&[65, 66, 128, 256, 320, u16::MAX]);
        }
        TableDamage::EmptyGroup => words[at] = 0,
        TableDamage::SecondHead => {
            if words.len() > MOST_WORDS - 3 {
                return false;
            }
            // The head alone, cut after its line, or a whole fact; the line may be faulty too.
            let record = [words[at], any_line(chance), 0];
            words.extend(&record[..chance.between(1, 3) as usize]);
        }
    }
    true
}

/// Makes two or three of the first three words of a record faulty, so that the order within a record shows.
pub fn damage_record(chance: &mut Chance, n: u64, words: &mut [u16]) {
    let heads: Vec<usize> = head_places(words).into_iter().filter(|head| head + 2 < words.len()).collect();
    if heads.is_empty() {
        return;
    }
    let head = chance.of(&heads);
    let sound = chance.index(4);
    let code = chance.of(&[2 * n.min(512) as u16, u16::MAX, words[0]]);
    let faulty = [code, line_too_high(chance), chance.of(&[65, 66, 256, u16::MAX])];
    for i in (0..3).filter(|&i| i != sound) {
        words[head + i] = faulty[i];
    }
}

/// A table accepted about half the time, else damaged once or twice, or words at random.
pub fn any_table(chance: &mut Chance) -> (u64, Vec<u16>) {
    let (mut n, mut words) = accepted_table(chance);
    match chance.below(21) {
        0..=9 => {}
        10..=16 => {
            let damage = chance.of(&TABLE_DAMAGES);
            damage_table(chance, &mut n, &mut words, damage);
        }
        17 => {
            // Two faults, so that the order of refusals shows.
            let damage = chance.of(&TABLE_DAMAGES[2..]);
            if damage_table(chance, &mut n, &mut words, damage) {
                n = awkward_number(chance, 512);
                let length = chance.of(&[words.len(), 8192, 8193]);
                words.resize(length, 0);
            }
        }
        18 => {
            // A word or two altered anywhere, whatever comes of it.
            for _ in 0..chance.between(1, 2) {
                if !words.is_empty() {
                    let at = chance.index(words.len());
                    words[at] = chance.of(&[0, 1, 2, 3, 64, 65, 1023, 1024, 32_768, 32_769, u16::MAX]);
                }
            }
        }
        19 => damage_record(chance, n, &mut words),
        _ => {
            let length = chance.index(40);
            words = (0..length).map(|_| chance.below(6) as u16).collect();
            n = chance.below(5);
        }
    }
    (n, words)
}
