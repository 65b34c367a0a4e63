//! Reason sheets: good ones by a search of their own, forged ones, and values to claim.
//!
//! The search. A literal is placed once a group that is a reason for it is wholly placed, and the rounds of placing are the ranks; placing
//! never hinders placing. An i group of a body that is i also serves the negation of its head, which may then be placed at any time, even
//! ahead of the head: that is tried atom by atom, as only one literal of an atom can go ahead.

use std::collections::BTreeMap;

use crate::judge;
use crate::model::evaluate;
use crate::random::{Chance, Shape, any_table, large_table, rules, small_table};
use crate::reasons::{Claim, Line, text_of};
use crate::refusal::MOST_RANK;
use crate::table::{Literal, Rule, check, encode, negation, numbered, rules_of};
use crate::truth::{F, I, T, U};

/// A literal once it is placed: the round, and the head and group that it rests on.
#[derive(Clone, Copy, Debug)]
struct Placed {
    round: usize,
    reason: Option<(Literal, usize)>,
}

/// The literals placed so far, by code. One placed ahead of its time has no reason until its negation is placed.
#[derive(Clone, Debug)]
struct Placing<'a> {
    claim: Claim<'a>,
    /// Each rule by its head, with the value of its body.
    rules: BTreeMap<Literal, (&'a Rule, u8)>,
    placed: Vec<Option<Placed>>,
    round: usize,
}

impl<'a> Placing<'a> {
    fn new(claim: Claim<'a>) -> Placing<'a> {
        let rules = claim.rules.iter().map(|rule| (rule.head, (rule, claim.body_value(rule)))).collect();
        Placing { claim, rules, placed: vec![None; 2 * claim.values.len()], round: 0 }
    }

    fn has(&self, literal: Literal) -> bool {
        self.placed[literal].is_some()
    }

    fn has_body_i(&self, head: Literal) -> bool {
        self.rules.get(&head).is_some_and(|&(_, body)| body == I)
    }

    /// The groups by which the literal's own rule places it now, 0 for a fact.
    fn own_reasons(&self, literal: Literal) -> Vec<usize> {
        let Some(&(rule, body)) = self.rules.get(&literal) else { return Vec::new() };
        if rule.groups.is_empty() {
            return vec![0];
        }
        let ready = |number: &usize| {
            let group = &rule.groups[number - 1];
            let wanted = match self.claim.group_value(group) {
                T => true,
                I => self.claim.value(literal) == I && body == I,
                _ => false,
            };
            wanted && group.iter().all(|&before| self.has(before))
        };
        (1..=rule.groups.len()).filter(ready).collect()
    }

    /// Places, round by round, what rests on what was placed before it; with an i group, the negation too.
    fn grow(&mut self, chance: &mut Chance) {
        let mut waiting: Vec<Literal> = self.claim.literals().into_iter().filter(|&literal| !self.has(literal)).collect();
        loop {
            self.round += 1;
            let found: Vec<(Literal, Vec<usize>)> = waiting
                .iter()
                .map(|&literal| (literal, self.own_reasons(literal)))
                .filter(|(_, groups)| !groups.is_empty())
                .collect();
            if found.is_empty() {
                return;
            }
            for (literal, groups) in found {
                self.place(literal, chance.of(&groups));
            }
            waiting.retain(|&literal| !self.has(literal));
        }
    }

    /// Places a literal by a group of its own rule, and by the same its negation, if that may rest on it and waits for a reason.
    fn place(&mut self, literal: Literal, group: usize) {
        let now = Placed { round: self.round, reason: Some((literal, group)) };
        self.placed[literal] = Some(now);
        let shared = self.has_body_i(literal) && self.claim.value(literal) == I;
        let other = &mut self.placed[negation(literal)];
        if shared && other.is_none_or(|other| other.reason.is_none()) {
            *other = Some(Placed { round: other.map_or(now.round, |ahead| ahead.round), ..now });
        }
    }

    fn is_done(&self) -> bool {
        let done = |literal: Literal| self.placed[literal].is_some_and(|placed| placed.reason.is_some());
        self.claim.literals().into_iter().all(done)
    }

    /// Places all literals, those of few atoms from `atom` on ahead of their time where that is needed; false if it cannot be done.
    fn search(&mut self, chance: &mut Chance, atom: usize) -> bool {
        self.grow(chance);
        if self.is_done() || self.claim.values.len() as u64 > FEW {
            return self.is_done();
        }
        let may_wait = |&head: &Literal| {
            self.claim.value(head) == I && self.has_body_i(head) && !self.has(head) && !self.has(negation(head))
        };
        let heads: Vec<Literal> = (2 * atom..self.placed.len()).filter(may_wait).collect();
        heads.into_iter().any(|head| {
            let mut ahead = self.clone();
            ahead.placed[negation(head)] = Some(Placed { round: self.round, reason: None });
            let found = ahead.search(chance, head / 2 + 1);
            if found {
                *self = ahead;
            }
            found
        })
    }

    /// The reason found for a literal; sometimes its negation's own one, where that serves both.
    fn reason(&self, chance: &mut Chance, literal: Literal) -> Option<(Literal, usize)> {
        let of = |literal: Literal| self.placed[literal].and_then(|placed| placed.reason);
        let serves = |&(head, _): &(Literal, usize)| head == negation(literal) && self.has_body_i(head);
        of(negation(literal)).filter(serves).filter(|_| chance.one_in(3)).or(of(literal))
    }

    /// A line for each literal, with reasons of chance where none was found.
    fn lines(&self, chance: &mut Chance) -> Vec<Line> {
        let literals = self.claim.literals();
        let rounds: Vec<usize> =
            literals.iter().map(|&literal| self.placed[literal].map_or(self.round, |placed| placed.round)).collect();
        let ranks = ranks_of(chance, &rounds);
        let line = |(literal, rank): (Literal, usize)| {
            let reason = self.reason(chance, literal);
            let (head, group) = reason.unwrap_or_else(|| any_reason(chance, self.claim, literal));
            Line { literal, rank, head, group }
        };
        literals.into_iter().zip(ranks).map(line).collect()
    }
}

/// Numbers from 0 to 1,023, strictly rising, as many as asked: close together at either end, or with gaps.
fn rising(chance: &mut Chance, count: usize) -> Vec<usize> {
    let room = MOST_RANK + 1 - count;
    match chance.below(4) {
        0 => (room..room + count).collect(),
        1 => {
            let mut gaps: Vec<usize> = (0..count).map(|_| chance.index(room + 1)).collect();
            gaps.sort_unstable();
            gaps.into_iter().enumerate().map(|(i, gap)| i + gap).collect()
        }
        _ => (0..count).collect(),
    }
}

/// Ranks for literals in this order of rounds: one for each round, or one for each literal.
fn ranks_of(chance: &mut Chance, rounds: &[usize]) -> Vec<usize> {
    let mut keys: Vec<(usize, u64)> = rounds.iter().map(|&round| (round, 0)).collect();
    if chance.one_in(3) {
        keys.iter_mut().for_each(|key| key.1 = chance.number());
    }
    let mut sorted = keys.clone();
    sorted.sort_unstable();
    sorted.dedup();
    let ranks = rising(chance, sorted.len());
    keys.iter().map(|key| ranks[sorted.binary_search(key).expect("a key of the row")]).collect()
}

/// A good sheet for values that are well-supported, `None` for a model that is not. The ranks, and the rule and group of each literal, are
/// drawn. For more than four atoms nothing is placed ahead of its time, which is enough for whole evaluation's values.
pub fn good_lines(chance: &mut Chance, rules: &[Rule], values: &[u8]) -> Option<Vec<Line>> {
    let mut placing = Placing::new(Claim { rules, values });
    placing.search(chance, 0).then(|| placing.lines(chance))
}

/// A sheet with the right literals, good as far as placing goes without a search, and lines of chance for the rest.
pub fn nearly_good_lines(chance: &mut Chance, rules: &[Rule], values: &[u8]) -> Vec<Line> {
    let mut placing = Placing::new(Claim { rules, values });
    placing.grow(chance);
    placing.lines(chance)
}

/// A rule of the literal or of its negation, and one of its groups.
fn any_reason(chance: &mut Chance, claim: Claim, literal: Literal) -> (Literal, usize) {
    let heads: Vec<Literal> = [literal, negation(literal)].into_iter().filter(|&head| claim.rule(head).is_some()).collect();
    if heads.is_empty() {
        return (literal, chance.index(2));
    }
    let head = chance.of(&heads);
    let m = claim.rule(head).map_or(0, |rule| rule.groups.len());
    (head, if m == 0 { 0 } else { 1 + chance.index(m) })
}

/// The ways in which `forged` alters a good sheet.
#[derive(Clone, Copy, Debug, PartialEq, Eq)]
pub enum Forgery {
    SwappedLines,
    DroppedLine,
    DoubledLine,
    SurplusLine,
    OtherLiteral,
    OtherRank,
    RankOfAnother,
    RanksRaised,
    RankTooHigh,
    OtherRule,
    NegationsRule,
    OtherGroup,
    Cut,
    Padded,
    LeadingZero,
    FifthDigit,
    FifthNumber,
    OtherByte,
    MoreByte,
    LostByte,
}

pub const FORGERIES: [Forgery; 20] = [
    Forgery::SwappedLines,
    Forgery::DroppedLine,
    Forgery::DoubledLine,
    Forgery::SurplusLine,
    Forgery::OtherLiteral,
    Forgery::OtherRank,
    Forgery::RankOfAnother,
    Forgery::RanksRaised,
    Forgery::RankTooHigh,
    Forgery::OtherRule,
    Forgery::NegationsRule,
    Forgery::OtherGroup,
    Forgery::Cut,
    Forgery::Padded,
    Forgery::LeadingZero,
    Forgery::FifthDigit,
    Forgery::FifthNumber,
    Forgery::OtherByte,
    Forgery::MoreByte,
    Forgery::LostByte,
];

impl Forgery {
    /// The numbers by which a good sheet of two lines or more is refused once it is so altered; others may stay good.
    pub fn numbers(self) -> &'static [u32] {
        match self {
            Forgery::SwappedLines
            | Forgery::DroppedLine
            | Forgery::DoubledLine
            | Forgery::SurplusLine
            | Forgery::OtherLiteral
            | Forgery::RankTooHigh => &[22],
            Forgery::LeadingZero | Forgery::FifthDigit | Forgery::FifthNumber => &[21],
            Forgery::Cut | Forgery::Padded => &[21, 22],
            _ => &[],
        }
    }
}

/// A number that stands in no good sheet, or at the edge of one.
fn edge_number(chance: &mut Chance, n: usize) -> usize {
    let any = chance.index(10_000);
    chance.of(&[0, 1, 2 * n, 2 * n + 1, 63, 64, 65, 1022, 1023, 1024, 1025, 9999, any])
}

/// A byte that stands in reason sheets, or nearly does.
pub fn reason_byte(chance: &mut Chance) -> u8 {
    if chance.one_in(6) { chance.of(b"\0\r /:-+.,a\x0b\x1f\x80\xff\x30\xb0") } else { chance.of(b"0123456789\t\t\n") }
}

/// A sheet of these lines altered in one way, as far as it offers a place for it; N is that of the table.
pub fn forged(chance: &mut Chance, n: u64, lines: &[Line], forgery: Forgery) -> Vec<u8> {
    let (n, count) = (n as usize, lines.len());
    let mut lines = lines.to_vec();
    let at = chance.index(count);
    if count > 0 {
        let other = chance.index(count);
        match forgery {
            Forgery::SwappedLines => {
                let other = if other == at { (at + 1) % count } else { other };
                lines.swap(at, other);
            }
            Forgery::DroppedLine => drop(lines.remove(at)),
            Forgery::DoubledLine => lines.insert(at, lines[at]),
            Forgery::SurplusLine => {
                let more = Line { literal: chance.of(&[2 * n, 2 * n + 1, 9999, lines[other].literal]), ..lines[at] };
                lines.insert(chance.of(&[count, count, chance.clone().index(count + 1)]), more);
            }
            Forgery::OtherLiteral => {
                let codes = [negation(lines[at].literal), lines[at].literal + 1, 2 * n, 2 * n + lines[at].literal, 9999];
                lines[at].literal = chance.of(&codes);
            }
            Forgery::OtherRank => lines[at].rank = chance.of(&[0, 1, chance.clone().index(1024), 1022, 1023]),
            Forgery::RankOfAnother => {
                let rank = lines[other].rank;
                lines[at].rank = chance.of(&[rank, rank, rank.saturating_sub(1), (rank + 1).min(MOST_RANK)]);
            }
            Forgery::RanksRaised => {
                // The highest rank becomes 1,023, 1,024 or 9,999.
                let highest = lines.iter().map(|line| line.rank).max().unwrap_or(0);
                let more = chance.of(&[1023, 1024, 9999]) - highest;
                lines.iter_mut().for_each(|line| line.rank += more);
            }
            Forgery::RankTooHigh => lines[at].rank = chance.of(&[1024, 1025, 2047, 2048, 9999]),
            Forgery::OtherRule => {
                let edge = edge_number(chance, n);
                lines[at].head = chance.of(&[lines[other].head, edge]);
            }
            Forgery::NegationsRule => lines[at].head = negation(lines[at].head),
            Forgery::OtherGroup => {
                let (group, edge) = (lines[at].group, edge_number(chance, n));
                lines[at].group = chance.of(&[0, 1, 2, group + 1, group.max(1) - 1, 64, 65, edge]);
            }
            _ => {}
        }
    }
    altered(chance, text_of(&lines), forgery)
}

/// The alterations of the text.
fn altered(chance: &mut Chance, mut text: Vec<u8>, forgery: Forgery) -> Vec<u8> {
    let at = chance.index(text.len());
    let starts = |text: &[u8], at: usize| at == 0 || !text[at - 1].is_ascii_digit();
    match forgery {
        Forgery::Padded => {
            let more: &[u8] = chance.of(&[&b"\n"[..], b"0", b"\0", b"\t", b"0\t0\t0\t0\n", b"9999\t9999\t9999\t9999\n", b"\n\n"]);
            text.extend(more);
        }
        Forgery::FifthNumber if text.is_empty() => text.extend(b"0\t0\t0\t0\t0\n"),
        _ if text.is_empty() => {}
        Forgery::Cut => text.truncate(at),
        Forgery::LeadingZero => {
            let from = (0..=at).rev().find(|&at| starts(&text, at) && text[at].is_ascii_digit()).unwrap_or(0);
            text.insert(from, b'0');
        }
        Forgery::FifthDigit => {
            let from = (0..=at).rev().find(|&at| starts(&text, at) && text[at].is_ascii_digit()).unwrap_or(0);
            let digits = text[from..].iter().take_while(|byte| byte.is_ascii_digit()).count();
            let digit = chance.of(b"0123456789");
            text.splice(from + digits..from + digits, vec![digit; 5 - digits]);
        }
        Forgery::FifthNumber => {
            let end = (at..text.len()).find(|&at| text[at] == b'\n').expect("each line ends");
            text.splice(end..end, *b"\t0");
        }
        Forgery::OtherByte => text[at] = reason_byte(chance),
        Forgery::MoreByte => text.insert(at, reason_byte(chance)),
        Forgery::LostByte => drop(text.remove(at)),
        _ => {}
    }
    text
}

/// The values of whole evaluation.
pub fn evaluated(n: u64, words: &[u16]) -> Vec<u8> {
    let mut values = vec![U; n as usize];
    evaluate(n, words, &mut values).expect("an accepted table");
    values
}

/// The most atoms for which all interpretations are looked at.
const FEW: u64 = 4;

/// Values to claim for an accepted table: whole evaluation's, other models, well-supported or not, and values that are no model.
pub fn claimed_values(chance: &mut Chance, n: u64, words: &[u16]) -> Vec<u8> {
    let rules = rules_of(n, words).expect("an accepted table");
    let mut values = evaluated(n, words);
    let of_few = |sets: Vec<judge::Interpretation>, chance: &mut Chance| judge::values(n as usize, chance.of(&sets));
    match chance.below(12) {
        0 | 1 if n <= FEW => of_few(judge::well_supported_models(n as usize, &rules), chance),
        2 if n <= FEW => of_few((0..1 << (2 * n)).filter(|&set| judge::is_model(set, &rules)).collect(), chance),
        // Every literal at once is a model of any rules.
        3 => vec![I; n as usize],
        4 => (0..n).map(|_| chance.of(&[F, U, I, T])).collect(),
        5 if n > 0 => {
            let atom = chance.below(n) as usize;
            values[atom] = chance.of(&[F, U, I, I, T]);
            values
        }
        _ => values,
    }
}

/// A lent row for these values: N of them and sometimes more, which may be anything; now and then too few, or with a code above 3.
pub fn lent_values(chance: &mut Chance, mut values: Vec<u8>) -> Vec<u8> {
    let n = values.len();
    match chance.below(12) {
        0 => values.truncate(chance.index(n + 1)),
        1 if n > 0 => values[chance.index(n)] = chance.of(&[4, 5, 7, 128, 255]),
        2 if n > 0 => {
            // Two codes above 3, so that the first shows.
            for _ in 0..2 {
                values[chance.index(n)] = chance.of(&[4, 255]);
            }
        }
        3 | 4 => values.extend((0..chance.index(9)).map(|_| chance.of(&[0, 3, 4, 255]))),
        _ => {}
    }
    values
}

/// What is lent to the check of a reason sheet.
#[derive(Clone, Debug, PartialEq, Eq)]
pub struct Claimed {
    pub n: u64,
    pub words: Vec<u16>,
    pub values: Vec<u8>,
    pub text: Vec<u8>,
}

/// Lines for these values: good ones if there are any, else nearly good ones.
pub fn claimed_lines(chance: &mut Chance, n: u64, rules: &[Rule], values: &[u8]) -> Vec<Line> {
    let found = if n <= FEW { good_lines(chance, rules, values) } else { None };
    found.unwrap_or_else(|| nearly_good_lines(chance, rules, values))
}

/// A small table in which t and i groups stand side by side: both literals of atom 0 are facts, and one of atom 1.
pub fn mixed_table(chance: &mut Chance) -> (u64, Vec<u16>) {
    let n = chance.between(3, FEW);
    let shape = Shape { headed: 70, facts: 5, groups: 3, literals: 2, negative: 50 };
    let mut drawn = rules(chance, n, shape);
    let known = [0, 1, chance.of(&[2, 3])];
    for literal in drawn.iter_mut().flat_map(|rule| rule.groups.iter_mut().flatten()) {
        if chance.percent(60) {
            *literal = chance.of(&[known[0], known[1], known[2], known[2]]);
        }
    }
    drawn.retain(|rule| !known.contains(&rule.head) && negation(rule.head) != known[2]);
    drawn.extend(known.map(|head| Rule { head, groups: Vec::new() }));
    chance.shuffle(&mut drawn);
    (n, encode(&numbered(&drawn)))
}

/// Values and a text to lend with an accepted table: a good sheet about one time in three, else with a fault in values or text, or
/// several.
pub fn claimed(chance: &mut Chance, n: u64, words: &[u16]) -> (Vec<u8>, Vec<u8>) {
    let rules = rules_of(n, words).expect("an accepted table");
    let values = claimed_values(chance, n, words);
    let mut lines = claimed_lines(chance, n, &rules, &values);
    if chance.one_in(6) && !lines.is_empty() {
        // Another rule or group that is at hand.
        let at = chance.index(lines.len());
        (lines[at].head, lines[at].group) = any_reason(chance, Claim { rules: &rules, values: &values }, lines[at].literal);
    }
    let text = claimed_text(chance, n, &lines);
    (lent_values(chance, values), text)
}

/// These lines as they are, forged, or bytes of chance.
fn claimed_text(chance: &mut Chance, n: u64, lines: &[Line]) -> Vec<u8> {
    match chance.below(8) {
        0..=2 => text_of(lines),
        3 => (0..chance.index(24)).map(|_| reason_byte(chance)).collect(),
        _ => {
            let forgery = chance.of(&FORGERIES);
            forged(chance, n, lines, forgery)
        }
    }
}

/// Anything to check: mostly with a small table, now and then with one that is refused.
pub fn any_reasons(chance: &mut Chance) -> Claimed {
    let (n, words) = match chance.below(32) {
        0..=3 => any_table(chance),
        4 => large_table(chance),
        5..=8 => small_table(chance, 40),
        9..=15 => mixed_table(chance),
        _ => small_table(chance, 4),
    };
    let (values, text) = if check(n, &words).is_ok() {
        claimed(chance, n, &words)
    } else {
        (lent_values(chance, vec![U; n.min(600) as usize]), claimed_text(chance, n.min(512), &[]))
    };
    Claimed { n, words, values, text }
}
