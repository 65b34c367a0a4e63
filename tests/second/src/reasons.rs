//! Reason sheet (document 02, W5): its lines as text, and the check of a table, values and such a sheet from anybody.
//!
//! Which ranks and rules a writer picks is free, so no sheet is written here: one that the engine wrote is judged by the check.

use std::collections::BTreeMap;

use crate::judge::{TABLE_1_AND, TABLE_1_IMPLIES, TABLE_1_NOT, TABLE_1_OR};
use crate::model;
use crate::refusal::*;
use crate::table::{self, Literal, Rule, negation};
use crate::truth::{F, I, T, U};

/// Why a literal is in the model.
#[derive(Clone, Copy, Debug, PartialEq, Eq)]
pub struct Line {
    pub literal: Literal,
    pub rank: usize,
    /// The head of the rule that the literal rests on.
    pub head: Literal,
    /// The number of that rule's group, from 1; 0 for a fact.
    pub group: usize,
}

/// The sheet of these lines. A number above 9,999 is written out, and the text is then no good one.
pub fn text_of(lines: &[Line]) -> Vec<u8> {
    let show = |line: &Line| format!("{}\t{}\t{}\t{}\n", line.literal, line.rank, line.head, line.group);
    lines.iter().map(show).collect::<String>().into_bytes()
}

/// The lines of a text, or 21 at the first byte with which it can no longer be the beginning of a good one.
pub fn lines_of(text: &[u8]) -> Result<Vec<Line>, Refusal> {
    let mut lines = Vec::new();
    let mut start = 0;
    for bytes in text.split_inclusive(|&byte| byte == b'\n') {
        match line_of(bytes) {
            Ok(line) => lines.push(line),
            Err(at) => return refuse(TEXT_BROKEN, start + at),
        }
        start += bytes.len();
    }
    Ok(lines)
}

/// The line that these bytes are, or where they break; if byte 10 stands among them, it is the last.
fn line_of(bytes: &[u8]) -> Result<Line, usize> {
    let (inner, ended) = match bytes.strip_suffix(b"\n") {
        Some(inner) => (inner, true),
        None => (bytes, false),
    };
    let mut numbers = Vec::new();
    let mut start = 0;
    for field in inner.split(|&byte| byte == b'\t') {
        if numbers.len() == 4 {
            // The tab before a fifth field.
            return Err(start - 1);
        }
        numbers.push(number(field).map_err(|at| start + at)?);
        start += field.len() + 1;
    }
    match numbers[..] {
        [literal, rank, head, group] if ended => Ok(Line { literal, rank, head, group }),
        _ => Err(inner.len()),
    }
}

/// A number of 1 to 4 digits without a leading zero, or where the field breaks.
fn number(field: &[u8]) -> Result<usize, usize> {
    let stands = |at: usize| field[at].is_ascii_digit() && at < 4 && (at == 0 || field[0] != b'0');
    match (0..field.len()).find(|&at| !stands(at)) {
        Some(at) => Err(at),
        None if field.is_empty() => Err(0),
        None => Ok(field.iter().fold(0, |sofar, digit| 10 * sofar + usize::from(digit - b'0'))),
    }
}

/// Rules, and the values that are claimed for their atoms.
#[derive(Clone, Copy, Debug)]
pub struct Claim<'a> {
    pub rules: &'a [Rule],
    pub values: &'a [u8],
}

impl Claim<'_> {
    pub fn value(&self, literal: Literal) -> u8 {
        let value = self.values[literal / 2];
        if literal.is_multiple_of(2) { value } else { TABLE_1_NOT[value as usize] }
    }

    pub fn group_value(&self, group: &[Literal]) -> u8 {
        group.iter().fold(T, |sofar, &literal| TABLE_1_AND[sofar as usize][self.value(literal) as usize])
    }

    /// The empty body is t.
    pub fn body_value(&self, rule: &Rule) -> u8 {
        let or = |sofar: u8, group: &Vec<Literal>| TABLE_1_OR[sofar as usize][self.group_value(group) as usize];
        if rule.groups.is_empty() { T } else { rule.groups.iter().fold(F, or) }
    }

    pub fn rule(&self, head: Literal) -> Option<&Rule> {
        self.rules.iter().find(|rule| rule.head == head)
    }

    /// The literals of the interpretation, in code order.
    pub fn literals(&self) -> Vec<Literal> {
        (0..2 * self.values.len()).filter(|&literal| [T, I].contains(&self.value(literal))).collect()
    }

    /// Where the head of the first rule stands whose implication is not t.
    fn first_unsatisfied(&self) -> Option<usize> {
        let satisfied = |rule: &Rule| TABLE_1_IMPLIES[self.body_value(rule) as usize][self.value(rule.head) as usize] == T;
        let words = |rule: &Rule| 3 + rule.groups.iter().map(|group| 1 + group.len()).sum::<usize>();
        let before = self.rules.iter().position(|rule| !satisfied(rule))?;
        Some(self.rules[..before].iter().map(words).sum())
    }

    /// The first line, from 1, that is not the one of the next literal: missing, out of order or surplus.
    fn first_out_of_row(&self, lines: &[Line]) -> Option<usize> {
        let wanted = self.literals();
        let given: Vec<Literal> = lines.iter().map(|line| line.literal).collect();
        let before = (0..wanted.len().max(given.len())).find(|&at| wanted.get(at) != given.get(at))?;
        Some(before + 1)
    }

    /// The first line, from 1, that is not justified or has a rank above 1,023, of lines of all literals.
    pub fn first_unjustified(&self, lines: &[Line]) -> Option<usize> {
        let ranks = lines.iter().map(|line| (line.literal, line.rank)).collect();
        let before = lines.iter().position(|line| line.rank > MOST_RANK || !self.justified(line, &ranks))?;
        Some(before + 1)
    }

    /// The rule and the group that the line names are a reason for its literal, by (6), (7) or (8) of Definition 9.
    fn justified(&self, line: &Line, ranks: &BTreeMap<Literal, usize>) -> bool {
        let Some(rule) = self.rule(line.head) else { return false };
        let own = line.head == line.literal;
        if rule.groups.is_empty() {
            return own && line.group == 0;
        }
        let Some(group) = line.group.checked_sub(1).and_then(|before| rule.groups.get(before)) else { return false };
        let supports = own && self.group_value(group) == T;
        let serves = (own || line.head == negation(line.literal))
            && self.value(line.literal) == I
            && self.body_value(rule) == I
            && self.group_value(group) == I;
        // Measured at the head of the rule; what is in a t or i group is in the interpretation, and so has a line.
        (supports || serves) && group.iter().all(|literal| ranks[literal] < ranks[&line.head])
    }
}

/// The check of a reason sheet: 1, 2, 3, words, 20, 21, 34, then 22 for the row of lines and 22 for what they say.
pub fn check_reasons(n: u64, words: &[u16], values: &[u8], text: &[u8]) -> Result<(), Refusal> {
    let rules = model::evaluation_rules(n, words, values.len())?;
    let values = &values[..n as usize];
    if let Some(atom) = values.iter().position(|&value| value > T) {
        return refuse(TRUTH_CODE_ABOVE_3, atom);
    }
    let lines = lines_of(text)?;
    let claim = Claim { rules: &rules, values };
    if let Some(place) = claim.first_unsatisfied() {
        return refuse(VALUES_NOT_A_MODEL, place);
    }
    if let Some(number) = claim.first_out_of_row(&lines) {
        return refuse(LINE_WRONG, number);
    }
    if let Some(number) = claim.first_unjustified(&lines) {
        return refuse(LINE_WRONG, number);
    }
    Ok(())
}

/// What the writer of a reason sheet refuses before 15: 1, 2, then the words.
pub fn check_writing(n: u64, words: &[u16]) -> Result<(), Refusal> {
    table::check(n, words)
}

/// The check of a sheet that a writer gave for a table: by the values of whole evaluation.
pub fn check_written(n: u64, words: &[u16], text: &[u8]) -> Result<(), Refusal> {
    check_writing(n, words)?;
    let mut values = vec![U; n as usize];
    model::evaluate(n, words, &mut values)?;
    check_reasons(n, words, &values, text)
}
