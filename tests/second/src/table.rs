//! Word table: rules as a row of 16-bit words.

use std::collections::BTreeSet;

use crate::refusal::*;

/// A literal code: 2 × atom, plus 1 for the negation.
pub type Literal = usize;

pub fn atom_of(literal: Literal) -> usize {
    literal / 2
}

pub fn negation(literal: Literal) -> Literal {
    if literal.is_multiple_of(2) { literal + 1 } else { literal - 1 }
}

/// The body is the OR of its groups, a group the AND of its literals; no group at all is a fact.
#[derive(Clone, Debug, PartialEq, Eq)]
pub struct Rule {
    pub head: Literal,
    pub groups: Vec<Vec<Literal>>,
}

/// One record: a rule, and the line of the sheet it came from, or 0. No answer depends on the line.
#[derive(Clone, Debug, PartialEq, Eq)]
pub struct Record {
    pub line: usize,
    pub rule: Rule,
}

/// Rules with the lines 1, 2, 3 .., as a sheet gives them.
pub fn numbered(rules: &[Rule]) -> Vec<Record> {
    rules.iter().enumerate().map(|(i, rule)| Record { line: i + 1, rule: rule.clone() }).collect()
}

/// The table check: 1, 2, then the words.
pub fn check(n: u64, words: &[u16]) -> Result<(), Refusal> {
    check_n(n)?;
    check_length(words)?;
    parse(n, words).map(|_| ())
}

pub fn check_n(n: u64) -> Result<(), Refusal> {
    if n > MOST_ATOMS { refuse(N_ABOVE_512, 0) } else { Ok(()) }
}

pub fn check_length(words: &[u16]) -> Result<(), Refusal> {
    if words.len() > MOST_WORDS { refuse(TABLE_ABOVE_8192, 0) } else { Ok(()) }
}

/// The rules of the words alone, for all that follows from them.
pub fn rules_of(n: u64, words: &[u16]) -> Result<Vec<Rule>, Refusal> {
    Ok(parse(n, words)?.into_iter().map(|record| record.rule).collect())
}

/// The words as records, or the first faulty word; N and the length have been checked before.
pub fn parse(n: u64, words: &[u16]) -> Result<Vec<Record>, Refusal> {
    let mut row = Row { n, words, at: 0 };
    let mut records = Vec::new();
    let mut heads = BTreeSet::new();
    while row.at < words.len() {
        let place = row.at;
        let head = row.literal()?;
        if !heads.insert(head) {
            return refuse(SECOND_RULE_FOR_HEAD, place);
        }
        let line = row.number(0, MOST_LINE)?;
        let mut groups = Vec::new();
        for _ in 0..row.number(0, MOST_GROUPS)? {
            let mut group = Vec::new();
            for _ in 0..row.number(1, MOST_LITERALS)? {
                group.push(row.literal()?);
            }
            groups.push(group);
        }
        records.push(Record { line, rule: Rule { head, groups } });
    }
    Ok(records)
}

/// The words and how far they have been read.
struct Row<'a> {
    n: u64,
    words: &'a [u16],
    at: usize,
}

impl Row<'_> {
    fn word(&mut self) -> Result<usize, Refusal> {
        match self.words.get(self.at) {
            None => refuse(RECORD_CUT_SHORT, self.words.len()),
            Some(&word) => {
                self.at += 1;
                Ok(word as usize)
            }
        }
    }

    fn literal(&mut self) -> Result<Literal, Refusal> {
        let place = self.at;
        let literal = self.word()?;
        if literal as u64 >= 2 * self.n { refuse(LITERAL_NOT_BELOW_2N, place) } else { Ok(literal) }
    }

    fn number(&mut self, least: usize, most: usize) -> Result<usize, Refusal> {
        let place = self.at;
        let number = self.word()?;
        if number < least || number > most { refuse(COUNT_OR_LINE_OUT_OF_RANGE, place) } else { Ok(number) }
    }
}

/// The words of records.
pub fn encode(records: &[Record]) -> Vec<u16> {
    let mut words = Vec::new();
    for Record { line, rule } in records {
        words.push(rule.head as u16);
        words.push(*line as u16);
        words.push(rule.groups.len() as u16);
        for group in &rule.groups {
            words.push(group.len() as u16);
            words.extend(group.iter().map(|&literal| literal as u16));
        }
    }
    words
}
