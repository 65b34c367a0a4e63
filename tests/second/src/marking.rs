//! Marking by picks: the mark record and the entries that take it.

use crate::model;
use crate::refusal::*;
use crate::table::{self, Rule};

/// N, 512 marks and their count (document 02, W6); atom a is bit a mod 64, lowest first, of word a div 64.
#[derive(Clone, Copy, Debug, PartialEq, Eq)]
pub struct MarkRecord {
    pub n: u64,
    pub marks: [u64; 8],
    /// As stored: in a record from anybody it may be any number.
    pub count: u64,
}

/// What a pick answers.
#[derive(Clone, Copy, Debug, PartialEq, Eq)]
pub enum Picked {
    Marked,
    AlreadyMarked,
    CannotBeMarkedNow,
    Refused(Refusal),
}

impl MarkRecord {
    /// N 0, no marks, count 0.
    pub const EMPTY: MarkRecord = MarkRecord { n: 0, marks: [0; 8], count: 0 };

    /// A record with these marks and their number as the count.
    pub fn counted(n: u64, marks: [u64; 8]) -> MarkRecord {
        let record = MarkRecord { n, marks, count: 0 };
        MarkRecord { count: record.number_of_marks(), ..record }
    }

    pub fn has(&self, atom: usize) -> bool {
        self.marks[atom / 64] >> (atom % 64) & 1 == 1
    }

    /// How many of the 512 are marked, at N or above too; whatever is stored.
    pub fn number_of_marks(&self) -> u64 {
        (0..512).filter(|&atom| self.has(atom)).count() as u64
    }

    /// 1, then 17: a mark at N or above, or a count that is not the number of marks.
    fn check(&self) -> Result<(), Refusal> {
        table::check_n(self.n)?;
        let past_n = (self.n as usize..512).any(|atom| self.has(atom));
        if past_n || self.count != self.number_of_marks() {
            return refuse(BROKEN_RECORD, 0);
        }
        Ok(())
    }

    /// Whether each atom is marked.
    pub fn marked(&self) -> Vec<bool> {
        (0..self.n as usize).map(|atom| self.has(atom)).collect()
    }

    /// The rules of the table lent with this record: 1, 17, 2, then the words.
    fn rules(&self, words: &[u16]) -> Result<Vec<Rule>, Refusal> {
        self.check()?;
        table::check_length(words)?;
        table::rules_of(self.n, words)
    }
}

/// A fresh record for N, with the answer; a refused one has N 0, no marks and count 0.
pub fn fresh(n: u64) -> (MarkRecord, Result<(), Refusal>) {
    match table::check_n(n) {
        Ok(()) => (MarkRecord { n, marks: [0; 8], count: 0 }, Ok(())),
        refused => (MarkRecord::EMPTY, refused),
    }
}

/// Marks the atom if it can be marked now, and counts it; nothing else in the record is altered. 1, 17, 2, words, 16.
pub fn pick(record: &mut MarkRecord, words: &[u16], atom: u64) -> Picked {
    let rules = match record.rules(words) {
        Ok(rules) => rules,
        Err(refusal) => return Picked::Refused(refusal),
    };
    if atom >= record.n {
        return Picked::Refused(Refusal {
            number: ATOM_NOT_BELOW_N,
            place: 0,
        });
    }
    let atom = atom as usize;
    if record.has(atom) {
        Picked::AlreadyMarked
    } else if model::markable(&rules, &record.marked()).contains(&atom) {
        record.marks[atom / 64] |= 1 << (atom % 64);
        record.count += 1;
        Picked::Marked
    } else {
        Picked::CannotBeMarkedNow
    }
}

/// Whether no atom can be marked. 1, 17, 2, words.
pub fn settled(record: &MarkRecord, words: &[u16]) -> Result<bool, Refusal> {
    let rules = record.rules(words)?;
    Ok(model::markable(&rules, &record.marked()).is_empty())
}

/// Writes the N values of a settled record. 1, 17, 2, 3, words, 18.
pub fn report(record: &MarkRecord, words: &[u16], values: &mut [u8]) -> Result<(), Refusal> {
    record.check()?;
    table::check_length(words)?;
    model::check_room(record.n, values.len())?;
    let rules = table::rules_of(record.n, words)?;
    let marked = record.marked();
    if !model::markable(&rules, &marked).is_empty() {
        return refuse(NOT_SETTLED, 0);
    }
    let settled = model::values_of(&rules, &marked);
    values[..settled.len()].copy_from_slice(&settled);
    Ok(())
}

/// The number of marks, as stored. 1, 17.
pub fn mark_count(record: &MarkRecord) -> Result<u64, Refusal> {
    record.check()?;
    Ok(record.count)
}
