//! Smaller inputs on which a test still fails.

use second::marking::MarkRecord;
use second::random::head_places;
use second::table::{Record, encode, parse};

/// The row without parts that the failure does not need: no further part, down to a single element, can go.
pub fn without_parts<T: Clone>(row: &[T], mut fails: impl FnMut(&[T]) -> bool) -> Vec<T> {
    let mut row = row.to_vec();
    let mut part = row.len().max(1);
    loop {
        let mut shrunk = false;
        let mut at = 0;
        while at < row.len() {
            let end = row.len().min(at + part);
            let fewer: Vec<T> = row[..at].iter().chain(&row[end..]).cloned().collect();
            if fails(&fewer) {
                row = fewer;
                shrunk = true;
            } else {
                at = end;
            }
        }
        if part > 1 {
            part /= 2;
        } else if !shrunk {
            return row;
        }
    }
}

/// The smallest of these numbers with which it still fails, else the number itself.
pub fn smaller(number: u64, mut fails: impl FnMut(u64) -> bool) -> u64 {
    let halves = (0..64).rev().map(|shift| number >> shift);
    let mut candidates: Vec<u64> = (0..8).chain(halves).chain([number.saturating_sub(1)]).filter(|&n| n < number).collect();
    candidates.sort_unstable();
    candidates.into_iter().find(|&n| fails(n)).unwrap_or(number)
}

/// The words without the bits that the failure does not need.
pub fn fewer_bits(words: &[u64], mut fails: impl FnMut(&[u64]) -> bool) -> Vec<u64> {
    let mut words = words.to_vec();
    for (at, bit) in (0..words.len()).flat_map(|at| (0..64).map(move |bit| (at, bit))) {
        let mut fewer = words.clone();
        fewer[at] &= !(1 << bit);
        if fewer != words && fails(&fewer) {
            words = fewer;
        }
    }
    words
}

/// A record without the marks that the failure does not need, with a smaller N, and with its count right or smaller.
pub fn smaller_record(record: MarkRecord, mut fails: impl FnMut(MarkRecord) -> bool) -> MarkRecord {
    let mut best = fewer_marks(record, &mut fails);
    best.n = smaller(best.n, |n| fails(MarkRecord { n, ..best }));
    let right = MarkRecord::counted(best.n, best.marks);
    if fails(right) {
        return right;
    }
    best.count = smaller(best.count, |count| fails(MarkRecord { count, ..best }));
    // N and the count together, as it may matter that they are equal.
    let least = best.n.min(best.count);
    let lower = |by: u64| MarkRecord { n: best.n - by, count: best.count - by, ..best };
    lower(least - smaller(least, |kept| fails(lower(least - kept))))
}

/// While marks go the count goes with them, so that it stays as right or as wrong as it is; then more marks go alone.
fn fewer_marks(record: MarkRecord, mut fails: impl FnMut(MarkRecord) -> bool) -> MarkRecord {
    let row = |marks: &[u64]| -> [u64; 8] { marks.try_into().expect("eight words") };
    let apart = record.count.wrapping_sub(record.number_of_marks());
    let with_count = |marks: &[u64]| {
        let counted = MarkRecord::counted(record.n, row(marks));
        MarkRecord { count: counted.count.wrapping_add(apart), ..counted }
    };
    let best = with_count(&fewer_bits(&record.marks, |marks| fails(with_count(marks))));
    let marks = fewer_bits(&best.marks, |marks| fails(MarkRecord { marks: row(marks), ..best }));
    MarkRecord { marks: row(&marks), ..best }
}

/// A table without the records, groups, literals, lines and words that the failure does not need.
pub fn smaller_table(words: &[u16], mut fails: impl FnMut(&[u16]) -> bool) -> Vec<u16> {
    let (records, rest) = sound_part(words);
    let mut fails_with = |records: &[Record]| fails(&[encode(records), rest.clone()].concat());
    let mut records = without_parts(&records, |records| fails_with(records));
    for r in 0..records.len() {
        let line = smaller(records[r].line as u64, |line| {
            let mut tried = records.clone();
            tried[r].line = line as usize;
            fails_with(&tried)
        });
        records[r].line = line as usize;
        let with = |groups: &[Vec<usize>]| -> Vec<Record> {
            let mut tried = records.clone();
            tried[r].rule.groups = groups.to_vec();
            tried
        };
        let mut groups = without_parts(&records[r].rule.groups, |groups| fails_with(&with(groups)));
        for g in 0..groups.len() {
            let group = groups[g].clone();
            groups[g] = without_parts(&group, |group| {
                let mut tried = groups.clone();
                tried[g] = group.to_vec();
                fails_with(&with(&tried))
            });
        }
        records[r].rule.groups = groups;
    }
    without_parts(&[encode(&records), rest.clone()].concat(), fails)
}

/// The records in front that are sound, and the words from the first one that is not.
fn sound_part(words: &[u16]) -> (Vec<Record>, Vec<u16>) {
    let ends: Vec<usize> = head_places(words).into_iter().chain([words.len()]).collect();
    let sound = |end: usize| Some((parse(512, &words[..end]).ok()?, words[end..].to_vec()));
    ends.into_iter().rev().find_map(sound).unwrap_or((Vec::new(), words.to_vec()))
}
