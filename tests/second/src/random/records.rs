//! Mark records and atoms to pick, sound and forged.

use crate::marking::MarkRecord;
use crate::random::{Chance, awkward_number};
use crate::refusal::*;

/// A record with marks only below N, none, few, many or all, and their number as the count.
pub fn record(chance: &mut Chance, n: u64) -> MarkRecord {
    let mut marks = [0; 8];
    let percent = chance.of(&[0, 0, 3, 20, 50, 90, 100]);
    for atom in 0..n.min(512) as usize {
        if chance.percent(percent) {
            marks[atom / 64] |= 1 << (atom % 64);
        }
    }
    MarkRecord::counted(n, marks)
}

/// The ways in which `forge` forges a record; each of those of the count has marks below N alone.
#[derive(Clone, Copy, Debug, PartialEq, Eq)]
pub enum RecordForgery {
    NAbove512,
    NAbove512AndWrongCount,
    /// The mark past N is counted with the others.
    MarkPastNCounted,
    /// The count is that of the marks below N.
    MarkPastNNotCounted,
    MarkPastNAndWrongCount,
    CountOneAbove,
    CountOneBelow,
    Count0,
    Count512,
    Count513,
    CountLargest,
    /// N, as if all atoms were marked.
    CountN,
    /// The count of another record for N.
    CountOfAnother,
    /// Right in its lowest byte, two bytes or four.
    CountRightAfterAWrap,
}

pub const RECORD_FORGERIES: [RecordForgery; 14] = [
    RecordForgery::NAbove512,
    RecordForgery::NAbove512AndWrongCount,
    RecordForgery::MarkPastNCounted,
    RecordForgery::MarkPastNNotCounted,
    RecordForgery::MarkPastNAndWrongCount,
    RecordForgery::CountOneAbove,
    RecordForgery::CountOneBelow,
    RecordForgery::Count0,
    RecordForgery::Count512,
    RecordForgery::Count513,
    RecordForgery::CountLargest,
    RecordForgery::CountN,
    RecordForgery::CountOfAnother,
    RecordForgery::CountRightAfterAWrap,
];

impl RecordForgery {
    /// The number by which a record forged in this way is refused.
    pub fn number(self) -> u32 {
        match self {
            RecordForgery::NAbove512 | RecordForgery::NAbove512AndWrongCount => N_ABOVE_512,
            _ => BROKEN_RECORD,
        }
    }

    /// Whether a record for N can be forged in this way.
    pub fn fits(self, n: u64) -> bool {
        match self {
            RecordForgery::MarkPastNCounted | RecordForgery::MarkPastNNotCounted | RecordForgery::MarkPastNAndWrongCount => n < 512,
            // Some atom has to be marked, or unmarked.
            RecordForgery::CountOneBelow | RecordForgery::Count0 | RecordForgery::CountN | RecordForgery::CountOfAnother => n > 0,
            _ => true,
        }
    }

    /// Whether the record is forged in this way; it may be in several.
    pub fn is(self, record: &MarkRecord) -> bool {
        let MarkRecord { n, count, .. } = *record;
        let number = record.number_of_marks();
        let below = (0..n.min(512) as usize).filter(|&atom| record.has(atom)).count() as u64;
        let wrong_alone = n <= 512 && below == number && count != number;
        match self {
            RecordForgery::NAbove512 => n > 512 && count == number,
            RecordForgery::NAbove512AndWrongCount => n > 512 && count != number,
            RecordForgery::MarkPastNCounted => below < number && count == number,
            RecordForgery::MarkPastNNotCounted => below < number && count == below,
            RecordForgery::MarkPastNAndWrongCount => below < number && count != number && count != below,
            RecordForgery::CountOneAbove => wrong_alone && count == number + 1,
            RecordForgery::CountOneBelow => wrong_alone && number.checked_sub(1) == Some(count),
            RecordForgery::Count0 => wrong_alone && count == 0,
            RecordForgery::Count512 => wrong_alone && count == 512,
            RecordForgery::Count513 => wrong_alone && count == 513,
            RecordForgery::CountLargest => wrong_alone && count == u64::MAX,
            RecordForgery::CountN => wrong_alone && count == n,
            RecordForgery::CountOfAnother => wrong_alone && count <= n,
            RecordForgery::CountRightAfterAWrap => wrong_alone && count % 256 == number % 256,
        }
    }
}

/// A record forged in this way, which fits N, at most 512.
pub fn forge(chance: &mut Chance, n: u64, forgery: RecordForgery) -> MarkRecord {
    let drawn = record(chance, n);
    let sound = with_room(chance, drawn, forgery);
    let number = sound.count;
    let counted_as = |count: u64| MarkRecord { count, ..sound };
    match forgery {
        RecordForgery::NAbove512 => MarkRecord { n: n_above_512(chance), ..sound },
        RecordForgery::NAbove512AndWrongCount => MarkRecord { n: n_above_512(chance), ..counted_as(other_than(chance, &[number])) },
        RecordForgery::MarkPastNCounted => marked_past_n(chance, sound),
        RecordForgery::MarkPastNNotCounted => MarkRecord { count: number, ..marked_past_n(chance, sound) },
        RecordForgery::MarkPastNAndWrongCount => {
            let past = marked_past_n(chance, sound);
            MarkRecord { count: other_than(chance, &[number, past.count]), ..past }
        }
        RecordForgery::CountOneAbove => counted_as(number + 1),
        RecordForgery::CountOneBelow => counted_as(number - 1),
        RecordForgery::Count0 => counted_as(0),
        RecordForgery::Count512 => counted_as(512),
        RecordForgery::Count513 => counted_as(513),
        RecordForgery::CountLargest => counted_as(u64::MAX),
        RecordForgery::CountN => counted_as(n),
        RecordForgery::CountOfAnother => {
            let other = chance.below(n);
            counted_as(if other < number { other } else { other + 1 })
        }
        RecordForgery::CountRightAfterAWrap => counted_as(number + (1 << chance.of(&[8, 9, 16, 32, 48, 63]))),
    }
}

/// The record with an atom marked where the count is to be below the number of marks, unmarked where it is to be as if all were marked.
fn with_room(chance: &mut Chance, record: MarkRecord, forgery: RecordForgery) -> MarkRecord {
    let mut marks = record.marks;
    let atom = chance.below(record.n) as usize;
    match forgery {
        RecordForgery::CountOneBelow | RecordForgery::Count0 if record.count == 0 => marks[atom / 64] |= 1 << (atom % 64),
        RecordForgery::CountN if record.count == record.n => marks[atom / 64] &= !(1 << (atom % 64)),
        RecordForgery::Count512 if record.count == 512 => marks[atom / 64] &= !(1 << (atom % 64)),
        _ => {}
    }
    MarkRecord::counted(record.n, marks)
}

fn n_above_512(chance: &mut Chance) -> u64 {
    chance.of(&[513, 1 << 16, (1 << 32) + 3, u64::MAX])
}

/// A count that is none of these.
fn other_than(chance: &mut Chance, counts: &[u64]) -> u64 {
    let near = chance.of(counts);
    let other = awkward_number(chance, near);
    if counts.contains(&other) { 514 + chance.below(9) } else { other }
}

/// The record with a mark at N or above, counted.
fn marked_past_n(chance: &mut Chance, record: MarkRecord) -> MarkRecord {
    let mut marks = record.marks;
    let atom = chance.of(&[record.n, 511, chance.clone().between(record.n, 511)]) as usize;
    marks[atom / 64] |= 1 << (atom % 64);
    MarkRecord::counted(record.n, marks)
}

/// A record that is refused, forged in any way that fits N.
pub fn forged_record(chance: &mut Chance, n: u64) -> MarkRecord {
    let n = n.min(512);
    let fitting: Vec<RecordForgery> = RECORD_FORGERIES.into_iter().filter(|forgery| forgery.fits(n)).collect();
    let forgery = chance.of(&fitting);
    forge(chance, n, forgery)
}

/// A record for N, forged once in four times.
pub fn any_record(chance: &mut Chance, n: u64) -> MarkRecord {
    if chance.one_in(4) { forged_record(chance, n) } else { record(chance, n.min(512)) }
}

/// An atom to pick: mostly below N, else at the edge, beyond it, or far beyond.
pub fn any_atom(chance: &mut Chance, n: u64) -> u64 {
    if n > 0 && !chance.one_in(8) { chance.below(n) } else { awkward_number(chance, n) }
}
