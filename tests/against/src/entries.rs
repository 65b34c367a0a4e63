//! The entries of `tests/probe.h`, and the same entries of the second implementation.

use second::marking::{self, MarkRecord, Picked};
use second::model::OfFirst;
use second::refusal::Refusal;
use second::{model, table, truth};

use crate::guard::Guarded;

/// What an entry says, by the codes of `tests/probe.h`, or its refusal.
pub type Answer = Result<u64, Refusal>;

pub const MARKED: u64 = 0;
pub const ALREADY_MARKED: u64 = 1;
pub const CANNOT_BE_MARKED_NOW: u64 = 2;

pub const NO: u64 = 0;
pub const YES: u64 = 1;

pub const FACT: u64 = 0;
pub const NO_GROUP: u64 = 65;
pub const NO_RECORD: u64 = 66;

unsafe extern "C" {
    safe fn probe_and(v: u64, w: u64) -> u64;
    safe fn probe_or(v: u64, w: u64) -> u64;
    safe fn probe_not(v: u64) -> u64;
    safe fn probe_implication(body: u64, head: u64) -> u64;
    fn probe_check(n: u64, table: *const u16, words: usize) -> u64;
    fn probe_fresh(asked: u64, n: *mut u64, marks: *mut u64, count: *mut u64) -> u64;
    fn probe_pick(n: *mut u64, marks: *mut u64, count: *mut u64, table: *const u16, words: usize, atom: u64) -> u64;
    fn probe_settled(n: u64, marks: *const u64, count: u64, table: *const u16, words: usize) -> u64;
    fn probe_report(
        n: u64,
        marks: *const u64,
        count: u64,
        table: *const u16,
        words: usize,
        values: *mut u8,
        room: usize,
    ) -> u64;
    fn probe_mark_count(n: u64, marks: *const u64, count: u64) -> u64;
    fn probe_evaluate(n: u64, table: *const u16, words: usize, values: *mut u8, room: usize) -> u64;
    fn probe_conflict(n: u64, table: *const u16, words: usize) -> u64;
    fn probe_which_group(n: u64, table: *const u16, words: usize, set: *const u64, set_words: usize) -> u64;
}

/// A packed number taken apart: from 2^32 on a refusal.
pub fn unpacked(number: u64) -> Answer {
    match number >> 32 {
        0 => Ok(number),
        refused => Err(Refusal { number: refused as u32, place: number & 0xffff_ffff }),
    }
}

/// The entries over one engine, so that a wrong one can be put in its place.
pub trait Entries {
    fn and(&self, v: u64, w: u64) -> Answer;
    fn or(&self, v: u64, w: u64) -> Answer;
    fn not(&self, v: u64) -> Answer;
    fn implication(&self, body: u64, head: u64) -> Answer;
    fn check(&self, n: u64, words: &[u16]) -> Answer;
    fn fresh(&self, n: u64) -> (MarkRecord, Answer);
    fn pick(&self, record: &mut MarkRecord, words: &[u16], atom: u64) -> Answer;
    fn settled(&self, record: &MarkRecord, words: &[u16]) -> Answer;
    fn report(&self, record: &MarkRecord, words: &[u16], values: &mut [u8]) -> Answer;
    fn mark_count(&self, record: &MarkRecord) -> Answer;
    fn evaluate(&self, n: u64, words: &[u16], values: &mut [u8]) -> Answer;
    fn conflict(&self, n: u64, words: &[u16]) -> Answer;
    fn which_group(&self, n: u64, words: &[u16], set: &[u64]) -> Answer;
}

/// Which group of the first record is wholly in the set, lent these very slices.
pub fn which_group(n: u64, words: &[u16], set: &[u64]) -> Answer {
    unpacked(unsafe { probe_which_group(n, words.as_ptr(), words.len(), set.as_ptr(), set.len()) })
}

/// The same with a null pointer for an empty set, and for a table that is empty.
pub fn which_group_nulls(n: u64, words: &[u16]) -> Answer {
    let table = if words.is_empty() { std::ptr::null() } else { words.as_ptr() };
    unpacked(unsafe { probe_which_group(n, table, words.len(), std::ptr::null(), 0) })
}

/// The mark count, lent this very record; so are the settled question and the pick below.
pub fn mark_count(record: &MarkRecord) -> Answer {
    unpacked(unsafe { probe_mark_count(record.n, record.marks.as_ptr(), record.count) })
}

pub fn settled(record: &MarkRecord, words: &[u16]) -> Answer {
    unpacked(unsafe { probe_settled(record.n, record.marks.as_ptr(), record.count, words.as_ptr(), words.len()) })
}

pub fn pick(record: &mut MarkRecord, words: &[u16], atom: u64) -> Answer {
    let MarkRecord { n, marks, count } = record;
    unpacked(unsafe { probe_pick(n, marks.as_mut_ptr(), count, words.as_ptr(), words.len(), atom) })
}

/// The proved engine.
#[derive(Clone, Copy, Debug)]
pub struct Engine;

/// N, marks and count as they are lent, with guards around each.
struct Lent {
    n: Guarded<u64>,
    marks: Guarded<u64>,
    count: Guarded<u64>,
}

impl Lent {
    fn new(record: &MarkRecord) -> Lent {
        Lent { n: Guarded::new(&[record.n], 2), marks: Guarded::new(&record.marks, 2), count: Guarded::new(&[record.count], 2) }
    }

    fn record(&self) -> MarkRecord {
        self.n.check();
        self.marks.check();
        self.count.check();
        let mut marks = [0; 8];
        marks.copy_from_slice(self.marks.row());
        MarkRecord { n: self.n.row()[0], marks, count: self.count.row()[0] }
    }

    /// Where N, the marks and the count stand, to be written.
    fn places(&mut self) -> [*mut u64; 3] {
        [&mut self.n, &mut self.marks, &mut self.count].map(|lent| lent.row_mut().as_mut_ptr())
    }

    /// Stops if the record was altered.
    fn unaltered(&self, record: &MarkRecord) {
        assert_eq!(self.record(), *record, "a record lent to be read was altered");
    }
}

// Each call lends exactly what `tests/probe.h` asks for, for its length.
impl Entries for Engine {
    fn and(&self, v: u64, w: u64) -> Answer {
        unpacked(probe_and(v, w))
    }

    fn or(&self, v: u64, w: u64) -> Answer {
        unpacked(probe_or(v, w))
    }

    fn not(&self, v: u64) -> Answer {
        unpacked(probe_not(v))
    }

    fn implication(&self, body: u64, head: u64) -> Answer {
        unpacked(probe_implication(body, head))
    }

    fn check(&self, n: u64, words: &[u16]) -> Answer {
        unpacked(unsafe { probe_check(n, words.as_ptr(), words.len()) })
    }

    fn fresh(&self, n: u64) -> (MarkRecord, Answer) {
        // Whatever stood there before is gone.
        let mut lent = Lent::new(&MarkRecord { n: !n, marks: [!0; 8], count: !n });
        let [to_n, marks, count] = lent.places();
        let answer = unsafe { probe_fresh(n, to_n, marks, count) };
        (lent.record(), unpacked(answer))
    }

    fn pick(&self, record: &mut MarkRecord, words: &[u16], atom: u64) -> Answer {
        let mut lent = Lent::new(record);
        let [n, marks, count] = lent.places();
        let answer = unsafe { probe_pick(n, marks, count, words.as_ptr(), words.len(), atom) };
        *record = lent.record();
        unpacked(answer)
    }

    fn settled(&self, record: &MarkRecord, words: &[u16]) -> Answer {
        let lent = Lent::new(record);
        let marks = lent.marks.row().as_ptr();
        let answer = unsafe { probe_settled(record.n, marks, record.count, words.as_ptr(), words.len()) };
        lent.unaltered(record);
        unpacked(answer)
    }

    fn report(&self, record: &MarkRecord, words: &[u16], values: &mut [u8]) -> Answer {
        let lent = Lent::new(record);
        let mut room = Guarded::new(values, 13);
        let (to, length) = (room.row_mut().as_mut_ptr(), values.len());
        let marks = lent.marks.row().as_ptr();
        let answer = unsafe { probe_report(record.n, marks, record.count, words.as_ptr(), words.len(), to, length) };
        lent.unaltered(record);
        room.check();
        values.copy_from_slice(room.row());
        unpacked(answer)
    }

    fn mark_count(&self, record: &MarkRecord) -> Answer {
        let lent = Lent::new(record);
        let answer = unsafe { probe_mark_count(record.n, lent.marks.row().as_ptr(), record.count) };
        lent.unaltered(record);
        unpacked(answer)
    }

    fn evaluate(&self, n: u64, words: &[u16], values: &mut [u8]) -> Answer {
        let mut room = Guarded::new(values, 13);
        let (to, length) = (room.row_mut().as_mut_ptr(), values.len());
        let answer = unsafe { probe_evaluate(n, words.as_ptr(), words.len(), to, length) };
        room.check();
        values.copy_from_slice(room.row());
        unpacked(answer)
    }

    fn conflict(&self, n: u64, words: &[u16]) -> Answer {
        unpacked(unsafe { probe_conflict(n, words.as_ptr(), words.len()) })
    }

    fn which_group(&self, n: u64, words: &[u16], set: &[u64]) -> Answer {
        let (lent, lent_set) = (Guarded::new(words, 3), Guarded::new(set, 2));
        let answer = which_group(n, lent.row(), lent_set.row());
        assert!(lent == Guarded::new(words, 3), "the table was altered");
        assert!(lent_set == Guarded::new(set, 2), "the set was altered");
        answer
    }
}

/// The second implementation.
#[derive(Clone, Copy, Debug)]
pub struct Second;

impl Entries for Second {
    fn and(&self, v: u64, w: u64) -> Answer {
        truth::and(v, w).map(u64::from)
    }

    fn or(&self, v: u64, w: u64) -> Answer {
        truth::or(v, w).map(u64::from)
    }

    fn not(&self, v: u64) -> Answer {
        truth::not(v).map(u64::from)
    }

    fn implication(&self, body: u64, head: u64) -> Answer {
        truth::implies(body, head).map(u64::from)
    }

    fn check(&self, n: u64, words: &[u16]) -> Answer {
        table::check(n, words).map(|()| 0)
    }

    fn fresh(&self, n: u64) -> (MarkRecord, Answer) {
        let (record, answer) = marking::fresh(n);
        (record, answer.map(|()| 0))
    }

    fn pick(&self, record: &mut MarkRecord, words: &[u16], atom: u64) -> Answer {
        match marking::pick(record, words, atom) {
            Picked::Marked => Ok(MARKED),
            Picked::AlreadyMarked => Ok(ALREADY_MARKED),
            Picked::CannotBeMarkedNow => Ok(CANNOT_BE_MARKED_NOW),
            Picked::Refused(refusal) => Err(refusal),
        }
    }

    fn settled(&self, record: &MarkRecord, words: &[u16]) -> Answer {
        marking::settled(record, words).map(u64::from)
    }

    fn report(&self, record: &MarkRecord, words: &[u16], values: &mut [u8]) -> Answer {
        marking::report(record, words, values).map(|()| 0)
    }

    fn mark_count(&self, record: &MarkRecord) -> Answer {
        marking::mark_count(record)
    }

    fn evaluate(&self, n: u64, words: &[u16], values: &mut [u8]) -> Answer {
        model::evaluate(n, words, values).map(|()| 0)
    }

    fn conflict(&self, n: u64, words: &[u16]) -> Answer {
        model::conflict(n, words).map(u64::from)
    }

    fn which_group(&self, n: u64, words: &[u16], set: &[u64]) -> Answer {
        model::which_group_of_first(n, words, set).map(|said| match said {
            OfFirst::Group(number) => number as u64,
            OfFirst::NoGroup => NO_GROUP,
            OfFirst::NoRecord => NO_RECORD,
        })
    }
}
