//! The program and the host's entries against the second implementation.
//!
//! A case is drawn from the seed and its own number alone, so that it can be run again by itself: an input of `second::random`,
//! altered a few times (`alter`), and buffers to lend. Both sides must answer the same and leave the same bytes. The engine's
//! buffers lie against pages that can be neither read nor written (`against::pages`).

pub mod alter;
pub mod targets;

use std::sync::atomic::{AtomicU64, Ordering};

use against::cases::Tally;
use against::shrink::without_parts;
use second::random::Chance;

/// What is handed over: N (with a table), the table or sheet, and the buffers lent beside it.
#[derive(Clone, Debug)]
pub struct Case {
    pub n: u64,
    pub bytes: Vec<u8>,
    pub lent: Vec<Vec<u8>>,
}

/// What comes back: the answer, or the program's status, and the buffers afterwards, or what the program printed.
#[derive(Clone, Debug, PartialEq, Eq)]
pub struct Outcome {
    pub answer: u64,
    pub left: Vec<Vec<u8>>,
}

/// One of the six things that are tried.
pub struct Target {
    pub name: &'static str,
    pub draw: fn(&mut Chance) -> Case,
    pub engine: Box<dyn FnMut(&Case) -> Outcome>,
    pub second: fn(&Case) -> Outcome,
    /// "ok", "yes", "no" or the number of refusal, and what a line or names only in bodies have to do with it.
    pub kind: fn(&Case, &Outcome) -> String,
    /// The kinds that a run of some length must meet.
    pub kinds: &'static [&'static str],
}

/// The number of the case that is being run, for a crash to name.
pub static RUNNING: AtomicU64 = AtomicU64::new(0);

/// A case on which the two sides part, as small as it could be made.
#[derive(Debug)]
pub struct Parting {
    pub number: u64,
    pub case: Case,
    pub engine: Outcome,
    pub second: Outcome,
}

/// The case of that number.
pub fn drawn(target: &Target, seed: u64, number: u64) -> Case {
    (target.draw)(&mut Chance::new(seed ^ number.wrapping_mul(0xd134_2543_de82_ef95)))
}

/// Runs cases from number 0 on, as long as `more` says so of the next number.
pub fn run(target: &mut Target, seed: u64, mut more: impl FnMut(u64) -> bool) -> Result<Tally, Box<Parting>> {
    let mut tally = Tally::default();
    let mut number = 0;
    while more(number) {
        RUNNING.store(number, Ordering::Relaxed);
        let case = drawn(target, seed, number);
        let second = (target.second)(&case);
        tally.note(&(target.kind)(&case, &second));
        if (target.engine)(&case) != second {
            return Err(Box::new(shrunk(target, number, case)));
        }
        number += 1;
    }
    Ok(tally)
}

fn shrunk(target: &mut Target, number: u64, case: Case) -> Parting {
    let bytes = without_parts(&case.bytes, |bytes| {
        let tried = Case { bytes: bytes.to_vec(), ..case.clone() };
        (target.engine)(&tried) != (target.second)(&tried)
    });
    let case = Case { bytes, ..case };
    Parting { number, engine: (target.engine)(&case), second: (target.second)(&case), case }
}

impl Parting {
    /// For a person: the input, the answers, and the first byte of each buffer that differs.
    pub fn said(&self) -> String {
        let mut said = format!(
            "case {}: N {}, input \"{}\", lent {:?} bytes\nengine answers {:#x}, second {:#x}",
            self.number,
            self.case.n,
            self.case.bytes.escape_ascii(),
            self.case.lent.iter().map(Vec::len).collect::<Vec<_>>(),
            self.engine.answer,
            self.second.answer
        );
        for (i, (ours, theirs)) in self.engine.left.iter().zip(&self.second.left).enumerate() {
            if ours != theirs {
                let at = ours.iter().zip(theirs).take_while(|(a, b)| a == b).count();
                said += &format!("\nbuffer {i} differs from byte {at} on: {:?}, {:?}", ours.get(at), theirs.get(at));
            }
        }
        said
    }
}
