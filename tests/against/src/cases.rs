//! How many cases to run, and what they met.

use std::collections::BTreeMap;
use std::fmt::{self, Debug, Display};

use second::refusal::Refusal;

/// So many cases, times SIMMERKNOT_CASES (1 if it is not set).
pub fn cases(count: u64) -> u64 {
    count * factor()
}

fn factor() -> u64 {
    match std::env::var("SIMMERKNOT_CASES") {
        Err(_) => 1,
        Ok(text) => text.parse().ok().filter(|&factor| factor > 0).expect("SIMMERKNOT_CASES is a number above 0"),
    }
}

fn once_more(met: &mut BTreeMap<String, u64>, what: &str) {
    match met.get_mut(what) {
        Some(times) => *times += 1,
        None => drop(met.insert(what.to_string(), 1)),
    }
}

/// How often each outcome was met, and what a case was beside its outcome.
#[derive(Clone, Default)]
pub struct Tally {
    met: BTreeMap<String, u64>,
    also: BTreeMap<String, u64>,
}

impl Debug for Tally {
    fn fmt(&self, f: &mut fmt::Formatter) -> fmt::Result {
        self.met.fmt(f)?;
        if self.also.is_empty() {
            return Ok(());
        }
        write!(f, ", among them ")?;
        self.also.fmt(f)
    }
}

impl Tally {
    pub fn note(&mut self, outcome: &str) {
        once_more(&mut self.met, outcome);
    }

    /// Notes "what ok", or "what N" for refusal N.
    pub fn answer<T>(&mut self, what: &str, answer: &Result<T, Refusal>) {
        match answer {
            Ok(_) => self.note(&format!("{what} ok")),
            Err(refusal) => self.note(&format!("{what} {}", refusal.number)),
        }
    }

    /// Notes something of a case that is no outcome.
    pub fn also(&mut self, what: &str) {
        once_more(&mut self.also, what);
    }

    pub fn times(&self, outcome: &str) -> u64 {
        self.met.get(outcome).copied().unwrap_or(0)
    }

    pub fn total(&self) -> u64 {
        self.met.values().sum()
    }

    /// Each of these outcomes was met so many times, and no others were met. Prints what was met (`-- --nocapture`).
    pub fn expect(&self, outcomes: &[&str], least: u64) {
        println!("{} in all: {:?}", self.total(), self.met);
        for outcome in outcomes {
            let times = self.times(outcome);
            assert!(times >= least, "'{outcome}' was met {times} times, not {least}: {self:#?}");
        }
        for outcome in self.met.keys() {
            assert!(outcomes.contains(&outcome.as_str()), "'{outcome}' should not be met: {self:#?}");
        }
    }

    /// Cases that were each of these were met so many times.
    pub fn expect_also<T: AsRef<str> + Display>(&self, least: &[(T, u64)]) {
        println!("among them {:?}", self.also);
        for (what, least) in least {
            let times = self.also.get(what.as_ref()).copied().unwrap_or(0);
            assert!(times >= *least, "'{what}' was met {times} times, not {least}: {self:#?}");
        }
    }
}
