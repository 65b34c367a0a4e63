//! What to note of a record that is lent: how it is forged, and what a wrong count is refused before.

use second::marking::MarkRecord;
use second::random::{RECORD_FORGERIES, RecordForgery};
use second::refusal::*;

use crate::cases::Tally;
use crate::entries::Answer;

/// The entries that take a record, each with what it refuses after 17.
pub const AFTER_17: [(&str, &[&str]); 4] =
    [("pick", &["2", "words", "16"]), ("settled", &["2", "words"]), ("report", &["2", "3", "words", "18"]), ("count", &[])];

fn forged(what: &str, forgery: RecordForgery) -> String {
    format!("{what} of {forgery:?}")
}

fn before(what: &str, after: &str) -> String {
    format!("{what} 17 by a wrong count before {after}")
}

fn all_marked(what: &str) -> String {
    format!("{what} with all N marked")
}

/// Notes of a record that is refused in which ways it is forged and, where its count is wrong, what else the entry would have refused;
/// of one that is taken whether all its atoms are marked.
pub fn note(tally: &mut Tally, what: &str, lent: &MarkRecord, answer: &Answer, entry: impl FnOnce(MarkRecord) -> Answer) {
    match answer {
        Ok(_) if lent.n > 0 && lent.count == lent.n => tally.also(&all_marked(what)),
        Err(Refusal { number: N_ABOVE_512 | BROKEN_RECORD, .. }) => {
            RECORD_FORGERIES.into_iter().filter(|forgery| forgery.is(lent)).for_each(|forgery| tally.also(&forged(what, forgery)));
            let counted = MarkRecord::counted(lent.n, lent.marks);
            if counted != *lent {
                note_after(tally, what, entry(counted));
            }
        }
        _ => {}
    }
}

/// Notes what an entry answers to a record once its count is right.
fn note_after(tally: &mut Tally, what: &str, counted: Answer) {
    match counted {
        Err(Refusal { number: RECORD_CUT_SHORT..=SECOND_RULE_FOR_HEAD, .. }) => tally.also(&before(what, "words")),
        Err(Refusal { number: N_ABOVE_512 | BROKEN_RECORD, .. }) => {}
        Err(refusal) => tally.also(&before(what, &refusal.number.to_string())),
        Ok(_) => tally.also(&before(what, "nothing else")),
    }
}

/// Each entry was lent records forged in each way so many times, with all else right, and with each of what it refuses after 17.
pub fn expect_forged(tally: &Tally, least: u64) {
    let mut wanted = Vec::new();
    for (what, after) in AFTER_17 {
        wanted.extend(RECORD_FORGERIES.map(|forgery| forged(what, forgery)));
        wanted.extend([&["nothing else"], after].concat().into_iter().map(|after| before(what, after)));
    }
    tally.expect_also(&wanted.into_iter().map(|what| (what, least)).collect::<Vec<_>>());
}

/// Each entry took a record with all its atoms marked so many times.
pub fn expect_all_marked(tally: &Tally, least: u64) {
    tally.expect_also(&AFTER_17.map(|(what, _)| (all_marked(what), least)));
}
