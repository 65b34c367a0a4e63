//! What to note of a table, refusals that have to do with a line above all; a table of any length, and one that may have a faulty word.

use second::random::{Chance, TABLE_DAMAGES, WordRole, damage_table, small_table, word_roles};
use second::refusal::*;

use crate::cases::Tally;
use crate::entries::{Answer, FACT, NO_GROUP, NO_RECORD, YES};

/// 6 at a line word.
pub const AT_A_LINE: &str = "6 at a line";

/// 6 at a line word, with an m after it that is faulty too.
pub const LINE_BEFORE_M: &str = "6 at a line before a faulty m";

/// 5 or 7 at a head, with a line after it that is faulty too.
pub const HEAD_BEFORE_LINE: &str = "5 or 7 at a head before a faulty line";

/// 4 after a head.
pub const CUT_AFTER_HEAD: &str = "4 after a head";

/// 4 after a line word.
pub const CUT_AFTER_LINE: &str = "4 after a line";

/// All of these.
pub const OF_LINES: [&str; 5] = [AT_A_LINE, LINE_BEFORE_M, HEAD_BEFORE_LINE, CUT_AFTER_HEAD, CUT_AFTER_LINE];

/// Notes the answer for a table, and which of these it was.
pub fn note<T>(tally: &mut Tally, what: &str, words: &[u16], answer: &Result<T, Refusal>) {
    tally.answer(what, answer);
    let Err(Refusal { number, place }) = *answer else { return };
    let at = place as usize;
    if !(RECORD_CUT_SHORT..=SECOND_RULE_FOR_HEAD).contains(&number) || at > words.len() {
        return;
    }
    // What stands before the place is sound, so it tells the roles.
    let role = |at: usize| word_roles(&words[..words.len().min(at + 1)]).get(at).copied();
    let above = |at: usize, most: usize| words.get(at).is_some_and(|&word| word as usize > most);
    match number {
        COUNT_OR_LINE_OUT_OF_RANGE if role(at) == Some(WordRole::Line) => {
            tally.also(AT_A_LINE);
            if above(at + 1, MOST_GROUPS) {
                tally.also(LINE_BEFORE_M);
            }
        }
        LITERAL_NOT_BELOW_2N | SECOND_RULE_FOR_HEAD if above(at + 1, MOST_LINE) && role(at) == Some(WordRole::Head) => {
            tally.also(HEAD_BEFORE_LINE);
        }
        RECORD_CUT_SHORT if at > 0 => match role(at - 1) {
            Some(WordRole::Head) => tally.also(CUT_AFTER_HEAD),
            Some(WordRole::Line) => tally.also(CUT_AFTER_LINE),
            _ => {}
        },
        _ => {}
    }
}

/// Notes "what yes" or "what no", or a refusal as above.
pub fn note_question(tally: &mut Tally, what: &str, words: &[u16], answer: &Answer) {
    match answer {
        Ok(said) => tally.note(&format!("{what} {}", if *said == YES { "yes" } else { "no" })),
        Err(_) => note(tally, what, words, answer),
    }
}

/// Notes the answer to which group of a table's first record is wholly in a set, and of what kind it was.
pub fn note_group(tally: &mut Tally, what: &str, words: &[u16], answer: &Answer) {
    note(tally, what, words, answer);
    if let Ok(said) = answer {
        tally.also(match *said {
            FACT => "a fact",
            NO_GROUP => "no group",
            NO_RECORD => "no record",
            _ => "a group",
        });
    }
}

/// Each of these was met so many times.
pub fn expect_of_lines(tally: &Tally, least: u64) {
    tally.expect_also(&OF_LINES.map(|what| (what, least)));
}

/// Facts, and a record that fills the table to exactly so many words.
pub fn of_length(length: usize) -> Vec<u16> {
    let mut words = Vec::new();
    let mut head = 0;
    while words.len() < length {
        let room = length - words.len();
        // A record has 3 words, or 4 + k with one group; the rest must allow that.
        let k = match room {
            3 => 0,
            _ if room <= 68 => room - 4,
            _ => 60,
        };
        words.extend([head, 32_768 - head]);
        if k == 0 {
            words.push(0);
        } else {
            words.extend([1, k as u16]);
            words.extend((0..k as u16).map(|i| i % 1024));
        }
        head += 1;
    }
    words
}

/// A small table, every second time with a faulty word or cut.
pub fn sound_or_faulty(chance: &mut Chance) -> (u64, Vec<u16>) {
    let (mut n, mut words) = small_table(chance, 4);
    let damage = chance.of(&TABLE_DAMAGES[2..]);
    if chance.one_in(2) {
        damage_table(chance, &mut n, &mut words, damage);
    }
    (n, words)
}
