//! How the cost grows with the words of a table, by the engine through the host's entries: of the question of conflict where nothing is
//! marked, so that one Held answers it, by the word; of whole evaluation where each mark needs the one before it, by the word and round.

use std::hint::black_box;

use against::host;
use second::random::table_bytes;
use second::tables::{GROWING_WITH_MARKS, GROWING_WITHOUT_MARKS};
use second::truth::I;

use crate::turns::{medians, timed};
use crate::yardstick::counters_in_rounds;

const WORDS: [usize; 4] = [1024, 2048, 4096, 8192];

/// The values and the rounds, the last of which marks nothing, as the counters have them.
fn by_counters(n: u64, words: &[u16]) -> (Vec<u8>, usize) {
    let mut values = vec![9; n as usize];
    let rounds = counters_in_rounds(n, words, &mut values).expect("an accepted table");
    (values, rounds)
}

/// The median of the question of conflict, in microseconds.
fn asked(n: u64, words: &[u16]) -> f64 {
    let bytes = table_bytes(words);
    let expected = u64::from(by_counters(n, words).0.contains(&I));
    let ([time], _) = medians(|| {
        let mut answer = 9;
        let time = timed(|| answer = black_box(host::conflict(n, black_box(&bytes))));
        assert_eq!(answer, expected, "the answers differ");
        [time]
    });
    time
}

/// The rounds, and the median of evaluation, in microseconds.
fn evaluated(n: u64, words: &[u16]) -> (usize, f64) {
    let bytes = table_bytes(words);
    let mut values = vec![9; n as usize];
    let mut rounds = 0;
    let ([time], _) = medians(|| {
        let time = timed(|| assert_eq!(host::evaluate(n, black_box(&bytes), black_box(&mut values)), 0, "an accepted table"));
        let (expected, counted) = by_counters(n, words);
        assert_eq!(values, expected, "the values differ");
        rounds = counted;
        [time]
    });
    (rounds, time)
}

pub fn print() {
    println!();
    println!("| kind | entry | words | rounds | microseconds | ns a word | ns a word and round |");
    println!("|---|---|---:|---:|---:|---:|---:|");
    for kind in GROWING_WITHOUT_MARKS {
        for full in WORDS {
            let (n, words) = (kind.table)(full);
            let time = asked(n, &words);
            let by_word = 1e3 * time / words.len() as f64;
            println!("| {} | conflict | {} | 1 | {time:.1} | {by_word:.1} | {by_word:.1} |", kind.name, words.len());
        }
    }
    for kind in GROWING_WITH_MARKS {
        for full in WORDS {
            let (n, words) = (kind.table)(full);
            let (rounds, time) = evaluated(n, &words);
            let by_word = 1e3 * time / words.len() as f64;
            println!(
                "| {} | evaluation | {} | {rounds} | {time:.1} | {by_word:.1} | {:.2} |",
                kind.name,
                words.len(),
                by_word / rounds as f64
            );
        }
    }
}
