//! Evaluation's speed beside the second implementation and the yardsticks, plain rereading by the same method, and counters; how the
//! cost grows with the words (`growth`); then the question of conflict's beside evaluation (`conflict`), the writer's and the check's of reason sheets (`reasons`), that of calls
//! that check a mark record (`marks`), and reading's (`reading`).
//!
//! From tests/, after `./build probe simmerknot`: `cargo run --release -p bench`. Both sides are
//! in this binary. The four take turns, one evaluation each, for 2 seconds a table or 401 turns, and 11 turns at least; the
//! value room is written anew by each and not cleared between. Every turn's values are compared. Times are medians in
//! microseconds, ratios those of the medians.

mod conflict;
mod growth;
mod marks;
mod reading;
mod reasons;
mod turns;
mod yardstick;

use std::array::from_fn;
use std::hint::black_box;

use second::random::table_bytes;
use second::tables::MEASURED;

use crate::turns::timed;

/// The engine through the host's entry, on the table's bytes.
fn engine(n: u64, _words: &[u16], bytes: &[u8], values: &mut [u8]) {
    assert_eq!(against::host::evaluate(n, bytes, values), 0, "an accepted table");
}

fn plain(n: u64, words: &[u16], _bytes: &[u8], values: &mut [u8]) {
    yardstick::plain(n, words, values).expect("an accepted table");
}

fn counters(n: u64, words: &[u16], _bytes: &[u8], values: &mut [u8]) {
    yardstick::counters(n, words, values).expect("an accepted table");
}

fn reference(n: u64, words: &[u16], _bytes: &[u8], values: &mut [u8]) {
    second::model::evaluate(n, words, values).expect("an accepted table");
}

type Evaluator = fn(u64, &[u16], &[u8], &mut [u8]);

const EVALUATORS: [Evaluator; 4] = [engine, plain, counters, reference];

/// The medians of the four, in microseconds, and how many turns they took.
fn medians(n: u64, words: &[u16], bytes: &[u8]) -> ([f64; 4], usize) {
    let mut rooms = [(); 4].map(|()| vec![0; n as usize]);
    turns::medians(|| {
        let times = from_fn(|i| timed(|| EVALUATORS[i](n, black_box(words), black_box(bytes), black_box(&mut rooms[i]))));
        assert!(rooms.iter().all(|room| *room == rooms[0]), "the values differ");
        times
    })
}

fn main() {
    println!("| table | words | turns | engine | plain | counters | second | engine / second | engine / plain | engine / counters |");
    println!("|---|---:|---:|---:|---:|---:|---:|---:|---:|---:|");
    for measured in MEASURED {
        let (n, words) = (measured.table)();
        let bytes = table_bytes(&words);
        let ([engine, plain, counters, reference], turns) = medians(n, &words, &bytes);
        println!(
            "| {} | {} | {turns} | {engine:.1} | {plain:.1} | {counters:.1} | {reference:.1} | {:.2} | {:.2} | {:.1} |",
            measured.name,
            words.len(),
            engine / reference,
            engine / plain,
            engine / counters
        );
    }
    growth::print();
    conflict::print();
    reasons::print();
    marks::print();
    reading::print();
}
