//! The question of conflict beside whole evaluation, both by the engine through the host's entries, in turns.

use std::hint::black_box;

use against::host;
use second::random::table_bytes;
use second::tables::MEASURED;
use second::truth::I;

use crate::turns::{medians, timed};

/// Whether the table is in conflict, and the medians of the question and of evaluation, in microseconds.
fn asked_and_evaluated(n: u64, bytes: &[u8]) -> (bool, [f64; 2]) {
    let mut values = vec![0; n as usize];
    let (mut asked, mut evaluated) = (0, 0);
    let (times, _) = medians(|| {
        let times = [
            timed(|| asked = black_box(host::conflict(n, black_box(bytes)))),
            timed(|| evaluated = host::evaluate(n, black_box(bytes), black_box(&mut values))),
        ];
        assert_eq!((asked, evaluated), (u64::from(values.contains(&I)), 0), "the answers differ");
        times
    });
    (asked == 1, times)
}

pub fn print() {
    println!();
    println!("| table | words | in conflict | conflict | evaluate | conflict / evaluate |");
    println!("|---|---:|---|---:|---:|---:|");
    for measured in MEASURED {
        let (n, words) = (measured.table)();
        let (yes, [conflict, evaluate]) = asked_and_evaluated(n, &table_bytes(&words));
        println!(
            "| {} | {} | {} | {conflict:.1} | {evaluate:.1} | {:.3} |",
            measured.name,
            words.len(),
            if yes { "yes" } else { "no" },
            conflict / evaluate
        );
    }
}
