//! The writer and the check of reason sheets beside whole evaluation, all by the engine through the host's entries, in turns.
//!
//! The writer evaluates first, so it is measured by evaluation of the same table. The check does not: it is measured by one evaluation of
//! `max_random`, the ordinary full table.

use std::hint::black_box;

use against::host;
use second::random::table_bytes;
use second::tables::MEASURED;

use crate::turns::{medians, timed};

/// Larger than every reason sheet: 1,024 lines of 18 bytes.
const ROOM: usize = 18_432;

/// The lines of the reason sheet, and the medians, in microseconds, of the writer, of the check, of evaluation, and of evaluation of
/// the ordinary table.
fn written_and_checked(n: u64, bytes: &[u8], ordinary: &(u64, Vec<u8>)) -> (usize, [f64; 4]) {
    let (mut values, mut others) = (vec![0; n as usize], vec![0; ordinary.0 as usize]);
    let mut text = vec![0; ROOM];
    let (mut written, mut checked, mut evaluated, mut other) = (0, 0, 0, 0);
    let (times, _) = medians(|| {
        let evaluate = timed(|| evaluated = host::evaluate(n, black_box(bytes), black_box(&mut values)));
        let reasons = timed(|| written = host::reasons(n, black_box(bytes), black_box(&mut text)));
        assert!(evaluated == 0 && written as usize <= ROOM, "an accepted table");
        let sheet = &text[..written as usize];
        let check = timed(|| checked = host::check_reasons(n, black_box(bytes), black_box(&values), black_box(sheet)));
        let of_ordinary = timed(|| other = host::evaluate(ordinary.0, black_box(&ordinary.1), black_box(&mut others)));
        assert_eq!((checked, other), (0, 0), "our own sheet is accepted");
        [reasons, check, evaluate, of_ordinary]
    });
    (text[..written as usize].iter().filter(|&&byte| byte == b'\n').count(), times)
}

pub fn print() {
    let measured = MEASURED.iter().find(|measured| measured.name == "max_random").expect("the ordinary full table");
    let (n, words) = (measured.table)();
    let ordinary = (n, table_bytes(&words));
    println!();
    println!("| table | words | lines | reasons | check | evaluate | max_random | reasons / evaluate | check / max_random |");
    println!("|---|---:|---:|---:|---:|---:|---:|---:|---:|");
    for measured in MEASURED {
        let (n, words) = (measured.table)();
        let (lines, [reasons, check, evaluate, of_ordinary]) = written_and_checked(n, &table_bytes(&words), &ordinary);
        println!(
            "| {} | {} | {lines} | {reasons:.1} | {check:.1} | {evaluate:.1} | {of_ordinary:.1} | {:.2} | {:.3} |",
            measured.name,
            words.len(),
            reasons / evaluate,
            check / of_ordinary
        );
    }
}
