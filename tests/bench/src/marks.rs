//! What it costs to check a mark record: calls that are lent one and have no rules to read, by the engine through `tests/probe.h`.

use std::hint::black_box;

use against::entries::{ALREADY_MARKED, YES, mark_count, pick, settled};
use second::marking::MarkRecord;

use crate::turns::{medians, timed};

/// The median of a call, in nanoseconds, by a thousand calls at a time.
fn nanoseconds(mut call: impl FnMut()) -> f64 {
    let ([microseconds_of_a_thousand], _) = medians(|| [timed(|| (0..1000).for_each(|_| call()))]);
    microseconds_of_a_thousand
}

pub fn print() {
    let none = MarkRecord::EMPTY;
    let all = MarkRecord::counted(512, [u64::MAX; 8]);
    let mut picked = all;
    let mut atom = 0;
    println!();
    println!("| call | nanoseconds |");
    println!("|---|---:|");
    let time = nanoseconds(|| assert_eq!(mark_count(black_box(&all)), Ok(512)));
    println!("| mark count, N 512, all marked | {time:.1} |");
    let time = nanoseconds(|| assert_eq!(mark_count(black_box(&none)), Ok(0)));
    println!("| mark count, N 0, no marks | {time:.1} |");
    let time = nanoseconds(|| assert_eq!(settled(black_box(&all), &[]), Ok(YES)));
    println!("| settled question, N 512, all marked, no rules | {time:.1} |");
    let time = nanoseconds(|| {
        assert_eq!(pick(black_box(&mut picked), &[], atom), Ok(ALREADY_MARKED));
        atom = (atom + 1) % 512;
    });
    println!("| pick of a marked atom, N 512, no rules | {time:.1} |");
}
