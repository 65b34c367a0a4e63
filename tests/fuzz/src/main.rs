//! `fuzz SECONDS SEED [TARGET [CASE]]`: a sixth of the time for each of evaluation, the question of conflict, the writer and the check of
//! reason sheets, the sheet entry and the program, and at least a thousand cases, so that a slow machine meets every outcome too.
//!
//! The program is crates/simmer/out/simmer, or what SIMMER names. With a target, that one alone; with the number of a case, that case alone. Status 1 at the
//! first case on which the two sides part, or where the engine left its buffers.

use std::ffi::c_int;
use std::path::PathBuf;
use std::process::exit;
use std::sync::atomic::{AtomicU64, Ordering};
use std::time::{Duration, Instant};

use against::pages::Pages;
use fuzz::{RUNNING, Target, drawn, run, targets};

unsafe extern "C" {
    fn signal(number: c_int, handler: extern "C" fn(c_int)) -> usize;
    fn write(file: c_int, bytes: *const u8, length: usize) -> isize;
    fn _exit(status: c_int) -> !;
}

static SEED: AtomicU64 = AtomicU64::new(0);

/// Cases of each target, however long they take.
const LEAST: u64 = 1000;

/// A page was touched that must not be: names the case, and ends.
extern "C" fn crashed(_signal: c_int) {
    let say = |text: &[u8]| unsafe {
        write(2, text.as_ptr(), text.len());
    };
    let number = |mut number: u64| {
        let mut digits = [0; 20];
        let mut at = digits.len();
        loop {
            at -= 1;
            digits[at] = b'0' + (number % 10) as u8;
            number /= 10;
            if number == 0 {
                break;
            }
        }
        say(&digits[at..]);
    };
    say(b"fuzz: the engine touched a byte outside its buffers: case ");
    number(RUNNING.load(Ordering::Relaxed));
    say(b", seed ");
    number(SEED.load(Ordering::Relaxed));
    say(b"\n");
    unsafe { _exit(1) }
}

fn usage() -> ! {
    eprintln!("fuzz SECONDS SEED [evaluate|conflict|reasons|check|sheet|program [CASE]]");
    exit(2)
}

fn program() -> PathBuf {
    match std::env::var_os("SIMMER") {
        Some(path) => path.into(),
        None => PathBuf::from(env!("CARGO_MANIFEST_DIR")).join("../../crates/simmer/out/simmer"),
    }
}

fn all() -> [Target; 6] {
    [
        targets::evaluation(),
        targets::conflict(),
        targets::reasons(),
        targets::check_reasons(),
        targets::sheet(),
        targets::program(program()),
    ]
}

fn main() {
    unsafe {
        signal(11, crashed);
        signal(7, crashed);
    }
    let words: Vec<String> = std::env::args().skip(1).collect();
    let words: Vec<&str> = words.iter().map(String::as_str).collect();
    let number = |text: &str| text.parse().unwrap_or_else(|_| usage());
    match words[..] {
        // For the tests: that a byte past a buffer is noticed.
        ["touch", which] => {
            let mut pages = Pages::default();
            let lent = pages.read_only(b"abc", which == "behind").as_ptr();
            let byte = if which == "behind" { lent.wrapping_add(3) } else { lent.wrapping_sub(1) };
            println!("{}", unsafe { byte.read_volatile() });
        }
        [seconds, seed] => all().into_iter().for_each(|target| timed(number(seconds), number(seed), target)),
        [seconds, seed, name] => timed(number(seconds), number(seed), named(name)),
        [_, seed, name, case] => alone(number(seed), name, number(case)),
        _ => usage(),
    }
}

/// The target of that name.
fn named(name: &str) -> Target {
    all().into_iter().find(|target| target.name == name).unwrap_or_else(|| usage())
}

fn timed(seconds: u64, seed: u64, mut target: Target) {
    SEED.store(seed, Ordering::Relaxed);
    let started = Instant::now();
    let share = Duration::from_millis(seconds * 1000 / 6);
    match run(&mut target, seed, |number| number < LEAST || started.elapsed() < share) {
        Ok(tally) => {
            println!("{}: {} cases, {tally:?}", target.name, tally.total());
            for kind in target.kinds {
                if tally.times(kind) == 0 {
                    println!("{}: '{kind}' was not met; a longer run is needed", target.name);
                    exit(1);
                }
            }
        }
        Err(parting) => {
            println!("{}: seed {seed}, {}", target.name, parting.said());
            exit(1);
        }
    }
}

fn alone(seed: u64, name: &str, number: u64) {
    SEED.store(seed, Ordering::Relaxed);
    RUNNING.store(number, Ordering::Relaxed);
    let mut target = named(name);
    let case = drawn(&target, seed, number);
    println!("N {}, input \"{}\"", case.n, case.bytes.escape_ascii());
    let second = (target.second)(&case);
    println!("second {:#x}", second.answer);
    let engine = (target.engine)(&case);
    println!("engine {:#x}", engine.answer);
    if engine != second {
        println!("the two sides part");
        exit(1);
    }
}
