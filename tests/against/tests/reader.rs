//! The sheet reader at every place of many sheets, and from the start to the end: the function over sheet and place, and the struct.

use against::cases::{Tally, cases};
use against::sheets::{reading, step};
use against::shrink::without_parts;
use second::random::{self, Chance};
use second::reader::{self, Reading, Role};

const OUTCOMES: [&str; 6] = ["end", "head", "first", "further", "refused 10", "refused 11"];

/// The engine's function and its struct, which also looks before it reads, give this reading and go on at this place.
fn agree(sheet: &[u8], place: u64, second: (Reading, u64)) -> bool {
    reading(sheet, place) == second && step(sheet, place) == (second.0, second.0, second.1)
}

/// Both sides read the same at a place and go on at the same place; the next place.
fn compare(sheet: &[u8], place: u64, tally: &mut Tally) -> u64 {
    let second = reader::reading(sheet, place);
    match second.0 {
        Reading::End => tally.note("end"),
        Reading::Refused(refusal) => tally.note(&format!("refused {}", refusal.number)),
        Reading::Literal(literal) => tally.note(match literal.role {
            Role::Head => "head",
            Role::First => "first",
            Role::Further => "further",
        }),
    }
    if !agree(sheet, place, second) {
        let sheet = without_parts(sheet, |sheet| !agree(sheet, place, reader::reading(sheet, place)));
        let (engine, stepped, second) = (reading(&sheet, place), step(&sheet, place), reader::reading(&sheet, place));
        panic!(
            "sheet \"{}\" at {place}: engine {engine:?}, its reader {stepped:?}, second implementation {second:?}",
            sheet.escape_ascii()
        );
    }
    second.1
}

#[test]
fn every_place_of_small_sheets() {
    let mut chance = Chance::new(0x4ead);
    let mut tally = Tally::default();
    for _ in 0..cases(40_000) {
        let mut sheet = if chance.one_in(3) {
            let length = chance.index(40);
            (0..length).map(|_| random::sheet_byte(&mut chance)).collect()
        } else {
            random::any_sheet(&mut chance)
        };
        sheet.truncate(60);
        for place in 0..sheet.len() as u64 + 3 {
            compare(&sheet, place, &mut tally);
        }
        for _ in 0..4 {
            compare(&sheet, random::awkward_number(&mut chance, sheet.len() as u64), &mut tally);
        }
    }
    tally.expect(&OUTCOMES, cases(250));
}

#[test]
fn any_place_of_any_sheet() {
    let mut chance = Chance::new(0x4eae);
    let mut tally = Tally::default();
    for _ in 0..cases(60_000) {
        let sheet = random::any_sheet(&mut chance);
        for _ in 0..10 {
            compare(&sheet, random::any_place(&mut chance, &sheet), &mut tally);
        }
    }
    tally.expect(&[&OUTCOMES[..], &["refused 8"]].concat(), cases(250));
}

#[test]
fn from_the_start_to_the_end_and_the_same_again() {
    let mut chance = Chance::new(0x4eaf);
    let mut tally = Tally::default();
    for _ in 0..cases(20_000) {
        let sheet = random::any_sheet(&mut chance);
        let mut place = 0;
        loop {
            let next = compare(&sheet, place, &mut tally);
            if !matches!(reading(&sheet, place).0, Reading::Literal(_)) {
                assert_eq!(next, place, "after the end or a refusal the place does not move");
                break;
            }
            assert!(next > place);
            place = next;
        }
    }
    tally.expect(&[&OUTCOMES[..], &["refused 8"]].concat(), cases(250));
}

#[test]
fn every_byte_value_at_every_place_of_a_sheet() {
    let mut tally = Tally::default();
    let base = b"ab\t-c d.\te_\nab.0\n-f\t-ab g\tc\n";
    for at in 0..base.len() {
        for byte in 0..=255 {
            let mut sheet = base.to_vec();
            sheet[at] = byte;
            for place in 0..=sheet.len() as u64 {
                compare(&sheet, place, &mut tally);
            }
        }
    }
    tally.expect(&["end", "head", "first", "further", "refused 10"], 100);
}

#[test]
fn sheets_of_65536_and_65537_bytes() {
    let mut tally = Tally::default();
    for length in [65_535, 65_536, 65_537, 100_000] {
        let sheet: Vec<u8> = b"ab\tcd ef\n".iter().copied().cycle().take(length).collect();
        let end = length as u64;
        for place in [0, 3, 6, 9, end - 2, end - 1, end, end + 1, u64::MAX, 1 << 32] {
            compare(&sheet, place, &mut tally);
        }
    }
    tally.expect(&["head", "first", "further", "refused 8", "refused 10"], 2);
}

#[test]
fn names_of_24_and_25_bytes() {
    let mut tally = Tally::default();
    for length in 1..=30 {
        for before in ["", "-", "x\t", "x\t-", "x\ty ", "x\ty -"] {
            for after in ["\n", "\t", " ", "#", "", "-", "\0"] {
                let sheet = format!("{before}{}{after}", "n".repeat(length)).into_bytes();
                for place in 0..=sheet.len() as u64 {
                    compare(&sheet, place, &mut tally);
                }
            }
        }
    }
    tally.expect(&OUTCOMES, 20);
}
