//! The reader and the sheet entry of `tests/probe.h`, and what to note of a sheet.

use second::random::{heads_and_others, lines_length, word_count};
use second::reader::{Reading, Role, SheetLiteral};
use second::refusal::{MOST_WORDS, Refusal, TEXT_ROOM_TOO_SMALL, WORDS_PASS_8192};
use second::sheet::Accepted;

use crate::cases::Tally;
use crate::entries::unpacked;
use crate::guard::Guarded;

unsafe extern "C" {
    fn probe_reading(sheet: *const u8, length: usize, place: *mut u64, start: *mut u64, len: *mut u64) -> u64;
    fn probe_reader(
        sheet: *const u8,
        length: usize,
        place: *mut u64,
        start: *mut u64,
        len: *mut u64,
        seen: *mut u64,
        seen_start: *mut u64,
        seen_len: *mut u64,
    ) -> u64;
    fn probe_sheet(
        sheet: *const u8,
        length: usize,
        words: *mut u16,
        words_len: usize,
        names: *mut u32,
        names_len: usize,
        text: *mut u8,
        text_len: usize,
        atoms: *mut u64,
        filled: *mut u64,
    ) -> u64;
}

/// The engine's reading at a place, and the place where the next one goes on.
pub fn reading(sheet: &[u8], place: u64) -> (Reading, u64) {
    // What stood in the numbers before must not show: they are written by every call.
    let mut lent = [0xdead_beef_u64, 0xdead_beef, place, 0xdead_beef, 0xdead_beef];
    let [_, start, at, length, _] = &mut lent;
    let answer = unsafe { probe_reading(sheet.as_ptr(), sheet.len(), at, start, length) };
    let [before, start, next, length, behind] = lent;
    assert_eq!((before, behind), (0xdead_beef, 0xdead_beef), "a guard was altered");
    (unpacked_reading(answer, start, length), next)
}

/// What the engine's reader, moved on from the start to a place, sees there; then what it yields, and the place where it stands.
pub fn step(sheet: &[u8], place: u64) -> (Reading, Reading, u64) {
    let mut lent = [0xdead_beef_u64; 8];
    lent[2] = place;
    let [_, start, at, length, seen, seen_start, seen_length, _] = &mut lent;
    let answer =
        unsafe { probe_reader(sheet.as_ptr(), sheet.len(), at, start, length, seen, seen_start, seen_length) };
    let [before, start, next, length, seen, seen_start, seen_length, behind] = lent;
    assert_eq!((before, behind), (0xdead_beef, 0xdead_beef), "a guard was altered");
    (unpacked_reading(seen, seen_start, seen_length), unpacked_reading(answer, start, length), next)
}

/// The reading that a number, a name's place and its length stand for.
fn unpacked_reading(number: u64, start: u64, length: u64) -> Reading {
    let reading = match unpacked(number) {
        Err(refusal) => Reading::Refused(refusal),
        Ok(0) => Reading::End,
        Ok(code) => {
            let role = match code & !1 {
                2 => Role::Head,
                4 => Role::First,
                6 => Role::Further,
                _ => panic!("{code} is no reading"),
            };
            return Reading::Literal(SheetLiteral { negated: code % 2 == 1, name_place: start, name_length: length, role });
        }
    };
    assert_eq!((start, length), (0, 0), "a name where there is none");
    reading
}

/// The engine's sheet entry, with guards around each buffer.
pub fn read_sheet(sheet: &[u8], words: &mut [u16], names: &mut [u32], text: &mut [u8]) -> Result<Accepted, Refusal> {
    let lent_sheet = Guarded::new(sheet, 13);
    let mut lent_words = Guarded::new(words, 3);
    let mut lent_names = Guarded::new(names, 3);
    let mut lent_text = Guarded::new(text, 13);
    let mut counts = Guarded::new(&[!0u64, !0], 2);
    let (w, n, t) = (lent_words.row_mut(), lent_names.row_mut(), lent_text.row_mut());
    let [atoms, filled] = counts.row_mut() else { unreachable!() };
    let answer = unsafe {
        let (words, names, text) = (w.as_mut_ptr(), n.as_mut_ptr(), t.as_mut_ptr());
        probe_sheet(lent_sheet.row().as_ptr(), sheet.len(), words, w.len(), names, n.len(), text, t.len(), atoms, filled)
    };
    lent_sheet.check();
    lent_words.check();
    lent_names.check();
    lent_text.check();
    counts.check();
    assert_eq!(lent_sheet.row(), sheet, "the sheet was altered");
    words.copy_from_slice(lent_words.row());
    names.copy_from_slice(lent_names.row());
    text.copy_from_slice(lent_text.row());
    let [n, words_filled] = [counts.row()[0], counts.row()[1]];
    match unpacked(answer) {
        Ok(value_sheet_length) => Ok(Accepted { n, words_filled, value_sheet_length }),
        Err(refusal) => {
            assert_eq!((n, words_filled), (0, 0), "counts after a refusal");
            Err(refusal)
        }
    }
}

/// An accepted sheet some of whose names stand only in bodies.
pub const ONLY_IN_BODIES: &str = "accepted with names only in bodies";

/// A sheet whose text room is too small by the lines of such names alone.
pub const ROOM_FOR_HEADS: &str = "15 with room for the lines of the heads";

/// An accepted sheet of a hundred lines or more.
pub const MANY_LINES: &str = "accepted with a hundred lines or more";

/// 14 at a literal with which two words for a head would not pass 8,192.
pub const NOT_BY_TWO: &str = "14 only by three words for a head";

/// Notes the answer to a sheet with a text room of so many bytes, and which of these it was.
pub fn note<T>(tally: &mut Tally, sheet: &[u8], room: usize, answer: &Result<T, Refusal>) {
    tally.answer("sheet", answer);
    if let Err(Refusal { number: WORDS_PASS_8192, place }) = answer {
        let start = *place as usize;
        let length = sheet[start..].iter().take_while(|byte| !b"\t \n".contains(byte)).count();
        if word_count(&sheet[..start + length], 2) <= MOST_WORDS {
            tally.also(NOT_BY_TWO);
        }
    }
    if answer.is_ok() && sheet.iter().filter(|&&byte| byte == b'\n').count() >= 100 {
        tally.also(MANY_LINES);
    }
    let (heads, others) = match answer {
        Ok(_) | Err(Refusal { number: TEXT_ROOM_TOO_SMALL, .. }) => heads_and_others(sheet),
        Err(_) => return,
    };
    if answer.is_ok() && !others.is_empty() {
        tally.also(ONLY_IN_BODIES);
    }
    if answer.is_err() && room >= lines_length(&heads) {
        tally.also(ROOM_FOR_HEADS);
    }
}
