//! The engine beside the second implementation, one table at a time: whole evaluation and the question of conflict, over words and through
//! the host's entries, and the writer of a reason sheet; and one sheet at a time, over entries and through the host's entry.

use second::host::{
    refused_writing, simmerknot_conflict as second_conflict, simmerknot_evaluate as second_evaluate, simmerknot_sheet as second_sheet,
    whole_words,
};
use second::random::{Chance, evaluated};
use second::reasons::check_written;
use second::refusal::Refusal;
use second::sheet::{Accepted, read_sheet};
use second::truth::I;

use crate::cases::Tally;
use crate::entries::{Answer, Engine, Entries, NO, Second, YES, unpacked};
use crate::guard::{BEFORE, Guarded};
use crate::shrink::{smaller, smaller_table, without_parts};
use crate::{host, sheets, tables};

/// What the engine and the second implementation say of whole evaluation, and the value room after it.
fn both(n: u64, words: &[u16], room: &[u8]) -> [(Answer, Vec<u8>); 2] {
    let (mut ours, mut theirs) = (room.to_vec(), room.to_vec());
    let answers = [Engine.evaluate(n, words, &mut ours), Second.evaluate(n, words, &mut theirs)];
    [(answers[0], ours), (answers[1], theirs)]
}

/// Both sides answer the same and leave the same bytes; if not, the smallest table found is shown.
pub fn evaluation(n: u64, words: &[u16], room: &[u8], tally: &mut Tally) {
    let [engine, second] = both(n, words, room);
    tables::note(tally, "evaluate", words, &second.0);
    if engine != second {
        let differ = |n: u64, words: &[u16]| {
            let [engine, second] = both(n, words, room);
            engine != second
        };
        let words = smaller_table(words, |words| differ(n, words));
        let n = smaller(n, |n| differ(n, &words));
        let [engine, second] = both(n, &words, room);
        panic!("N {n}, words {words:?}, room {room:?}:\nengine {engine:?}\nsecond implementation {second:?}");
    }
}

/// What the engine says in three ways: asked, by a value i of its whole evaluation, and by a fresh record that is not settled.
fn in_three_ways(n: u64, words: &[u16]) -> [Answer; 3] {
    let mut values = vec![9; n.min(512) as usize];
    let evaluated = Engine.evaluate(n, words, &mut values).map(|_| u64::from(values.contains(&I)));
    let (record, fresh) = Engine.fresh(n);
    let settled = fresh.and_then(|_| Engine.settled(&record, words));
    [Engine.conflict(n, words), evaluated, settled.map(|yes| if yes == YES { NO } else { YES })]
}

/// The engine says in each way what the second implementation does; if not, the smallest table found is shown. The answer.
pub fn conflict(n: u64, words: &[u16], tally: &mut Tally) -> Answer {
    let expected = Second.conflict(n, words);
    tables::note_question(tally, "conflict", words, &expected);
    if in_three_ways(n, words) != [expected; 3] {
        let differ = |n: u64, words: &[u16]| in_three_ways(n, words) != [Second.conflict(n, words); 3];
        let words = smaller_table(words, |words| differ(n, words));
        let n = smaller(n, |n| differ(n, &words));
        let (engine, second) = (in_three_ways(n, &words), Second.conflict(n, &words));
        panic!("N {n}, words {words:?}: engine {engine:?}, second implementation {second:?}");
    }
    expected
}

/// The engine's packed answer and the value room after it.
pub fn host_evaluated(n: u64, table: &[u8], room: &[u8], before: usize) -> (u64, Vec<u8>) {
    let table = Guarded::new(table, before);
    let lent = table.clone();
    let mut values = Guarded::new(room, before);
    let answer = host::evaluate(n, table.row(), values.row_mut());
    values.check();
    assert!(table == lent, "the table was altered");
    (answer, values.row().to_vec())
}

fn second_evaluated(n: u64, table: &[u8], room: &[u8]) -> (u64, Vec<u8>) {
    let mut values = room.to_vec();
    (second_evaluate(n, table, &mut values), values)
}

/// Both sides answer the same and leave the same bytes; if not, the smallest table found is shown.
pub fn host_evaluation(n: u64, table: &[u8], room: &[u8], before: usize, tally: &mut Tally) {
    let expected = second_evaluated(n, table, room);
    tables::note(tally, "evaluate", &whole_words(table).0, &unpacked(expected.0));
    if host_evaluated(n, table, room, before) != expected {
        let differ = |n: u64, table: &[u8]| host_evaluated(n, table, room, before) != second_evaluated(n, table, room);
        let table = without_parts(table, |table| differ(n, table));
        let n = smaller(n, |n| differ(n, &table));
        let ((ours, left), (theirs, right)) = (host_evaluated(n, &table, room, before), second_evaluated(n, &table, room));
        let (ours, theirs) = (unpacked(ours), unpacked(theirs));
        panic!("N {n}, table {table:?}, room {room:?}:\nengine {ours:?} {left:?}\nsecond {theirs:?} {right:?}");
    }
}

/// The engine's packed answers: asked, and by a value i of its evaluation in a room of its own.
fn host_in_two_ways(n: u64, table: &[u8], before: usize) -> [u64; 2] {
    let table = Guarded::new(table, before);
    let lent = table.clone();
    let asked = host::conflict(n, table.row());
    assert!(table == lent, "the table was altered");
    let mut values = vec![9; n.min(512) as usize];
    let evaluated = host::evaluate(n, table.row(), &mut values);
    [asked, if evaluated == 0 { u64::from(values.contains(&I)) } else { evaluated }]
}

/// The engine says in both ways what the second implementation does; if not, the smallest table found is shown. The answer.
pub fn host_conflict(n: u64, table: &[u8], before: usize, tally: &mut Tally) -> u64 {
    let expected = second_conflict(n, table);
    tables::note_question(tally, "conflict", &whole_words(table).0, &unpacked(expected));
    if host_in_two_ways(n, table, before) != [expected; 2] {
        let differ = |n: u64, table: &[u8]| host_in_two_ways(n, table, before) != [second_conflict(n, table); 2];
        let table = without_parts(table, |table| differ(n, table));
        let n = smaller(n, |n| differ(n, &table));
        let (ours, theirs) = (host_in_two_ways(n, &table, before).map(unpacked), unpacked(second_conflict(n, &table)));
        panic!("N {n}, table {table:?}: engine {ours:?}, second {theirs:?}");
    }
    expected
}

/// The engine's packed answer and the room after it.
fn host_written(n: u64, table: &[u8], room: &[u8], before: usize) -> (u64, Vec<u8>) {
    let table = Guarded::new(table, before);
    let lent = table.clone();
    let mut text = Guarded::new(room, before);
    let answer = host::reasons(n, table.row(), text.row_mut());
    text.check();
    assert!(table == lent, "the table was altered");
    (answer, text.row().to_vec())
}

/// The sheet for a table, or its refusal: asked with no room, with as much as was told, with one byte less and with more. It is
/// always the same, both checks accept it with whole evaluation's values, and what is past it stays.
pub fn reasons(chance: &mut Chance, n: u64, table: &[u8], tally: &mut Tally) -> Result<Vec<u8>, Refusal> {
    let before = chance.of(&BEFORE);
    let length = chance.index(40);
    let room = chance.bytes(length);
    if let Some(refused) = refused_writing(n, table) {
        tally.answer("write", &unpacked(refused));
        assert_eq!(host_written(n, table, &room, before), (refused, room), "N {n}, table {table:?}");
        assert_eq!(host_written(n, table, &[], before), (refused, Vec::new()), "N {n}, table {table:?}");
        return Err(unpacked(refused).expect_err("a refusal"));
    }
    let length = match unpacked(host_written(n, table, &[], before).0) {
        Ok(length) => {
            assert_eq!(length, 0, "N {n}, table {table:?}: a sheet in no room");
            0
        }
        Err(Refusal { number, place }) => {
            assert_eq!(number, 15, "N {n}, table {table:?}");
            assert!(place > 0 && place <= 18_432, "N {n}, table {table:?}: {place} bytes");
            place as usize
        }
    };
    let room = chance.bytes(length + 1);
    let (answer, left) = host_written(n, table, &room[..length], before);
    assert_eq!(answer, length as u64, "N {n}, table {table:?}: the room that was told does not serve");
    for more in [1, chance.index(300)] {
        let room = chance.bytes(length + more);
        let (answer, with_more) = host_written(n, table, &room, before);
        assert_eq!((answer, with_more), (length as u64, [&left, &room[length..]].concat()), "N {n}, table {table:?}");
    }
    for fewer in [length.saturating_sub(1), chance.index(length.max(1))] {
        let expected = if length == 0 { 0 } else { (15 << 32) + length as u64 };
        assert_eq!(host_written(n, table, &room[..fewer], before), (expected, room[..fewer].to_vec()), "N {n}, table {table:?}");
    }
    let (words, _) = whole_words(table);
    assert_eq!(check_written(n, &words, &left), Ok(()), "N {n}, table {table:?}: \"{}\"", left.escape_ascii());
    assert_eq!(host::check_reasons(n, table, &evaluated(n, &words), &left), 0, "N {n}, table {table:?}");
    tally.note(if length == 0 { "write nothing" } else { "write ok" });
    Ok(left)
}

/// The answer to a sheet, then words, name entries and text room as they are left.
type Left = (Result<Accepted, Refusal>, Vec<u16>, Vec<u32>, Vec<u8>);

fn both_sheets(sheet: &[u8], words: &[u16], names: &[u32], text: &[u8]) -> [Left; 2] {
    let entries: [fn(&[u8], &mut [u16], &mut [u32], &mut [u8]) -> Result<Accepted, Refusal>; 2] = [sheets::read_sheet, read_sheet];
    entries.map(|entry| {
        let (mut words, mut names, mut text) = (words.to_vec(), names.to_vec(), text.to_vec());
        (entry(sheet, &mut words, &mut names, &mut text), words, names, text)
    })
}

/// Both sides answer the same and leave the same; if not, the smallest sheet found is shown.
pub fn sheet(sheet: &[u8], words: &[u16], names: &[u32], text: &[u8], tally: &mut Tally) {
    let [engine, second] = both_sheets(sheet, words, names, text);
    sheets::note(tally, sheet, text.len(), &second.0);
    if engine != second {
        let sheet = without_parts(sheet, |sheet| {
            let [engine, second] = both_sheets(sheet, words, names, text);
            engine != second
        });
        let [engine, second] = both_sheets(&sheet, words, names, text);
        let same = [engine.1 == second.1, engine.2 == second.2, engine.3 == second.3];
        let (ours, theirs) = (engine.0, second.0);
        panic!(
            "sheet \"{}\", buffers of {}, {} and {}: engine {ours:?}, second {theirs:?}; words, names, text the same: {same:?}",
            sheet.escape_ascii(),
            words.len(),
            names.len(),
            text.len(),
        );
    }
}

/// The host's three buffers for a sheet, as they are lent and as they are left.
#[derive(Clone, PartialEq, Eq)]
pub struct Buffers {
    pub words: Vec<u8>,
    pub names: Vec<u8>,
    pub text: Vec<u8>,
}

impl Buffers {
    /// As small as a sheet's may be, with a text room of so many bytes.
    pub fn least(text: usize) -> Buffers {
        Buffers { words: vec![7; 16_384], names: vec![7; 2048], text: vec![7; text] }
    }
}

fn host_read(sheet: &[u8], lent: &Buffers, before: usize) -> (u64, Buffers) {
    let sheet = Guarded::new(sheet, before);
    let unaltered = sheet.clone();
    let mut words = Guarded::new(&lent.words, before);
    let mut names = Guarded::new(&lent.names, before);
    let mut text = Guarded::new(&lent.text, before);
    let answer = host::sheet(sheet.row(), words.row_mut(), names.row_mut(), text.row_mut());
    words.check();
    names.check();
    text.check();
    assert!(sheet == unaltered, "the sheet was altered");
    (answer, Buffers { words: words.row().to_vec(), names: names.row().to_vec(), text: text.row().to_vec() })
}

/// The second implementation's packed answer, and the buffers after it.
pub fn second_read(sheet: &[u8], lent: &Buffers) -> (u64, Buffers) {
    let mut left = lent.clone();
    (second_sheet(sheet, &mut left.words, &mut left.names, &mut left.text), left)
}

/// Both sides answer the same and leave the same bytes; if not, the smallest sheet found is shown.
pub fn host_sheet(sheet: &[u8], lent: &Buffers, before: usize, tally: &mut Tally) {
    let expected = second_read(sheet, lent);
    sheets::note(tally, sheet, lent.text.len(), &unpacked(expected.0));
    if host_read(sheet, lent, before) != expected {
        let sheet = without_parts(sheet, |sheet| host_read(sheet, lent, before) != second_read(sheet, lent));
        let ((ours, left), (theirs, right)) = (host_read(&sheet, lent, before), second_read(&sheet, lent));
        let first = |a: &[u8], b: &[u8]| (0..a.len()).find(|&at| a[at] != b[at]);
        panic!(
            "sheet \"{}\":\nengine {:?}, second {:?}\nfirst byte that differs: words {:?}, names {:?}, text {:?}",
            sheet.escape_ascii(),
            unpacked(ours),
            unpacked(theirs),
            first(&left.words, &right.words),
            first(&left.names, &right.names),
            first(&left.text, &right.text),
        );
    }
}
