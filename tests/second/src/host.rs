//! The host's entries: bytes in place of words and names, one 64-bit number as the answer.

use crate::refusal::*;
use crate::{model, reasons, sheet, table};

/// 2^32 times the number, plus the place.
fn packed(refusal: Refusal) -> u64 {
    (u64::from(refusal.number) << 32) + refusal.place
}

/// The whole words of a table's bytes, and what comes after them: nothing, or a lone byte.
pub fn whole_words(table: &[u8]) -> (Vec<u16>, &[u8]) {
    let pairs = table.chunks_exact(2);
    let lone = pairs.remainder();
    (pairs.map(|pair| u16::from_le_bytes([pair[0], pair[1]])).collect(), lone)
}

/// The words of a table's bytes: `check` looks at the whole ones, then a lone last byte is a record cut short.
fn checked_words(table: &[u8], check: impl FnOnce(&[u16]) -> Result<(), Refusal>) -> Result<Vec<u16>, Refusal> {
    let (words, lone) = whole_words(table);
    check(&words)?;
    if !lone.is_empty() {
        return refuse(RECORD_CUT_SHORT, words.len());
    }
    Ok(words)
}

/// Evaluation: 0, or a packed refusal.
pub fn simmerknot_evaluate(n: u64, table: &[u8], values: &mut [u8]) -> u64 {
    let check = |words: &[u16]| model::evaluation_rules(n, words, values.len()).map(|_| ());
    match checked_words(table, check).and_then(|words| model::evaluate(n, &words, values)) {
        Ok(()) => 0,
        Err(refusal) => packed(refusal),
    }
}

/// The question of conflict: 0 for no, 1 for yes, or a packed refusal.
pub fn simmerknot_conflict(n: u64, table: &[u8]) -> u64 {
    match checked_words(table, |words| table::check(n, words)).and_then(|words| model::conflict(n, &words)) {
        Ok(yes) => u64::from(yes),
        Err(refusal) => packed(refusal),
    }
}

/// What the writer of a reason sheet refuses before 15, packed.
pub fn refused_writing(n: u64, table: &[u8]) -> Option<u64> {
    checked_words(table, |words| reasons::check_writing(n, words)).err().map(packed)
}

/// The check of a reason sheet: 0, or a packed refusal.
pub fn simmerknot_check_reasons(n: u64, table: &[u8], values: &[u8], text: &[u8]) -> u64 {
    let check = |words: &[u16]| model::evaluation_rules(n, words, values.len()).map(|_| ());
    match checked_words(table, check).and_then(|words| reasons::check_reasons(n, &words, values, text)) {
        Ok(()) => 0,
        Err(refusal) => packed(refusal),
    }
}

/// The sheet entry: the value sheet's length, or a packed refusal. Bytes after the last whole entry are untouched.
pub fn simmerknot_sheet(sheet: &[u8], words: &mut [u8], names: &mut [u8], text: &mut [u8]) -> u64 {
    let mut word_entries = vec![0u16; words.len() / 2];
    let mut name_entries = vec![0u32; names.len() / 4];
    let answer = sheet::read_sheet(sheet, &mut word_entries, &mut name_entries, text);
    for (bytes, entry) in words.chunks_exact_mut(2).zip(word_entries) {
        bytes.copy_from_slice(&entry.to_le_bytes());
    }
    for (bytes, entry) in names.chunks_exact_mut(4).zip(name_entries) {
        bytes.copy_from_slice(&entry.to_le_bytes());
    }
    match answer {
        Ok(accepted) => accepted.value_sheet_length,
        Err(refusal) => packed(refusal),
    }
}
