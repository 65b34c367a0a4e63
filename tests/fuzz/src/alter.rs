//! Inputs altered at random, with no regard to what they mean but for the lines of tables.

use second::host::whole_words;
use second::random::{Chance, any_line, line_places, reason_byte, sheet_byte};

/// A part of the row: where it begins and ends, mostly short.
fn part(chance: &mut Chance, length: usize) -> (usize, usize) {
    let start = chance.index(length + 1);
    let longest = if chance.one_in(4) { length - start } else { (length - start).min(12) };
    (start, start + chance.index(longest + 1))
}

/// A part that begins and ends at the ends of lines.
fn lines(chance: &mut Chance, row: &[u8]) -> (usize, usize) {
    let mut ends: Vec<usize> = vec![0];
    ends.extend((0..row.len()).filter(|&at| row[at] == b'\n').map(|at| at + 1));
    let first = chance.index(ends.len());
    let last = first + chance.index((ends.len() - first).min(4));
    (ends[first], ends[last])
}

/// So many alterations, each at a place of chance; `byte` draws a new byte, `other` is a row to take parts from.
fn altered(chance: &mut Chance, mut row: Vec<u8>, other: &[u8], times: u64, byte: fn(&mut Chance) -> u8) -> Vec<u8> {
    for _ in 0..times {
        match chance.below(9) {
            0 | 1 if !row.is_empty() => {
                let at = chance.index(row.len());
                row[at] = byte(chance);
            }
            2 if !row.is_empty() => {
                let at = chance.index(row.len());
                row[at] ^= 1 << chance.below(8);
            }
            3 => {
                let at = chance.index(row.len() + 1);
                let new = byte(chance);
                row.insert(at, new);
            }
            4 => {
                let (start, end) = part(chance, row.len());
                row.drain(start..end);
            }
            5 => {
                let (start, end) = if chance.one_in(2) { lines(chance, &row) } else { part(chance, row.len()) };
                let copy = row[start..end].to_vec();
                let at = if chance.one_in(2) { lines(chance, &row).0 } else { chance.index(row.len() + 1) };
                row.splice(at..at, copy);
            }
            6 => {
                let (start, end) = lines(chance, other);
                let at = lines(chance, &row).0;
                row.splice(at..at, other[start..end].to_vec());
            }
            7 => row.truncate(chance.index(row.len() + 1)),
            _ => {
                let (start, end) = part(chance, row.len());
                let (from, to) = part(chance, other.len());
                row.splice(start..end, other[from..to].to_vec());
            }
        }
    }
    row
}

/// How often to alter: not at all a third of the time, else up to five times.
fn times(chance: &mut Chance) -> u64 {
    if chance.one_in(3) { 0 } else { chance.between(1, 5) }
}

/// One of the line words, as far as the counts tell them, at an edge of its range or anywhere.
fn line_altered(chance: &mut Chance, mut row: Vec<u8>) -> Vec<u8> {
    let places = line_places(&whole_words(&row).0);
    if !places.is_empty() {
        let at = 2 * chance.of(&places);
        row[at..at + 2].copy_from_slice(&any_line(chance).to_le_bytes());
    }
    row
}

pub fn table(chance: &mut Chance, row: Vec<u8>, other: &[u8]) -> Vec<u8> {
    let row = if chance.one_in(6) { line_altered(chance, row) } else { row };
    let times = times(chance);
    altered(chance, row, other, times, |chance| if chance.one_in(2) { chance.below(5) as u8 } else { chance.number() as u8 })
}

pub fn sheet(chance: &mut Chance, row: Vec<u8>, other: &[u8]) -> Vec<u8> {
    let times = times(chance);
    altered(chance, row, other, times, |chance| if chance.one_in(8) { chance.number() as u8 } else { sheet_byte(chance) })
}

pub fn reasons(chance: &mut Chance, row: Vec<u8>, other: &[u8]) -> Vec<u8> {
    let times = times(chance);
    altered(chance, row, other, times, |chance| if chance.one_in(8) { chance.number() as u8 } else { reason_byte(chance) })
}
