//! Reading a full sheet beside the second implementation's reader with two ways to look a name up: the engine's own, a search
//! through the name entries from the first on, and a hash map.
//!
//! The sheets have as many literals as their bytes and words allow, and lack the last byte: all is read, nothing is evaluated,
//! and the answer is 10 at the end. In the worst, all names differ in their last two bytes alone, and after the first 512
//! literals each has the last name. Beside each stands a sheet with the same literals, bytes and words but one name, where there is nothing
//! to search: the difference is the lookup's share.

use std::array::from_fn;
use std::collections::HashMap;
use std::hint::black_box;

use against::lookup::{Lookup, read};
use second::refusal::{MOST_SHEET_BYTES, MOST_WORDS};

use crate::turns::{medians, timed};

/// The entries, from the first on.
#[derive(Default)]
struct Search;

impl<'a> Lookup<'a> for Search {
    fn number(&mut self, sheet: &'a [u8], entries: &[u32], name: &'a [u8]) -> Option<usize> {
        entries.iter().position(|&entry| {
            let (start, length) = (entry as usize / 32, entry as usize % 32);
            length == name.len() && &sheet[start..start + length] == name
        })
    }

    fn note(&mut self, _name: &'a [u8], _number: usize) {}
}

#[derive(Default)]
struct Hash<'a>(HashMap<&'a [u8], usize>);

impl<'a> Lookup<'a> for Hash<'a> {
    fn number(&mut self, _sheet: &'a [u8], _entries: &[u32], name: &'a [u8]) -> Option<usize> {
        self.0.get(name).copied()
    }

    fn note(&mut self, name: &'a [u8], number: usize) {
        self.0.insert(name, number);
    }
}

/// The host's sheet entry but for evaluation and the value sheet: 0, or the refusal packed.
fn yardstick<'a, L: Lookup<'a> + Default>(sheet: &'a [u8], words: &mut [u8], names: &mut [u8]) -> u64 {
    let (mut word_entries, mut name_entries) = (vec![0; words.len() / 2], vec![0; names.len() / 4]);
    let read = read(L::default(), sheet, &mut word_entries, &mut name_entries);
    if read.is_err() {
        word_entries.fill(0);
        name_entries.fill(0);
    }
    for (bytes, entry) in words.chunks_exact_mut(2).zip(word_entries) {
        bytes.copy_from_slice(&entry.to_le_bytes());
    }
    for (bytes, entry) in names.chunks_exact_mut(4).zip(name_entries) {
        bytes.copy_from_slice(&entry.to_le_bytes());
    }
    read.map_or_else(|refusal| (u64::from(refusal.number) << 32) + refusal.place, |_| 0)
}

/// A sheet of as many literals as go into 65,536 bytes and 8,192 words, with so many names of so many bytes.
fn full_sheet(names: usize, length: usize) -> (Vec<u8>, usize) {
    const TAIL: &[u8] = b"abcdefghijklmnopqrstuvwxyz0123456789_.";
    let name = |number: usize| {
        let mut name = vec![b'x'; length - 2];
        name.extend([TAIL[number / TAIL.len()], TAIL[number % TAIL.len()]]);
        name
    };
    // A line has a head, then 64 groups of 64 literals; the second head is the last name, negated.
    let (mut seps, mut words) = (Vec::new(), 0);
    loop {
        let at = seps.len() % 4097;
        let (sep, more) = if at == 0 { (b'\n', 3) } else if at % 64 == 1 { (b'\t', 2) } else { (b' ', 1) };
        if words + more > MOST_WORDS || (seps.len() + 1) * (length + 1) > MOST_SHEET_BYTES {
            break;
        }
        seps.push(sep);
        words += more;
    }
    // Negations make up the bytes that are still missing.
    let literals = seps.len();
    let heads = literals.div_ceil(4097);
    let missing = (MOST_SHEET_BYTES - literals * (length + 1) - (heads - 1)).min(literals / 2);
    let mut sheet = Vec::new();
    for (at, sep) in seps.into_iter().enumerate() {
        if at > 0 {
            sheet.push(sep);
        }
        if at >= literals - missing || (sep == b'\n' && at > 0) {
            sheet.push(b'-');
        }
        sheet.extend(name(at.min(names - 1)));
    }
    sheet.push(b'\n');
    (sheet, literals)
}

struct Buffers {
    words: Vec<u8>,
    names: Vec<u8>,
}

fn engine(sheet: &[u8], lent: &mut Buffers) -> u64 {
    against::host::sheet(sheet, &mut lent.words, &mut lent.names, &mut [])
}

fn search(sheet: &[u8], lent: &mut Buffers) -> u64 {
    yardstick::<Search>(sheet, &mut lent.words, &mut lent.names)
}

fn hash(sheet: &[u8], lent: &mut Buffers) -> u64 {
    yardstick::<Hash>(sheet, &mut lent.words, &mut lent.names)
}

type ReadingRun = fn(&[u8], &mut Buffers) -> u64;

const RUNS: [ReadingRun; 3] = [engine, search, hash];

/// The medians of the three, in microseconds.
fn reading(sheet: &[u8]) -> [f64; 3] {
    let mut lent: [Buffers; 3] = from_fn(|_| Buffers { words: vec![0; 16_384], names: vec![0; 2048] });
    let expected = (10 << 32) + sheet.len() as u64;
    medians(|| from_fn(|i| timed(|| assert_eq!(RUNS[i](black_box(sheet), black_box(&mut lent[i])), expected)))).0
}

pub fn print() {
    println!();
    println!("| names of | bytes | literals | engine | search | hash | engine / search | engine / hash | engine's lookup | search's lookup |");
    println!("|---:|---:|---:|---:|---:|---:|---:|---:|---:|---:|");
    for length in [24, 23, 7, 3] {
        let (sheet, literals) = full_sheet(512, length);
        let (one_name, _) = full_sheet(1, length);
        let [engine, search, hash] = reading(&sheet[..sheet.len() - 1]);
        let [engine_alone, search_alone, _] = reading(&one_name[..sheet.len() - 1]);
        println!(
            "| {length} | {} | {literals} | {engine:.0} | {search:.0} | {hash:.0} | {:.2} | {:.1} | {:.0} % | {:.0} % |",
            sheet.len(),
            engine / search,
            engine / hash,
            100.0 * (1.0 - engine_alone / engine),
            100.0 * (1.0 - search_alone / search),
        );
    }
}

#[cfg(test)]
mod tests {
    use super::*;

    #[test]
    fn the_yardsticks_read_what_the_second_implementation_reads() {
        for length in [3, 7, 24] {
            for names in [1, 512] {
                let (sheet, literals) = full_sheet(names, length);
                let (mut w, mut n, mut text) = (vec![0; 8192], vec![0; 512], vec![0; 20_000]);
                let accepted = second::sheet::read_sheet(&sheet, &mut w, &mut n, &mut text).expect("an accepted sheet");
                assert_eq!(accepted.n as usize, names);
                assert!(literals > 2600 && (length == 3 || sheet.len() == MOST_SHEET_BYTES));
                for read in [read::<Search>, read::<Hash>] {
                    let (mut words, mut entries) = (vec![0; 8192], vec![0; 512]);
                    assert_eq!(read(&sheet, &mut words, &mut entries), Ok((names, accepted.words_filled as usize)));
                    assert!(words == w && entries == n);
                }
            }
        }
    }
}
