//! Rooms and buffers that a caller lends, always filled with bytes of chance, and entries as bytes.

use crate::random::{Chance, heads_and_others, lines_length};

/// A value room for N atoms, filled with bytes of chance: mostly N or a little more, sometimes less.
pub fn value_room(chance: &mut Chance, n: u64) -> Vec<u8> {
    let n = n.min(600) as usize;
    let length = match chance.below(8) {
        0 => n.saturating_sub(1),
        1 => chance.index(n + 1),
        2 => n + 1,
        3 => n + chance.index(100),
        _ => n,
    };
    chance.bytes(length)
}

/// A word buffer: large enough seven times in eight, and then exactly or a little more.
pub fn word_buffer(chance: &mut Chance) -> Vec<u16> {
    let length = if chance.one_in(8) { chance.of(&[0, 1, 100, 8190, 8191]) } else { chance.of(&[8192, 8192, 8193, 8200]) };
    (0..length).map(|_| chance.number() as u16).collect()
}

/// A name buffer, likewise.
pub fn name_buffer(chance: &mut Chance) -> Vec<u32> {
    let length = if chance.one_in(8) { chance.of(&[0, 1, 100, 510, 511]) } else { chance.of(&[512, 512, 513, 600]) };
    (0..length).map(|_| chance.number() as u32).collect()
}

/// A text room for the value sheet of a sheet: too small about once in four times, then mostly with room for the lines of the heads
/// alone. For a sheet that is refused, a small one.
pub fn text_room(chance: &mut Chance, sheet: &[u8]) -> Vec<u8> {
    let (heads, others) = heads_and_others(sheet);
    let heads = lines_length(&heads);
    let needed = heads + lines_length(&others);
    let length = match chance.below(7) {
        0 => chance.index(needed + 1),
        1 => heads + chance.index(needed - heads + 1),
        2 => needed,
        3 => needed + 1,
        _ => needed + chance.index(100),
    };
    chance.bytes(length)
}

/// A word buffer as the host passes it: any number of bytes, an odd one among them.
pub fn word_bytes(chance: &mut Chance) -> Vec<u8> {
    let length = if chance.one_in(8) {
        chance.of(&[0, 1, 2, 3, 16_382, 16_383])
    } else {
        chance.of(&[16_384, 16_384, 16_385, 16_386, 16_391])
    };
    chance.bytes(length)
}

/// A name buffer as the host passes it, with up to three bytes after its last whole entry.
pub fn name_bytes(chance: &mut Chance) -> Vec<u8> {
    let length = if chance.one_in(8) {
        chance.of(&[0, 1, 3, 4, 2044, 2047])
    } else {
        chance.of(&[2048, 2048, 2049, 2050, 2051, 2052, 2055])
    };
    chance.bytes(length)
}

/// Words as the host passes them: two bytes each, low byte first.
pub fn table_bytes(words: &[u16]) -> Vec<u8> {
    words.iter().flat_map(|word| word.to_le_bytes()).collect()
}

/// Name entries as the host passes them: four bytes each, low byte first.
pub fn entry_bytes(names: &[u32]) -> Vec<u8> {
    names.iter().flat_map(|entry| entry.to_le_bytes()).collect()
}
