//! Names, and the buckets of an index in which they could be looked up: names of one bucket, and names that differ in little.

use std::collections::{BTreeMap, BTreeSet};
use std::ops::Range;

use second::random::Chance;
use second::refusal::MOST_NAME_BYTES;

pub const BUCKETS: usize = 512;

/// The bytes that a name is made of; those of `LETTERS` alone stand first.
pub const BYTES: &[u8] = b"abcdefghijklmnopqrstuvwxyz0123456789_.";
pub const LETTERS: &[u8] = b"abcdefghijklmnopqrstuvwxyz";

pub type Name = Vec<u8>;

/// The bytes as one number, the first byte lowest.
fn number(bytes: &[u8]) -> u64 {
    bytes.iter().rev().fold(0, |number, &byte| 256 * number + u64::from(byte))
}

/// The halves of a number, each times a factor of its own, so that every bit changes higher ones.
fn mixed(x: u64) -> u64 {
    x % (1 << 32) * 1_772_427 + (x >> 32) * 548_035
}

/// The bucket of a name in an index as an engine may have one: a number below 512 from the bytes alone.
pub fn bucket(name: &[u8]) -> usize {
    let n = name.len();
    let spread = match n {
        0..4 => mixed(number(name)),
        4..8 => mixed(number(&name[..4]) + (number(&name[n - 4..]) << 32)),
        _ => {
            let eight = |at: usize| mixed(number(&name[at..at + 8]));
            eight(0) + 15 * eight((n - 8) / 2) + 137 * eight(n - 8)
        }
    };
    ((spread >> 21) as usize + n) % BUCKETS
}

/// The bytes that may stand at a place of a name.
pub fn bytes_at(place: usize) -> &'static [u8] {
    if place == 0 { LETTERS } else { BYTES }
}

/// A name of so many bytes.
pub fn name(chance: &mut Chance, length: usize) -> Name {
    (0..length).map(|place| chance.of(bytes_at(place))).collect()
}

/// All names of so many bytes, at most three.
fn all_names(length: usize) -> Vec<Name> {
    assert!(length <= 3, "too many names");
    (0..length).fold(vec![Name::new()], |names, place| {
        let longer = |name: Name| bytes_at(place).iter().map(move |&byte| [&name[..], &[byte]].concat());
        names.into_iter().flat_map(longer).collect()
    })
}

/// So many different names of a bucket, each of one of these lengths; fewer where all are of at most three bytes and there are no more.
pub fn of_bucket(chance: &mut Chance, wanted: usize, lengths: &[usize], count: usize) -> Vec<Name> {
    if lengths.iter().all(|&length| length <= 3) {
        let mut names: Vec<Name> = lengths.iter().flat_map(|&length| all_names(length)).filter(|name| bucket(name) == wanted).collect();
        chance.shuffle(&mut names);
        names.truncate(count);
        return names;
    }
    drawn_of_bucket(wanted, count, || {
        let length = chance.of(lengths);
        name(chance, length)
    })
}

/// So many different names of a bucket that all begin with these bytes and have so many more, enough of them to draw from.
pub fn of_bucket_after(chance: &mut Chance, wanted: usize, first: &[u8], more: usize, count: usize) -> Vec<Name> {
    drawn_of_bucket(wanted, count, || first.iter().copied().chain((0..more).map(|_| chance.of(BYTES))).collect())
}

fn drawn_of_bucket(wanted: usize, count: usize, mut draw: impl FnMut() -> Name) -> Vec<Name> {
    let (mut met, mut names) = (BTreeSet::new(), Vec::new());
    for _ in 0..100_000 + count * BUCKETS * 20 {
        if names.len() == count {
            break;
        }
        let drawn = draw();
        if bucket(&drawn) == wanted && met.insert(drawn.clone()) {
            names.push(drawn);
        }
    }
    assert_eq!(names.len(), count, "names of bucket {wanted}");
    names
}

/// For each bucket one name, of so many bytes.
pub fn of_each_bucket(chance: &mut Chance, length: usize) -> Vec<Name> {
    let mut names = vec![Name::new(); BUCKETS];
    let mut missing = BUCKETS;
    for _ in 0..BUCKETS * 1_000 {
        let drawn = name(chance, length);
        let place = &mut names[bucket(&drawn)];
        if place.is_empty() {
            *place = drawn;
            missing -= 1;
        }
    }
    assert_eq!(missing, 0, "buckets without a name of {length} bytes");
    names
}

/// The name with another byte at a place.
pub fn with_byte(name: &[u8], place: usize, byte: u8) -> Name {
    let mut name = name.to_vec();
    name[place] = byte;
    name
}

/// All pairs of bytes that may stand at a place and differ in one bit.
pub fn one_bit_pairs(place: usize) -> Vec<(u8, u8)> {
    let bytes = bytes_at(place);
    let pairs = bytes.iter().flat_map(|&a| bytes.iter().map(move |&b| (a, b)));
    pairs.filter(|(a, b)| a < b && (a ^ b).count_ones() == 1).collect()
}

/// Two names of one bucket, of so many bytes, that differ at some of these places alone, if they are found.
pub fn colliding_at(chance: &mut Chance, length: usize, places: Range<usize>) -> Option<(Name, Name)> {
    (0..200).find_map(|_| {
        let base = name(chance, length);
        let mut met: BTreeMap<usize, Name> = BTreeMap::new();
        (0..50).find_map(|_| {
            let drawn = places.clone().fold(base.clone(), |name, place| with_byte(&name, place, chance.of(bytes_at(place))));
            let earlier = met.entry(bucket(&drawn)).or_insert_with(|| drawn.clone()).clone();
            (earlier != drawn).then_some((earlier, drawn))
        })
    })
}

/// A name of so many bytes and one of the same bucket that goes on after it, of so many bytes in all, if they are found.
pub fn colliding_prefix(chance: &mut Chance, shorter: usize, longer: usize) -> Option<(Name, Name)> {
    assert!(shorter < longer && longer <= MOST_NAME_BYTES, "a name that goes on after another");
    (0..8_000).find_map(|_| {
        let long = name(chance, longer);
        (bucket(&long) == bucket(&long[..shorter])).then(|| (long[..shorter].to_vec(), long))
    })
}
