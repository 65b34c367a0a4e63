//! Sheets that are awkward for an index of names: names of one bucket, of a few and of all, names that differ in one byte or in length
//! alone, one inside another, as many as there can be, and at both ends of the longest sheet.

use std::collections::{BTreeMap, BTreeSet};

use second::random::Chance;
use second::reader::{continues_name, starts_name};
use second::refusal::{MOST_GROUPS, MOST_LITERALS, MOST_NAME_BYTES, MOST_SHEET_BYTES};

use crate::names::{
    BUCKETS, BYTES, LETTERS, Name, bucket, bytes_at, colliding_at, colliding_prefix, name, of_bucket, of_bucket_after, of_each_bucket,
    one_bit_pairs, with_byte,
};

/// Sheets of one kind.
pub struct Kind {
    pub name: &'static str,
    pub sheets: fn() -> Vec<Vec<u8>>,
}

pub const KINDS: [Kind; 9] = [
    Kind { name: "one bucket", sheets: one_bucket },
    Kind { name: "several buckets", sheets: several_buckets },
    Kind { name: "a 513th name", sheets: a_513th_name },
    Kind { name: "one byte", sheets: one_byte },
    Kind { name: "few bytes in one bucket", sheets: few_bytes_in_one_bucket },
    Kind { name: "length alone", sheets: length_alone },
    Kind { name: "512 names of 24 bytes", sheets: names_of_24_bytes },
    Kind { name: "one inside another", sheets: one_inside_another },
    Kind { name: "both ends of 65,536 bytes", sheets: both_ends },
];

/// The lengths that names of one bucket have: below, at and above whole eights, the longest, and all of them.
pub fn lengths() -> Vec<Vec<usize>> {
    let alone = [3, 4, 7, 8, 9, 16, 23, 24].into_iter().map(|length| vec![length]);
    alone.chain([(1..=MOST_NAME_BYTES).collect()]).collect()
}

/// The buckets that are taken for them, by turns.
const TAKEN: [usize; 9] = [0, 511, 1, 255, 256, 510, 17, 300, 128];

/// Up to 520 names of a bucket for each of these lengths.
pub fn pools(chance: &mut Chance) -> Vec<Vec<Name>> {
    let taken = lengths().into_iter().zip(TAKEN);
    taken.map(|(lengths, bucket)| of_bucket(chance, bucket, &lengths, 520)).collect()
}

/// A sheet of literals with these names in this order, signs and roles by chance; no limit but that of 512 names is passed.
pub fn sheet_of(chance: &mut Chance, names: &[&Name]) -> Vec<u8> {
    let mut sheet = Vec::new();
    let mut heads = BTreeSet::new();
    let (mut groups, mut literals) = (0, 0);
    for &name in names {
        let mut negated = chance.percent(35);
        let wish = if sheet.is_empty() { 0 } else { chance.below(4) };
        if wish == 0 && heads.contains(&(name, negated)) {
            negated = !negated;
        }
        if wish == 0 && heads.insert((name, negated)) {
            if !sheet.is_empty() {
                sheet.push(b'\n');
            }
            (groups, literals) = (0, 0);
        } else if groups > 0 && literals < MOST_LITERALS && (wish > 1 || groups == MOST_GROUPS) {
            sheet.push(b' ');
            literals += 1;
        } else {
            assert!(groups < MOST_GROUPS, "no room for a literal");
            sheet.push(b'\t');
            groups += 1;
            literals = 1;
        }
        if negated {
            sheet.push(b'-');
        }
        sheet.extend(name);
    }
    sheet.push(b'\n');
    assert!(sheet.len() <= MOST_SHEET_BYTES, "{} bytes", sheet.len());
    sheet
}

/// The numbers below a count in some order, each of them once at least.
type Order = fn(&mut Chance, usize) -> Vec<usize>;

const ORDERS: [Order; 6] = [
    // Each once.
    |_, count| (0..count).collect(),
    // The first again throughout.
    |_, count| (0..count).flat_map(|i| [i, 0]).collect(),
    // The last again throughout.
    |_, count| (0..count).flat_map(|i| [i, i]).chain([count - 1; 9]).collect(),
    // All again, from the first and from the last.
    |_, count| (0..count).chain(0..count).collect(),
    |_, count| (0..count).chain((0..count).rev()).collect(),
    |chance, count| {
        let mut row: Vec<usize> = (0..count).chain((0..count + 10).map(|_| chance.index(count))).collect();
        chance.shuffle(&mut row);
        row
    },
];

/// The names in each order.
fn in_each_order(chance: &mut Chance, names: &[Name]) -> Vec<Vec<u8>> {
    let sheet = |order: &Order| {
        let row: Vec<&Name> = order(chance, names.len()).into_iter().map(|i| &names[i]).collect();
        sheet_of(chance, &row)
    };
    ORDERS.iter().map(sheet).collect()
}

/// 2, 3, 10, 100 and 512 names of one bucket, of each length, and such with the same first 16 bytes, in each order.
fn one_bucket() -> Vec<Vec<u8>> {
    let mut chance = Chance::new(0xb0c1);
    let mut sheets = Vec::new();
    let first = name(&mut chance, 16);
    let alike = of_bucket_after(&mut chance, 200, &first, 8, 512);
    for pool in pools(&mut chance).into_iter().chain([alike]) {
        let counts: BTreeSet<usize> = [2, 3, 10, 100, 512].into_iter().map(|count| pool.len().min(count)).collect();
        for count in counts {
            sheets.extend(in_each_order(&mut chance, &pool[..count]));
        }
    }
    sheets
}

/// So many names of each of these buckets: by turns, and all of a bucket before the next.
fn of_buckets(chance: &mut Chance, buckets: &[usize], count: usize) -> [Vec<Name>; 2] {
    let each: Vec<Vec<Name>> = buckets.iter().map(|&bucket| of_bucket(chance, bucket, &[4, 8, 11, 24], count)).collect();
    [(0..count).flat_map(|i| each.iter().map(move |names| names[i].clone())).collect(), each.concat()]
}

/// Two buckets that share all names, neighbours, several, and every bucket met by one name.
fn several_buckets() -> Vec<Vec<u8>> {
    let mut chance = Chance::new(0xb0c2);
    let mut sheets = Vec::new();
    let neighbours: Vec<usize> = (250..258).collect();
    let few: [(&[usize], usize); 9] = [
        (&[0, 511], 1),
        (&[0, 511], 3),
        (&[510, 511], 2),
        (&[0, 1], 20),
        (&[7, 407], 256),
        (&[0, 256], 256),
        (&[3, 2, 1, 0], 5),
        (&neighbours, 4),
        (&neighbours, 64),
    ];
    for (buckets, count) in few {
        for names in of_buckets(&mut chance, buckets, count) {
            sheets.extend(in_each_order(&mut chance, &names));
        }
    }
    for length in [4, 8, 24] {
        let mut names = of_each_bucket(&mut chance, length);
        sheets.extend(in_each_order(&mut chance, &names));
        names.reverse();
        sheets.extend(in_each_order(&mut chance, &names));
        chance.shuffle(&mut names);
        sheets.extend(in_each_order(&mut chance, &names));
    }
    sheets
}

/// Names of a bucket, and one of another.
fn and_another(chance: &mut Chance, names: &[Name]) -> Name {
    let taken = bucket(&names[0]);
    of_bucket(chance, (taken + 1) % BUCKETS, &[names[0].len()], 1).remove(0)
}

/// 512 names of one bucket, some of them again, and a 513th of the same bucket or of another.
fn a_513th_name() -> Vec<Vec<u8>> {
    let mut chance = Chance::new(0xb0c3);
    let mut sheets = Vec::new();
    for pool in pools(&mut chance).into_iter().filter(|pool| pool.len() >= 513) {
        let last = [pool[512].clone(), and_another(&mut chance, &pool[..512])];
        for name in &last {
            for again in [0, 0, 1, 3, 20, 200] {
                let mut row: Vec<&Name> = pool[..512].iter().collect();
                row.extend((0..again).map(|_| &pool[chance.index(512)]));
                row.extend([name, &pool[0]]);
                sheets.push(sheet_of(&mut chance, &row));
            }
        }
    }
    sheets
}

/// Two names, each twice.
fn pair(a: &[u8], b: &[u8]) -> Vec<u8> {
    [a, b"\t", b, b" ", a, b"\n-", b, b"\n"].concat()
}

fn both_orders(a: &[u8], b: &[u8]) -> [Vec<u8>; 2] {
    [pair(a, b), pair(b, a)]
}

/// Names of each length that differ at each place alone, by every pair of bytes that differ in one bit, and by others.
fn one_byte() -> Vec<Vec<u8>> {
    let mut chance = Chance::new(0xb0c4);
    let mut sheets = Vec::new();
    for (length, place) in places() {
        let bytes = bytes_at(place);
        let base = name(&mut chance, length);
        let others = (0..6).map(|_| (chance.of(bytes), chance.of(bytes))).filter(|(a, b)| a != b);
        for (a, b) in one_bit_pairs(place).into_iter().chain(others) {
            sheets.extend(both_orders(&with_byte(&base, place, a), &with_byte(&base, place, b)));
        }
    }
    sheets
}

/// Each place of a name of each length.
pub fn places() -> impl Iterator<Item = (usize, usize)> {
    (1..=MOST_NAME_BYTES).flat_map(|length| (0..length).map(move |place| (length, place)))
}

/// Names of one bucket that differ in so many neighbouring bytes alone, at each place, as pairs.
pub fn near_pairs(chance: &mut Chance, width: usize) -> Vec<(Name, Name)> {
    let inside = |&(length, place): &(usize, usize)| place + width <= length;
    places().filter(inside).filter_map(|(length, place)| colliding_at(chance, length, place..place + width)).collect()
}

fn few_bytes_in_one_bucket() -> Vec<Vec<u8>> {
    let mut chance = Chance::new(0xb0c5);
    let pairs = [1, 2, 8].map(|width| near_pairs(&mut chance, width)).concat();
    pairs.into_iter().flat_map(|(a, b)| both_orders(&a, &b)).collect()
}

/// Names of one bucket of which one goes on after the other, as pairs.
pub fn prefix_pairs(chance: &mut Chance) -> Vec<(Name, Name)> {
    let lengths = (1..MOST_NAME_BYTES).flat_map(|shorter| (shorter + 1..=MOST_NAME_BYTES).map(move |longer| (shorter, longer)));
    lengths.filter_map(|(shorter, longer)| colliding_prefix(chance, shorter, longer)).collect()
}

/// The beginnings of a name, and a name with one byte more; in one bucket too.
fn length_alone() -> Vec<Vec<u8>> {
    let mut chance = Chance::new(0xb0c6);
    let mut sheets = Vec::new();
    let mut longest = vec![b"a".repeat(MOST_NAME_BYTES), b"z.".repeat(MOST_NAME_BYTES / 2), b"b0000000".repeat(3)];
    longest.extend((0..5).map(|_| name(&mut chance, MOST_NAME_BYTES)));
    for long in longest {
        let mut beginnings: Vec<Name> = (1..=MOST_NAME_BYTES).map(|length| long[..length].to_vec()).collect();
        sheets.extend(in_each_order(&mut chance, &beginnings));
        beginnings.reverse();
        sheets.extend(in_each_order(&mut chance, &beginnings));
    }
    for length in 1..MOST_NAME_BYTES {
        let base = name(&mut chance, length);
        for &byte in BYTES {
            sheets.extend(both_orders(&base, &[&base[..], &[byte]].concat()));
        }
    }
    sheets.extend(prefix_pairs(&mut chance).into_iter().flat_map(|(a, b)| both_orders(&a, &b)));
    sheets
}

/// 513 names of 24 bytes: any, of the same bytes but the last two, and of the same but the first two.
pub fn longest_names(chance: &mut Chance) -> [Vec<Name>; 3] {
    let any = (0..513).map(|_| name(chance, MOST_NAME_BYTES)).collect::<BTreeSet<Name>>().into_iter().collect();
    let (first, last) = (name(chance, MOST_NAME_BYTES - 2), b"0123456789_.abcdefghij".to_vec());
    let behind = |i: usize| [&first[..], &[BYTES[i / BYTES.len()], BYTES[i % BYTES.len()]]].concat();
    let in_front = |i: usize| [&[LETTERS[i % LETTERS.len()], BYTES[i / LETTERS.len()]], &last[..]].concat();
    [any, (0..513).map(behind).collect(), (0..513).map(in_front).collect()]
}

/// 512 such names in each order, and a 513th after each.
fn names_of_24_bytes() -> Vec<Vec<u8>> {
    let mut chance = Chance::new(0xb0c7);
    let mut sheets = Vec::new();
    for names in longest_names(&mut chance) {
        assert_eq!(names.len(), 513);
        let accepted = in_each_order(&mut chance, &names[..512]);
        for sheet in &accepted {
            for sign in ["", "-"] {
                sheets.push([&sheet[..], sign.as_bytes(), &names[512][..], b"\n"].concat());
            }
        }
        sheets.extend(accepted);
    }
    sheets
}

/// A name and each part of it that is one, and such parts of its own bucket.
fn one_inside_another() -> Vec<Vec<u8>> {
    let mut chance = Chance::new(0xb0c8);
    let mut sheets = Vec::new();
    let parts = |name: &Name| {
        let ends = (0..name.len()).flat_map(|start| (start + 1..=MOST_NAME_BYTES).map(move |end| (start, end)));
        let inner = ends.filter(|&(start, end)| end - start < name.len() && starts_name(name[start]));
        inner.map(|(start, end)| name[start..end].to_vec()).collect::<Vec<Name>>()
    };
    for long in [b"abcdefghijklmnopqrstuvwx".to_vec(), b"aaaabaaaacaaaabaaaacaaaa".to_vec(), name(&mut chance, MOST_NAME_BYTES)] {
        sheets.extend(parts(&long).iter().flat_map(|part| both_orders(&long, part)));
    }
    for _ in 0..100 {
        let long = name(&mut chance, MOST_NAME_BYTES);
        let inside = parts(&long).into_iter().filter(|part| bucket(part) == bucket(&long));
        sheets.extend(inside.flat_map(|part| both_orders(&long, &part)));
    }
    sheets
}

/// Sheets of 65,536 bytes: the first name at the very start, the last at the very end, which is new, the first again or the one before.
fn both_ends() -> Vec<Vec<u8>> {
    let mut chance = Chance::new(0xb0c9);
    let mut sheets = Vec::new();
    let pool = of_bucket(&mut chance, 511, &[MOST_NAME_BYTES], 500);
    for length in [1, 2, 7, 8, 9, 16, 23, 24] {
        let first = name(&mut chance, length);
        for last in [first.clone(), pool[0].clone(), pool[499].clone(), name(&mut chance, length)] {
            let mut sheet = first.clone();
            let mut literals = 0;
            let mut put = |sheet: &mut Vec<u8>, name: &[u8]| {
                sheet.push(if literals % MOST_LITERALS == 0 { b'\t' } else { b' ' });
                sheet.extend(name);
                literals += 1;
            };
            let missing = |sheet: &[u8]| MOST_SHEET_BYTES - sheet.len() - last.len() - 2;
            let mut next = 0;
            while missing(&sheet) > 2 * (MOST_NAME_BYTES + 1) {
                put(&mut sheet, &pool[next % pool.len()]);
                next += 1;
            }
            // Two names more, of the bytes that are still missing.
            let shorter = missing(&sheet) / 2 - 1;
            put(&mut sheet, &name(&mut chance, shorter));
            let rest = missing(&sheet) - 1;
            put(&mut sheet, &name(&mut chance, rest));
            put(&mut sheet, &last);
            sheet.push(b'\n');
            assert_eq!(sheet.len(), MOST_SHEET_BYTES);
            sheets.push(sheet);
        }
    }
    sheets
}

/// A sheet with each of its names as another, the first met as the first of these, and so on; what is no name stays.
pub fn renamed(sheet: &[u8], names: &[Name]) -> Vec<u8> {
    let mut numbers = BTreeMap::new();
    let mut renamed = Vec::new();
    for run in sheet.chunk_by(|&a, &b| continues_name(a) == continues_name(b)) {
        if run.len() > MOST_NAME_BYTES || !starts_name(run[0]) {
            renamed.extend(run);
            continue;
        }
        let next = numbers.len();
        let number = *numbers.entry(run).or_insert(next);
        renamed.extend(names.get(number).map_or(run, |name| &name[..]));
    }
    renamed
}
