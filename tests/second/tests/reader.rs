//! The sheet reader, from the start and from places set by hand. In the comments ⇥ is a tab and ⏎ byte 10.

use second::random::{self, Chance};
use second::reader::{Reader, Reading, Role, SheetLiteral, reading};
use second::refusal::Refusal;

fn refused(number: u32, place: u64) -> Reading {
    Reading::Refused(Refusal { number, place })
}

fn literal(negated: bool, name_place: u64, name_length: u64, role: Role) -> Reading {
    Reading::Literal(SheetLiteral { negated, name_place, name_length, role })
}

/// All readings from the start, up to and with the end or the refusal.
fn readings(sheet: &[u8]) -> Vec<Reading> {
    let mut reader = Reader::new(sheet);
    let mut all = Vec::new();
    loop {
        let next = reader.next_reading();
        all.push(next);
        if !matches!(next, Reading::Literal(_)) {
            let stopped = reader;
            assert_eq!(reader.next_reading(), next, "the same reading again");
            assert_eq!(reader, stopped, "the place does not move");
            return all;
        }
    }
}

fn last(sheet: &[u8]) -> Reading {
    *readings(sheet).last().unwrap()
}

#[test]
fn the_empty_sheet_is_at_its_end() {
    assert_eq!(readings(b""), [Reading::End]);
    assert_eq!(reading(b"", 1), (refused(10, 0), 1));
}

#[test]
fn literals_with_sign_name_and_role() {
    let read = readings(b"-ab\tc -d.1\te\nf\n");
    assert_eq!(
        read,
        [
            literal(true, 1, 2, Role::Head),
            literal(false, 4, 1, Role::First),
            literal(true, 7, 3, Role::Further),
            literal(false, 11, 1, Role::First),
            literal(false, 13, 1, Role::Head),
            Reading::End,
        ]
    );
}

#[test]
fn the_next_place_is_after_the_byte_that_ends_the_literal() {
    assert_eq!(reading(b"ab\tc\n", 0), (literal(false, 0, 2, Role::Head), 3));
    assert_eq!(reading(b"ab\tc\n", 3), (literal(false, 3, 1, Role::First), 5));
    assert_eq!(reading(b"ab\tc\n", 5), (Reading::End, 5));
}

#[test]
fn bytes_that_cannot_stand_there() {
    // `a#⏎` is 10 at 1 at once.
    assert_eq!(readings(b"a#\n"), [refused(10, 1)]);
    // `a⇥⏎` reads the head, then 10 at 2.
    assert_eq!(readings(b"a\t\n"), [literal(false, 0, 1, Role::Head), refused(10, 2)]);
    assert_eq!(last(b"\n"), refused(10, 0));
    assert_eq!(last(b"a\n\n"), refused(10, 2));
    assert_eq!(last(b"a\t\tb\n"), refused(10, 2));
    assert_eq!(last(b"a\tb  c\n"), refused(10, 4));
    assert_eq!(last(b"a\tb \n"), refused(10, 4));
    assert_eq!(last(b" a\n"), refused(10, 0));
    assert_eq!(last(b"--a\n"), refused(10, 1));
    assert_eq!(last(b"-\n"), refused(10, 1));
    assert_eq!(last(b"a-b\n"), refused(10, 1));
    assert_eq!(last(b"0a\n"), refused(10, 0));
    assert_eq!(last(b"_a\n"), refused(10, 0));
    assert_eq!(last(b".a\n"), refused(10, 0));
    assert_eq!(last(b"A\n"), refused(10, 0));
    assert_eq!(last(b"-9\n"), refused(10, 1));
    assert_eq!(last(b"a\r\n"), refused(10, 1));
}

#[test]
fn bytes_0_13_and_above_127_stand_nowhere() {
    for byte in [0, 13, 128, 200, 255, b'A', b'Z', b'`', b'{', b'/', b':', b'#', 127, 11, 9 + 128] {
        assert_eq!(last(&[byte]), refused(10, 0), "{byte}");
        assert_eq!(last(&[b'a', byte, b'\n']), refused(10, 1), "{byte}");
        assert_eq!(last(&[b'-', byte, b'\n']), refused(10, 1), "{byte}");
        assert_eq!(last(&[b'a', b'\t', byte, b'\n']), refused(10, 2), "{byte}");
        assert_eq!(last(&[b'a', b'\t', b'b', byte]), refused(10, 3), "{byte}");
        assert_eq!(last(&[b'a', b'\n', byte]), refused(10, 2), "{byte}");
    }
}

#[test]
fn after_a_head_a_space_is_10() {
    // `a b⏎` read from the start is 10 at 1; at place 2, set by hand, b is further in a group.
    assert_eq!(readings(b"a b\n"), [refused(10, 1)]);
    assert_eq!(reading(b"a b\n", 2), (literal(false, 2, 1, Role::Further), 4));
}

#[test]
fn a_sheet_that_ends_inside_a_line_is_10_at_its_length() {
    assert_eq!(last(b"a"), refused(10, 1));
    assert_eq!(last(b"-"), refused(10, 1));
    assert_eq!(last(b"a\t"), refused(10, 2));
    assert_eq!(last(b"a\tb "), refused(10, 4));
    assert_eq!(last(b"a\t-"), refused(10, 3));
    assert_eq!(last(b"a\tb"), refused(10, 3));
    assert_eq!(last(b"a\nb"), refused(10, 3));
    assert_eq!(last(b"a\nb\n"), Reading::End);
}

#[test]
fn places_set_by_hand() {
    let sheet = b"ab\tc d\n";
    // After a byte that is not tab, space or 10: 10 at that place.
    assert_eq!(reading(sheet, 1), (refused(10, 1), 1));
    assert_eq!(reading(sheet, 2), (refused(10, 2), 2));
    assert_eq!(reading(sheet, 4), (refused(10, 4), 4));
    assert_eq!(reading(sheet, 6), (refused(10, 6), 6));
    // At the length after byte 10, the end; beyond, 10 at the length.
    assert_eq!(reading(sheet, 7), (Reading::End, 7));
    for beyond in [8, 9, 1 << 16, 1 << 32, (1 << 32) + 3, u64::MAX] {
        assert_eq!(reading(sheet, beyond), (refused(10, 7), beyond));
    }
    // At the length after tab, space or "-": 10 at the length.
    for open in [b"a\t", b"a ", b"a-"] {
        assert_eq!(reading(open, 2), (refused(10, 2), 2));
    }
    // After "-", also inside the sheet.
    assert_eq!(reading(b"-a\n", 1), (refused(10, 1), 1));
    // In front of "-".
    assert_eq!(reading(b"a\t-b\n", 2), (literal(true, 3, 1, Role::First), 5));
    // A line that opens with a tab is 10 at 0, but its group can be read by hand.
    assert_eq!(reading(b"\ta\n", 0), (refused(10, 0), 0));
    assert_eq!(reading(b"\ta\n", 1), (literal(false, 1, 1, Role::First), 3));
}

#[test]
fn names_of_24_and_25_bytes() {
    let name = |length: usize| vec![b'z'; length];
    let sheet = |parts: &[&[u8]]| parts.concat();
    assert_eq!(readings(&sheet(&[&name(24), b"\n"]))[0], literal(false, 0, 24, Role::Head));
    assert_eq!(last(&sheet(&[&name(25), b"\n"])), refused(11, 24));
    // Counted without "-".
    assert_eq!(readings(&sheet(&[b"-", &name(24), b"\n"]))[0], literal(true, 1, 24, Role::Head));
    assert_eq!(last(&sheet(&[b"-", &name(25), b"\n"])), refused(11, 25));
    // 24 name bytes and then a bad byte, or the end of the sheet: 10 there.
    assert_eq!(last(&sheet(&[&name(24), b"#"])), refused(10, 24));
    assert_eq!(last(&name(24)), refused(10, 24));
    // 25 name bytes: 11, whatever follows.
    assert_eq!(last(&sheet(&[&name(25), b"#"])), refused(11, 24));
    assert_eq!(last(&name(25)), refused(11, 24));
    assert_eq!(last(&name(300)), refused(11, 24));
    assert_eq!(last(&sheet(&[b"a\tb ", &name(25), b" "])), refused(11, 28));
}

#[test]
fn sheets_of_65536_and_65537_bytes() {
    let sheet = [b"a\t".to_vec(), b"b ".repeat(32_766), b"b\n".to_vec()].concat();
    assert_eq!(sheet.len(), 65_536);
    assert_eq!(reading(&sheet, 0), (literal(false, 0, 1, Role::Head), 2));
    assert_eq!(reading(&sheet, 65_534), (literal(false, 65_534, 1, Role::Further), 65_536));
    assert_eq!(reading(&sheet, 65_536), (Reading::End, 65_536));
    assert_eq!(readings(&sheet).len(), 32_769);
    let above = [sheet, b"\n".to_vec()].concat();
    // 8 comes first, at every place.
    for place in [0, 1, 2, 65_536, 65_537, 65_538, u64::MAX] {
        assert_eq!(reading(&above, place), (refused(8, 0), place));
    }
}

#[test]
fn any_place_of_any_sheet_is_read() {
    let (mut ends, mut literals, mut numbers) = (0, [0; 3], std::collections::BTreeMap::new());
    for seed in 0..8000 {
        let mut chance = Chance::new(seed);
        let sheet = random::any_sheet(&mut chance);
        for _ in 0..8 {
            let place = random::any_place(&mut chance, &sheet);
            let (read, next) = reading(&sheet, place);
            let before = place.checked_sub(1).and_then(|before| sheet.get(before as usize)).copied();
            match read {
                Reading::End => {
                    assert_eq!((place, next), (sheet.len() as u64, place), "seed {seed}");
                    assert!(matches!(before, None | Some(b'\n')), "seed {seed}");
                    ends += 1;
                }
                Reading::Refused(refusal) => {
                    assert_eq!(next, place, "seed {seed}");
                    assert!(refusal.place <= sheet.len() as u64, "seed {seed}");
                    *numbers.entry(refusal.number).or_insert(0) += 1;
                }
                Reading::Literal(found) => {
                    assert_eq!(found.place(), place, "seed {seed}");
                    let end = (found.name_place + found.name_length) as usize;
                    let name = &sheet[found.name_place as usize..end];
                    assert!((1..=24).contains(&name.len()), "seed {seed}");
                    assert!(matches!(name[0], b'a'..=b'z'), "seed {seed}");
                    assert!(name.iter().all(|b| matches!(b, b'a'..=b'z' | b'0'..=b'9' | b'_' | b'.')), "seed {seed}");
                    assert_eq!(found.negated, sheet[place as usize] == b'-', "seed {seed}");
                    let (role, after) = match before {
                        None | Some(b'\n') => (Role::Head, &b"\t\n"[..]),
                        Some(b'\t') => (Role::First, &b"\t\n "[..]),
                        Some(b' ') => (Role::Further, &b"\t\n "[..]),
                        other => panic!("seed {seed}: a literal after {other:?}"),
                    };
                    assert_eq!(found.role, role, "seed {seed}");
                    assert!(after.contains(&sheet[end]), "seed {seed}");
                    assert_eq!(next, end as u64 + 1, "seed {seed}");
                    literals[role as usize] += 1;
                }
            }
        }
    }
    assert_eq!(numbers.keys().copied().collect::<Vec<_>>(), [8, 10, 11]);
    assert!(ends > 300 && literals.iter().all(|&count| count > 500), "{ends} {literals:?}");
    assert!(numbers.values().all(|&count| count > 25), "{numbers:?}");
}
