//! Sheets that are awkward for an index of names, through the sheet entry over entries and the host's: the answer, every entry and every
//! byte afterwards.

use against::cases::{Tally, cases};
use against::compare::{self, Buffers};
use against::guard::BEFORE;
use against::host;
use against::name_sheets::{KINDS, lengths, longest_names, near_pairs, places, pools, prefix_pairs, renamed};
use against::names::{BYTES, Name, bucket, name, of_bucket};
use against::pages::Pages;
use against::sheets::ONLY_IN_BODIES;
use second::random::{self, Chance};
use second::refusal::{MOST_NAME_BYTES, Refusal};
use second::sheet::read_sheet;

/// Buffers of the least length and a text room that is large enough.
fn full() -> (Vec<u16>, Vec<u32>, Vec<u8>) {
    (vec![7; 8192], vec![7; 512], vec![7; 13_824])
}

/// The kind of this name: so many sheets through both entries, with these outcomes, each so many times.
fn kind(name: &str, sheets: usize, outcomes: &[&str], least: u64) {
    let kind = KINDS.iter().find(|kind| kind.name == name).expect("a kind of this name");
    let (words, names, text) = full();
    let lent = Buffers::least(13_824);
    let (mut tally, mut by_host) = (Tally::default(), Tally::default());
    let all = (kind.sheets)();
    for (i, sheet) in all.iter().enumerate() {
        compare::sheet(sheet, &words, &names, &text, &mut tally);
        compare::host_sheet(sheet, &lent, BEFORE[i % 2], &mut by_host);
    }
    tally.expect(outcomes, least);
    by_host.expect(outcomes, least);
    assert!(all.len() >= sheets, "{name}: {} sheets", all.len());
}

#[test]
fn names_of_one_bucket() {
    kind("one bucket", 294, &["sheet ok"], 294);
}

#[test]
fn names_of_several_buckets() {
    kind("several buckets", 162, &["sheet ok"], 162);
}

#[test]
fn a_513th_name() {
    kind("a 513th name", 96, &["sheet 12"], 96);
}

#[test]
fn names_that_differ_in_one_byte() {
    kind("one byte", 48_000, &["sheet ok"], 48_000);
}

#[test]
fn names_of_one_bucket_that_differ_in_few_bytes() {
    kind("few bytes in one bucket", 850, &["sheet ok"], 850);
}

#[test]
fn names_that_differ_in_length_alone() {
    kind("length alone", 2_000, &["sheet ok"], 2_000);
}

#[test]
fn as_many_names_of_24_bytes_as_there_can_be() {
    kind("512 names of 24 bytes", 54, &["sheet ok", "sheet 12"], 18);
}

#[test]
fn names_inside_other_names() {
    kind("one inside another", 1_000, &["sheet ok"], 1_000);
}

#[test]
fn names_at_both_ends_of_the_longest_sheet() {
    kind("both ends of 65,536 bytes", 32, &["sheet ok"], 32);
}

#[test]
fn the_sheets_have_the_names_that_they_should() {
    let mut chance = Chance::new(0x9a3e5);
    for (pool, lengths) in pools(&mut chance).iter().zip(lengths()) {
        assert!(pool.iter().all(|name| bucket(name) == bucket(&pool[0]) && lengths.contains(&name.len())));
        // There are 37,544 names of three bytes.
        assert!(pool.len() == 520 || (lengths == [3] && pool.len() > 30), "{} names of {lengths:?}", pool.len());
    }
    let same_bucket = |(a, b): &(Name, Name)| bucket(a) == bucket(b);
    let apart = |a: &Name, b: &Name| a.iter().zip(b).filter(|(a, b)| a != b).count();
    assert_eq!(places().count(), 300);
    // How often one byte lets names collide is up to the index.
    for (width, least) in [(1, 1), (2, 270), (8, 150)] {
        let near = near_pairs(&mut chance, width);
        assert!(near.iter().all(same_bucket) && near.iter().all(|(a, b)| a.len() == b.len() && (1..=width).contains(&apart(a, b))));
        assert!(near.len() >= least, "{} that differ in {width} bytes", near.len());
    }
    let prefixes = prefix_pairs(&mut chance);
    assert!(prefixes.iter().all(same_bucket) && prefixes.iter().all(|(a, b)| a.len() < b.len() && b.starts_with(a)));
    assert!(prefixes.len() > 250, "{} of 276", prefixes.len());
}

/// Where a sheet of 512 names and one more is refused, for each role and sign of the last one.
#[test]
fn the_513th_name_is_refused_at_its_first_byte() {
    let mut chance = Chance::new(0x513);
    let one_bucket = of_bucket(&mut chance, 77, &[MOST_NAME_BYTES], 513);
    let (words, names, text) = full();
    let mut tally = Tally::default();
    for mut all in longest_names(&mut chance).into_iter().chain([one_bucket]) {
        let other = all.pop().expect("513 names");
        for last in [other, name(&mut chance, 1), name(&mut chance, MOST_NAME_BYTES)] {
            let facts: Vec<u8> = all.iter().flat_map(|name| [&name[..], b"\n"].concat()).collect();
            assert_eq!(facts.len(), 512 * 25);
            // In a line of its own, and after the last fact's head.
            let in_line = [("", 0), ("-", 1)].map(|(before, place)| (facts.clone(), before, place));
            let body = facts[..facts.len() - 1].to_vec();
            let in_body = ["\t", "\t-", "\tx ", "\tx -"].map(|before| before.replace('x', std::str::from_utf8(&all[0]).unwrap()));
            let in_body = in_body.iter().map(|before| (body.clone(), &before[..], before.len()));
            for (sheet, before, place) in in_line.into_iter().chain(in_body) {
                let place = (sheet.len() + place) as u64;
                let sheet = [&sheet[..], before.as_bytes(), &last[..], b"\n"].concat();
                let answer = read_sheet(&sheet, &mut words.clone(), &mut names.clone(), &mut text.clone());
                assert_eq!(answer, Err(Refusal { number: 12, place }));
                compare::sheet(&sheet, &words, &names, &text, &mut tally);
            }
            // All of them again are no 513th name.
            let again: Vec<u8> = all.iter().flat_map(|name| [b"-", &name[..], b"\n"].concat()).collect();
            compare::sheet(&[facts, again].concat(), &words, &names, &text, &mut tally);
        }
    }
    tally.expect(&["sheet ok", "sheet 12"], 12);
}

#[test]
fn nothing_outside_a_sheet_is_read() {
    let mut chance = Chance::new(0x9a6e);
    let mut pages = Pages::default();
    let mut tally = Tally::default();
    let mut compare = |sheet: &[u8]| {
        let lent = Buffers::least(13_824);
        let expected = compare::second_read(sheet, &lent);
        tally.note(if expected.0 < 1 << 32 { "ok" } else { "refused" });
        for behind in [true, false] {
            let mut left = lent.clone();
            let answer = host::sheet(pages.read_only(sheet, behind), &mut left.words, &mut left.names, &mut left.text);
            assert!((answer, left) == expected, "sheet \"{}\"", sheet.escape_ascii());
        }
    };
    for length in 1..=MOST_NAME_BYTES {
        for other in 1..=MOST_NAME_BYTES {
            let (a, b) = (name(&mut chance, length), name(&mut chance, other));
            for sheet in [[&a[..], b"\t", &b].concat(), [&a[..], b"\t", &b, b" ", &a].concat(), [&a[..], b"\n-", &a, b"\n-", &b].concat()] {
                compare(&sheet);
                compare(&[&sheet[..], b"\n"].concat());
            }
        }
    }
    for kind in KINDS.iter().filter(|kind| ["one bucket", "both ends of 65,536 bytes"].contains(&kind.name)) {
        (kind.sheets)().iter().filter(|sheet| sheet.len() < 1_000 || sheet.len() == 65_536).for_each(|sheet| compare(sheet));
    }
    tally.expect(&["ok", "refused"], 1_000);
}

/// Names to draw a few from: those of some buckets, pairs that differ in one byte or of which one goes on after the other.
fn clusters(chance: &mut Chance) -> Vec<Vec<Name>> {
    let lengths: Vec<usize> = (1..=MOST_NAME_BYTES).collect();
    let mut clusters: Vec<Vec<Name>> = [0, 1, 200, 256, 510, 511].map(|bucket| of_bucket(chance, bucket, &lengths, 20)).to_vec();
    clusters.extend([0, 511].map(|bucket| of_bucket(chance, bucket, &[1, 2], 20)).into_iter().filter(|names| !names.is_empty()));
    let pairs = [near_pairs(chance, 1), near_pairs(chance, 2), prefix_pairs(chance)].concat();
    clusters.extend(pairs.into_iter().map(|(a, b)| vec![a, b]));
    clusters
}

/// A few names of one cluster or two.
fn few(chance: &mut Chance, clusters: &[Vec<Name>]) -> Vec<Name> {
    let some = |chance: &mut Chance| {
        let from = if chance.one_in(2) { chance.index(8.min(clusters.len())) } else { chance.index(clusters.len()) };
        (0..chance.between(1, 5)).map(|_| clusters[from][chance.index(clusters[from].len())].clone()).collect::<Vec<Name>>()
    };
    let mut names = some(chance);
    if chance.one_in(2) {
        names.extend(some(chance));
    }
    names
}

/// A literal with one of these names.
fn literal(chance: &mut Chance, names: &[Name]) -> Vec<u8> {
    let sign: &[u8] = if chance.percent(35) { b"-" } else { b"" };
    [sign, &names[chance.index(names.len())]].concat()
}

/// How many literals or groups: mostly few, now and then 64 or just above.
fn many(chance: &mut Chance) -> usize {
    if chance.one_in(200) { chance.of(&[64, 65, 66]) } else { chance.index(4) }
}

/// A small sheet of these names, now and then with a second rule for one head, a byte or a name that cannot stand, or with too many
/// literals or groups.
fn small_sheet(chance: &mut Chance, names: &[Name]) -> Vec<u8> {
    let (mut sheet, mut heads) = (Vec::new(), Vec::new());
    for _ in 0..chance.between(1, 4) {
        let head = literal(chance, names);
        if heads.contains(&head) && chance.percent(80) {
            continue;
        }
        sheet.extend(&head);
        heads.push(head);
        for _ in 0..many(chance) {
            sheet.push(b'\t');
            sheet.extend(literal(chance, names));
            for _ in 1..many(chance) {
                sheet.push(b' ');
                sheet.extend(literal(chance, names));
            }
        }
        sheet.push(b'\n');
    }
    if chance.one_in(8) {
        let at = chance.index(sheet.len());
        match chance.below(4) {
            0 => sheet[at] = random::sheet_byte(chance),
            1 => sheet.truncate(at),
            2 => drop(sheet.splice(at..at, vec![chance.of(BYTES); 24])),
            _ => sheet.insert(at, chance.of(BYTES)),
        }
    }
    sheet
}

#[test]
fn small_sheets_of_few_names() {
    let mut chance = Chance::new(0xfe3);
    let clusters = clusters(&mut chance);
    let (words, names, _) = full();
    let mut tally = Tally::default();
    for _ in 0..cases(150_000) {
        let few = few(&mut chance, &clusters);
        let sheet = small_sheet(&mut chance, &few);
        let room = if chance.one_in(4) { chance.index(100) } else { 300 };
        compare::sheet(&sheet, &words, &names, &vec![7; room], &mut tally);
    }
    tally.expect(&["sheet ok", "sheet 7", "sheet 10", "sheet 11", "sheet 13", "sheet 15"], cases(1_500));
    tally.expect_also(&[(ONLY_IN_BODIES, cases(30_000))]);
}

#[test]
fn small_sheets_of_few_names_through_the_host() {
    let mut chance = Chance::new(0xfe4);
    let clusters = clusters(&mut chance);
    let mut tally = Tally::default();
    for _ in 0..cases(100_000) {
        let few = few(&mut chance, &clusters);
        let sheet = small_sheet(&mut chance, &few);
        let room = if chance.one_in(4) { chance.index(100) } else { 300 };
        compare::host_sheet(&sheet, &Buffers::least(room), chance.of(&BEFORE), &mut tally);
    }
    tally.expect(&["sheet ok", "sheet 7", "sheet 10", "sheet 11", "sheet 13", "sheet 15"], cases(1_000));
    tally.expect_also(&[(ONLY_IN_BODIES, cases(20_000))]);
}

/// Sheets grown from the grammar and damaged, their names as names of one bucket.
#[test]
fn any_sheets_with_names_of_one_bucket() {
    let mut chance = Chance::new(0xfe5);
    let all: Vec<usize> = (1..=MOST_NAME_BYTES).collect();
    let short: Vec<Vec<Name>> = [0, 511, 30].map(|bucket| of_bucket(&mut chance, bucket, &[4, 5], 530)).to_vec();
    let any: Vec<Vec<Name>> = [0, 511, 31].map(|bucket| of_bucket(&mut chance, bucket, &all, 530)).to_vec();
    let mut tally = Tally::default();
    for _ in 0..cases(6_000) {
        let sheet = random::any_sheet(&mut chance);
        // Where there are many literals, long names would be too many bytes.
        let pools = if sheet.len() > 15_000 || chance.one_in(2) { &short } else { &any };
        let sheet = renamed(&sheet, &pools[chance.index(pools.len())]);
        let (words, names) = (random::word_buffer(&mut chance), random::name_buffer(&mut chance));
        let room = random::text_room(&mut chance, &sheet);
        compare::sheet(&sheet, &words, &names, &room, &mut tally);
    }
    let outcomes = [
        "sheet ok", "sheet 7", "sheet 8", "sheet 9", "sheet 10", "sheet 11", "sheet 12", "sheet 13", "sheet 14", "sheet 15",
    ];
    tally.expect(&outcomes, cases(30));
}
