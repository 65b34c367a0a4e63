//! Rule sheets damaged in each numbered way, sheets of any kind, and places in them.

use std::collections::BTreeSet;

use crate::random::drafts::draft_literal;
use crate::random::*;
use crate::refusal::*;
use crate::sheet::{Name, contents};
use crate::table::atom_of;

/// The ways in which `damaged_sheet` damages a sheet.
#[derive(Clone, Copy, Debug, PartialEq, Eq)]
pub enum SheetDamage {
    TooLong,
    BadByte,
    CutEnd,
    EmptyLine,
    EmptyField,
    SpaceAfterHead,
    DoubleSpace,
    DoubleDash,
    LongName,
    TooManyNames,
    SecondHead,
    TooManyGroups,
    TooManyLiterals,
    TooManyWords,
}

pub const SHEET_DAMAGES: [SheetDamage; 14] = [
    SheetDamage::TooLong,
    SheetDamage::BadByte,
    SheetDamage::CutEnd,
    SheetDamage::EmptyLine,
    SheetDamage::EmptyField,
    SheetDamage::SpaceAfterHead,
    SheetDamage::DoubleSpace,
    SheetDamage::DoubleDash,
    SheetDamage::LongName,
    SheetDamage::TooManyNames,
    SheetDamage::SecondHead,
    SheetDamage::TooManyGroups,
    SheetDamage::TooManyLiterals,
    SheetDamage::TooManyWords,
];

impl SheetDamage {
    /// The number by which a sheet damaged in this way alone is refused.
    pub fn number(self) -> u32 {
        match self {
            SheetDamage::TooLong => SHEET_ABOVE_65536,
            SheetDamage::LongName => NAME_ABOVE_24,
            SheetDamage::TooManyNames => NAME_513,
            SheetDamage::SecondHead => SECOND_RULE_FOR_HEAD,
            SheetDamage::TooManyGroups | SheetDamage::TooManyLiterals => GROUP_OR_LITERAL_65,
            SheetDamage::TooManyWords => WORDS_PASS_8192,
            _ => BYTE_CANNOT_STAND,
        }
    }
}

/// Bytes that stand in no sheet.
const BAD_BYTES: &[u8] = b"\0\r#AZ|[]=\x0b\x1f\x7f\x80\xff/:`{";

/// A sheet damaged in one way; with faults that stand late, the part before them is accepted.
pub fn damaged_sheet(chance: &mut Chance, damage: SheetDamage) -> Vec<u8> {
    let mut base = draft(chance);
    if base.lines.is_empty() {
        let head = draft_literal(chance, base.names.len());
        base.lines.push(DraftLine { head, groups: Vec::new() });
    }
    let sheet = base.sheet();
    match damage {
        SheetDamage::TooLong => {
            let length = chance.of(&[65_537, 65_538, 70_000, 131_072]);
            sheet.iter().copied().cycle().take(length).collect()
        }
        SheetDamage::BadByte => {
            let mut sheet = sheet;
            let at = chance.index(sheet.len());
            sheet[at] = chance.of(BAD_BYTES);
            sheet
        }
        SheetDamage::CutEnd => {
            let mut sheet = sheet;
            // The byte before the cut is not the end of a line.
            let cuts: Vec<usize> = (1..sheet.len()).filter(|&at| sheet[at - 1] != b'\n').collect();
            sheet.truncate(chance.of(&cuts));
            sheet
        }
        SheetDamage::EmptyLine => doubled(chance, sheet, b'\n'),
        SheetDamage::EmptyField => {
            if chance.one_in(2) {
                doubled(chance, sheet, b'\t')
            } else {
                inserted(chance, sheet, |sheet, at| sheet[at] == b'\n', b'\t')
            }
        }
        SheetDamage::SpaceAfterHead => {
            let mut sheet = sheet;
            let heads: Vec<usize> = (0..sheet.len()).filter(|&at| at == 0 || sheet[at - 1] == b'\n').collect();
            let start = chance.of(&heads);
            let end = (start..sheet.len()).find(|&at| matches!(sheet[at], b'\t' | b'\n'));
            sheet[end.expect("each line ends")] = b' ';
            sheet
        }
        SheetDamage::DoubleSpace => doubled(chance, sheet, b' '),
        SheetDamage::DoubleDash => {
            let before_name = |sheet: &[u8], at: usize| {
                sheet[at] == b'-' || (at > 0 && sheet[at - 1] == b'-') || (at > 0 && sheet[at - 1].is_ascii_lowercase())
            };
            inserted(chance, sheet, before_name, b'-')
        }
        SheetDamage::LongName => {
            let mut sheet = sheet;
            let is_name = |byte: u8| crate::reader::continues_name(byte);
            let ends: Vec<usize> =
                (1..sheet.len()).filter(|&at| is_name(sheet[at - 1]) && !is_name(sheet[at])).collect();
            let at = chance.of(&ends);
            let more = chance.of(&[24, 25, 40, 300]);
            sheet.splice(at..at, vec![chance.of(b"a0_."); more]);
            sheet
        }
        SheetDamage::TooManyNames => many_names(chance),
        SheetDamage::SecondHead => {
            let mut base = base;
            let first = chance.index(base.lines.len());
            let again = chance.between(first as u64 + 1, base.lines.len() as u64) as usize;
            let mut line = base.lines[first].clone();
            if chance.one_in(2) {
                line.groups.clear();
            }
            base.lines.insert(again, line);
            base.sheet()
        }
        SheetDamage::TooManyGroups => {
            let literal = draft_literal(chance, base.names.len());
            let count = chance.of(&[65, 66, 80]);
            base.lines = vec![DraftLine { head: base.lines[0].head, groups: vec![vec![literal]; count] }];
            base.sheet()
        }
        SheetDamage::TooManyLiterals => {
            let literal = draft_literal(chance, base.names.len());
            let before = chance.index(4);
            let mut groups = vec![vec![literal]; before];
            groups.push(vec![literal; chance.of(&[65, 66, 80])]);
            base.lines = vec![DraftLine { head: base.lines[0].head, groups }];
            base.sheet()
        }
        SheetDamage::TooManyWords => too_many_words(chance).sheet(),
    }
}

/// A draft whose last literal passes 8,192 words: a head, the first of a group or a further one.
fn too_many_words(chance: &mut Chance) -> Draft {
    // The words left for the last line, and the literals of its group.
    let (left, literals) = chance.of(&[(0, 0), (1, 0), (2, 0), (3, 1), (4, 1), (5, 2)]);
    let mut draft = full_draft(chance, MOST_WORDS - left);
    let head = DraftLiteral { negated: chance.one_in(2), name: draft.names.len() };
    let group = vec![head; literals];
    draft.names.push(b"new".to_vec());
    draft.lines.push(DraftLine { head, groups: if literals == 0 { Vec::new() } else { vec![group] } });
    draft
}

/// One such byte of the sheet twice; if it has none, one is put in front.
fn doubled(chance: &mut Chance, mut sheet: Vec<u8>, byte: u8) -> Vec<u8> {
    let places: Vec<usize> = (0..sheet.len()).filter(|&at| sheet[at] == byte).collect();
    let at = if places.is_empty() { 0 } else { chance.of(&places) };
    sheet.insert(at, byte);
    sheet
}

/// The byte put in at one of the places that qualify; if there are none, it is put in front twice.
fn inserted(chance: &mut Chance, mut sheet: Vec<u8>, qualifies: impl Fn(&[u8], usize) -> bool, byte: u8) -> Vec<u8> {
    let places: Vec<usize> = (0..sheet.len()).filter(|&at| qualifies(&sheet, at)).collect();
    if places.is_empty() {
        sheet.splice(0..0, [byte, byte]);
    } else {
        sheet.insert(chance.of(&places), byte);
    }
    sheet
}

/// A sheet with 513 names or a few more, the last ones in any role.
fn many_names(chance: &mut Chance) -> Vec<u8> {
    let count = chance.between(513, 520) as usize;
    let names = names(chance, count);
    let mut lines = Vec::new();
    let mut next = 0;
    while next < count {
        let mut take = |chance: &mut Chance, most: u64| -> Vec<DraftLiteral> {
            let k = (chance.between(1, most) as usize).min(count - next);
            next += k;
            (next - k..next).map(|name| DraftLiteral { negated: chance.percent(35), name }).collect()
        };
        let head = take(chance, 1)[0];
        let groups = (0..chance.below(4)).map(|_| take(chance, 6)).filter(|group| !group.is_empty()).collect();
        lines.push(DraftLine { head, groups });
    }
    Draft { names, lines }.sheet()
}

/// A sheet accepted about half the time, else damaged in one way, altered by a byte anywhere, or bytes at random.
pub fn any_sheet(chance: &mut Chance) -> Vec<u8> {
    match chance.below(20) {
        0..=8 => accepted_sheet(chance),
        9..=15 => {
            let damage = chance.of(&SHEET_DAMAGES);
            damaged_sheet(chance, damage)
        }
        16 | 17 => {
            let mut sheet = accepted_sheet(chance);
            for _ in 0..chance.between(1, 2) {
                if !sheet.is_empty() {
                    let at = chance.index(sheet.len());
                    match chance.below(3) {
                        0 => sheet[at] = sheet_byte(chance),
                        1 => sheet.insert(at, sheet_byte(chance)),
                        _ => drop(sheet.remove(at)),
                    }
                }
            }
            sheet
        }
        18 => {
            let length = chance.index(30);
            (0..length).map(|_| sheet_byte(chance)).collect()
        }
        _ => {
            let length = chance.index(30);
            chance.bytes(length)
        }
    }
}

/// The names of a sheet that head a rule in either sign, and those that stand only in bodies; none of a sheet that is refused.
pub fn heads_and_others(sheet: &[u8]) -> (Vec<Name>, Vec<Name>) {
    let Ok(contents) = contents(sheet) else { return (Vec::new(), Vec::new()) };
    let headed: BTreeSet<usize> = contents.records.iter().map(|record| atom_of(record.rule.head)).collect();
    let (heads, others): (Vec<_>, Vec<_>) = contents.names.into_iter().enumerate().partition(|(atom, _)| headed.contains(atom));
    let names = |numbered: Vec<(usize, Name)>| numbered.into_iter().map(|(_, name)| name).collect();
    (names(heads), names(others))
}

/// The words of the literals of a sheet, with so many counted for a head.
pub fn word_count(sheet: &[u8], for_a_head: usize) -> usize {
    let parts = |line: &[u8]| line.split(|byte| b"\t ".contains(byte)).count();
    let groups = |line: &[u8]| line.iter().filter(|&&byte| byte == b'\t').count();
    let words = |line: &[u8]| for_a_head + parts(line) - 1 + groups(line);
    sheet.split(|&byte| byte == b'\n').filter(|line| !line.is_empty()).map(words).sum()
}

/// The bytes that the value lines of these names take.
pub fn lines_length(names: &[Name]) -> usize {
    names.iter().map(|name| name.length + 3).sum()
}

/// A byte that stands in sheets, or nearly does.
pub fn sheet_byte(chance: &mut Chance) -> u8 {
    if chance.one_in(12) { chance.of(BAD_BYTES) } else { chance.of(b"abz09_.-\t \n\n\t") }
}

/// A place to read at: half the time where a literal may start, else anywhere in the sheet, at its edge, or far beyond.
pub fn any_place(chance: &mut Chance, sheet: &[u8]) -> u64 {
    let length = sheet.len() as u64;
    if chance.one_in(6) {
        return awkward_number(chance, length);
    }
    let at = chance.below(length + 1);
    if chance.one_in(3) {
        return at;
    }
    let starts = |place: &u64| *place == 0 || b"\n\t ".contains(&sheet[*place as usize - 1]);
    (at..=length).find(starts).unwrap_or(length)
}
