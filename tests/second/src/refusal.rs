//! Numbers of refusal.

/// Why something was not done, and where.
#[derive(Clone, Copy, Debug, PartialEq, Eq, PartialOrd, Ord)]
pub struct Refusal {
    pub number: u32,
    pub place: u64,
}

pub const N_ABOVE_512: u32 = 1;
pub const TABLE_ABOVE_8192: u32 = 2;
pub const VALUE_ROOM_BELOW_N: u32 = 3;
pub const RECORD_CUT_SHORT: u32 = 4;
pub const LITERAL_NOT_BELOW_2N: u32 = 5;
pub const COUNT_OR_LINE_OUT_OF_RANGE: u32 = 6;
pub const SECOND_RULE_FOR_HEAD: u32 = 7;
pub const SHEET_ABOVE_65536: u32 = 8;
pub const BUFFER_TOO_SMALL: u32 = 9;
pub const BYTE_CANNOT_STAND: u32 = 10;
pub const NAME_ABOVE_24: u32 = 11;
pub const NAME_513: u32 = 12;
pub const GROUP_OR_LITERAL_65: u32 = 13;
pub const WORDS_PASS_8192: u32 = 14;
pub const TEXT_ROOM_TOO_SMALL: u32 = 15;
pub const ATOM_NOT_BELOW_N: u32 = 16;
/// A mark at N or above, or a stored count that is not the number of marks.
pub const BROKEN_RECORD: u32 = 17;
pub const NOT_SETTLED: u32 = 18;
pub const TRUTH_CODE_ABOVE_3: u32 = 20;
pub const TEXT_BROKEN: u32 = 21;
pub const LINE_WRONG: u32 = 22;
pub const VALUES_NOT_A_MODEL: u32 = 34;

pub const MOST_ATOMS: u64 = 512;
pub const MOST_WORDS: usize = 8192;
pub const MOST_LINE: usize = 32_768;
pub const MOST_GROUPS: usize = 64;
pub const MOST_LITERALS: usize = 64;
pub const MOST_SHEET_BYTES: usize = 65_536;
pub const MOST_NAME_BYTES: usize = 24;
pub const MOST_RANK: usize = 1023;

/// A refusal as the answer of a function.
pub fn refuse<T>(number: u32, place: usize) -> Result<T, Refusal> {
    Err(Refusal {
        number,
        place: place as u64,
    })
}
