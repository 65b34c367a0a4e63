//! Values and truth tables.

use crate::refusal::{Refusal, TRUTH_CODE_ABOVE_3, refuse};

pub const F: u8 = 0;
pub const U: u8 = 1;
pub const I: u8 = 2;
pub const T: u8 = 3;

/// Rows the body, columns the head.
pub const IMPLICATION: [[u8; 4]; 4] = [
    [T, T, T, T], // body f
    [T, T, T, T], // body u
    [F, F, T, F], // body i
    [F, F, T, T], // body t
];

/// The letter of a value, for the value sheet.
pub fn letter(value: u8) -> u8 {
    match value {
        F => b'f',
        U => b'u',
        I => b'i',
        _ => b't',
    }
}

fn code(handed: u64) -> Result<u8, Refusal> {
    match handed {
        0 => Ok(F),
        1 => Ok(U),
        2 => Ok(I),
        3 => Ok(T),
        _ => refuse(TRUTH_CODE_ABOVE_3, 0),
    }
}

pub fn and(left: u64, right: u64) -> Result<u8, Refusal> {
    Ok(code(left)?.min(code(right)?))
}

pub fn or(left: u64, right: u64) -> Result<u8, Refusal> {
    Ok(code(left)?.max(code(right)?))
}

pub fn not(value: u64) -> Result<u8, Refusal> {
    Ok(match code(value)? {
        F => T,
        T => F,
        same => same,
    })
}

pub fn implies(body: u64, head: u64) -> Result<u8, Refusal> {
    let (body, head) = (code(body)?, code(head)?);
    Ok(IMPLICATION[body as usize][head as usize])
}
