//! Rule sheet, the reader: one literal at a time, from any place.

use crate::refusal::*;

/// Where a literal stands in its line, told by the byte before it.
#[derive(Clone, Copy, Debug, PartialEq, Eq)]
pub enum Role {
    Head,
    First,
    Further,
}

/// A literal of the sheet; its name without "-".
#[derive(Clone, Copy, Debug, PartialEq, Eq)]
pub struct SheetLiteral {
    pub negated: bool,
    pub name_place: u64,
    pub name_length: u64,
    pub role: Role,
}

impl SheetLiteral {
    /// The literal's first byte, "-" included.
    pub fn place(&self) -> u64 {
        if self.negated { self.name_place - 1 } else { self.name_place }
    }
}

#[derive(Clone, Copy, Debug, PartialEq, Eq)]
pub enum Reading {
    End,
    Refused(Refusal),
    Literal(SheetLiteral),
}

/// The sheet and the place reached in it.
#[derive(Clone, Copy, Debug, PartialEq, Eq)]
pub struct Reader<'a> {
    pub sheet: &'a [u8],
    pub place: u64,
}

impl<'a> Reader<'a> {
    pub fn new(sheet: &'a [u8]) -> Self {
        Reader { sheet, place: 0 }
    }

    /// The next reading; after the end or a refusal the same one again.
    pub fn next_reading(&mut self) -> Reading {
        let (reading, place) = reading(self.sheet, self.place);
        self.place = place;
        reading
    }
}

/// The reading at a place, and the place where the next one goes on.
pub fn reading(sheet: &[u8], place: u64) -> (Reading, u64) {
    match read(sheet, place) {
        Ok(Some((literal, next))) => (Reading::Literal(literal), next),
        Ok(None) => (Reading::End, place),
        Err(refusal) => (Reading::Refused(refusal), place),
    }
}

pub fn starts_name(byte: u8) -> bool {
    byte.is_ascii_lowercase()
}

pub fn continues_name(byte: u8) -> bool {
    byte.is_ascii_lowercase() || byte.is_ascii_digit() || byte == b'_' || byte == b'.'
}

/// The literal at a place and the place after the byte that ends it; nothing at the end.
fn read(sheet: &[u8], place: u64) -> Result<Option<(SheetLiteral, u64)>, Refusal> {
    if sheet.len() > MOST_SHEET_BYTES {
        return refuse(SHEET_ABOVE_65536, 0);
    }
    if place > sheet.len() as u64 {
        return refuse(BYTE_CANNOT_STAND, sheet.len());
    }
    let start = place as usize;
    let role = match sheet[..start].last() {
        None | Some(b'\n') => Role::Head,
        Some(b'\t') => Role::First,
        Some(b' ') => Role::Further,
        Some(_) => return refuse(BYTE_CANNOT_STAND, start),
    };
    if role == Role::Head && start == sheet.len() {
        return Ok(None);
    }
    let negated = sheet.get(start) == Some(&b'-');
    let name = if negated { start + 1 } else { start };
    if !sheet.get(name).is_some_and(|&byte| starts_name(byte)) {
        return refuse(BYTE_CANNOT_STAND, name);
    }
    let length = sheet[name..].iter().take_while(|&&byte| continues_name(byte)).count();
    if length > MOST_NAME_BYTES {
        return refuse(NAME_ABOVE_24, name + MOST_NAME_BYTES);
    }
    let after = name + length;
    match sheet.get(after) {
        Some(b'\t' | b'\n') => {}
        Some(b' ') if role != Role::Head => {}
        _ => return refuse(BYTE_CANNOT_STAND, after),
    }
    let literal = SheetLiteral {
        negated,
        name_place: name as u64,
        name_length: length as u64,
        role,
    };
    Ok(Some((literal, after as u64 + 1)))
}
