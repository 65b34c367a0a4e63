//! The host's entries, over bytes.

unsafe extern "C" {
    fn simmerknot_evaluate(n: u64, table: *const u8, table_len: usize, values: *mut u8, values_len: usize) -> u64;
    fn simmerknot_conflict(n: u64, table: *const u8, table_len: usize) -> u64;
    fn simmerknot_reasons(n: u64, table: *const u8, table_len: usize, text: *mut u8, text_len: usize) -> u64;

    fn simmerknot_check_reasons(
        n: u64,
        table: *const u8,
        table_len: usize,
        values: *const u8,
        values_len: usize,
        text: *const u8,
        text_len: usize,
    ) -> u64;

    fn simmerknot_sheet(
        sheet: *const u8,
        sheet_len: usize,
        words: *mut u8,
        words_len: usize,
        names: *mut u8,
        names_len: usize,
        text: *mut u8,
        text_len: usize,
    ) -> u64;
}

/// Evaluation, lent these very slices.
pub fn evaluate(n: u64, table: &[u8], values: &mut [u8]) -> u64 {
    unsafe { simmerknot_evaluate(n, table.as_ptr(), table.len(), values.as_mut_ptr(), values.len()) }
}

/// Evaluation with pointers that may be null where the length is 0.
pub fn evaluate_nulls(n: u64) -> u64 {
    unsafe { simmerknot_evaluate(n, std::ptr::null(), 0, std::ptr::null_mut(), 0) }
}

/// The question of conflict, lent this very slice.
pub fn conflict(n: u64, table: &[u8]) -> u64 {
    unsafe { simmerknot_conflict(n, table.as_ptr(), table.len()) }
}

/// The question of conflict with a null pointer for an empty table.
pub fn conflict_null(n: u64) -> u64 {
    unsafe { simmerknot_conflict(n, std::ptr::null(), 0) }
}

/// The writer of a reason sheet, lent these very slices.
pub fn reasons(n: u64, table: &[u8], text: &mut [u8]) -> u64 {
    unsafe { simmerknot_reasons(n, table.as_ptr(), table.len(), text.as_mut_ptr(), text.len()) }
}

/// The writer of a reason sheet with null pointers for an empty table and no room.
pub fn reasons_nulls(n: u64) -> u64 {
    unsafe { simmerknot_reasons(n, std::ptr::null(), 0, std::ptr::null_mut(), 0) }
}

/// The check of a reason sheet, lent these very slices.
pub fn check_reasons(n: u64, table: &[u8], values: &[u8], text: &[u8]) -> u64 {
    let (t, v, x) = (table.len(), values.len(), text.len());
    unsafe { simmerknot_check_reasons(n, table.as_ptr(), t, values.as_ptr(), v, text.as_ptr(), x) }
}

/// The check of a reason sheet with null pointers for an empty table, no values and the empty text.
pub fn check_reasons_nulls(n: u64) -> u64 {
    unsafe { simmerknot_check_reasons(n, std::ptr::null(), 0, std::ptr::null(), 0, std::ptr::null(), 0) }
}

/// The sheet entry, lent these very slices.
pub fn sheet(sheet: &[u8], words: &mut [u8], names: &mut [u8], text: &mut [u8]) -> u64 {
    let (w, n, t) = (words.len(), names.len(), text.len());
    let (words, names, text) = (words.as_mut_ptr(), names.as_mut_ptr(), text.as_mut_ptr());
    unsafe { simmerknot_sheet(sheet.as_ptr(), sheet.len(), words, w, names, n, text, t) }
}

/// The sheet entry with null pointers for the sheet and for every buffer that is empty.
pub fn sheet_nulls(words: &mut [u8], names: &mut [u8]) -> u64 {
    let lend = |row: &mut [u8]| if row.is_empty() { std::ptr::null_mut() } else { row.as_mut_ptr() };
    let (w, n) = (words.len(), names.len());
    let (words, names) = (lend(words), lend(names));
    unsafe { simmerknot_sheet(std::ptr::null(), 0, words, w, names, n, std::ptr::null_mut(), 0) }
}
