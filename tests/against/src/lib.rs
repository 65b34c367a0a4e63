//! The proved engine held against the second implementation.
//!
//! `entries` and `sheets` reach the engine through `tests/probe.h`, `host` through the host's entries; they are safe, keep
//! guards around every lent buffer (`guard`) and hide no refusal; `pages` shows that nothing outside is read. `compare` asks both
//! sides about one table or one sheet, and `trace` replays lists of calls on both; what they differ on is shrunk. `index_tables` has
//! tables that are awkward for an index of literals, `names` and `name_sheets` names and sheets that are so for an index of names;
//! `lookup` reads a sheet with any such index. `cases` counts what the random tests have met, `tables` and `records` what they were
//! lent.

pub mod cases;
pub mod compare;
pub mod entries;
pub mod guard;
pub mod host;
pub mod index_tables;
pub mod lookup;
pub mod name_sheets;
pub mod names;
pub mod pages;
pub mod records;
pub mod sheets;
pub mod shrink;
pub mod tables;
pub mod trace;
