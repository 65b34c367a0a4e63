//! Seeded generators: tables, records, sets, sheets, reason sheets, places and buffers, accepted ones and ones damaged in each numbered
//! way.
//!
//! Everything is drawn from a `Chance`; the same seed gives the same things on every machine, so a failing test only has to
//! print its seed. A generator named `any_..` mixes accepted and damaged things in numbers that let both be met.

mod buffers;
mod chance;
mod drafts;
mod reasons;
mod records;
mod sets;
mod sheets;
mod tables;

pub use buffers::*;
pub use chance::*;
pub use drafts::*;
pub use reasons::*;
pub use records::*;
pub use sets::*;
pub use sheets::*;
pub use tables::*;
