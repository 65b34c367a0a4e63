//! Simmerknot once more, written from documents 01 and 02 alone, to compare the engine with.
//!
//! One file for each section of document 01, from the bottom up, W1 to W6 of document 02 taken in (of W5's writer what it refuses):
//! `refusal` (the numbers), `truth` (values and truth tables), `table` (the word table), `model` (which group of a body is wholly in a set,
//! Held, Clean, evaluation and the question of conflict), `marking` (the mark record and picks), `reader` and `sheet` (rule sheet and value
//! sheet), `reasons` (the reason sheet and its check), `program` and `host`.
//!
//! Beside them: `judge` (Definitions 5, 6, 8 and 9 by brute force), `random` (seeded generators) and `tables` (P1 to P12
//! and the tables to measure on).

pub mod host;
pub mod judge;
pub mod marking;
pub mod model;
pub mod program;
pub mod random;
pub mod reader;
pub mod reasons;
pub mod refusal;
pub mod sheet;
pub mod table;
pub mod tables;
pub mod truth;
