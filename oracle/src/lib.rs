//! A second, separately written solver for guard files.
//!
//! It is written from document 01 and requests #101, #102, #104, #105, #107, #108,
//! #110, #111, #113 and #114 of document 02 alone, and favours plain code over speed: the
//! closure is
//! saturated from scratch at every node of the search. It gives the expected
//! answers of the test vectors, checks printed answers, writes guard files from
//! lists of numbers, merges two guard files, stores files by column and restores them,
//! and searches in any order.
//!
//! Words: document 01's sister field is a sibling field here, a class that is
//! a part of itself is a cycle, and "the walk" is the search.

pub mod answer;
pub mod branch;
pub mod closure;
pub mod columns;
pub mod encode;
pub mod guard;
pub mod list;
pub mod merge;
pub mod number;
pub mod order;
pub mod problem;
pub mod random;
pub mod read;
pub mod record;
pub mod search;
pub mod shown;
pub mod smt;
pub mod summary;
pub mod tables;
pub mod text;
pub mod types;
pub mod vectors;
