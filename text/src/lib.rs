//! Guards as text with names: to guard files and back, and the desk's answers in the
//! author's names. `README.md` has the language.

#![warn(missing_debug_implementations, unreachable_pub)]

pub mod both;
pub mod branches;
pub mod check;
pub mod decode;
pub mod desk;
pub mod encode;
pub mod guard;
pub mod lex;
pub mod parse;
pub mod refusals;
pub mod show;
pub mod types;
pub mod write;

use check::Source;
use lex::Fault;

/// Reads a text: its guard, its names, and where each thing of it stands.
pub fn read(text: &str) -> Result<Source, Fault> {
    check::check(&parse::parse(&lex::lex(text)?)?)
}
