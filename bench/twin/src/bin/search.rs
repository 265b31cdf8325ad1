//! The search alone. Standard input and output are those of the program `searchvectors`: packed
//! guard files with their budgets, and a line with the answer to each.

use std::io::{self, Read, Write};

use twin::{packed, verdict};

fn main() -> io::Result<()> {
    let mut packed = Vec::new();
    io::stdin().read_to_end(&mut packed)?;
    let mut rest = &packed[..];
    let mut out = io::stdout().lock();
    while let Some((file, budget)) = packed::next(&mut rest) {
        writeln!(out, "{}", verdict(file, budget))?;
    }
    out.flush()
}
