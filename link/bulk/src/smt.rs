//! The guards as one SMT-LIB 2 script, for a solver of other people in one process.

use crate::files::Maker;
use crate::{of_file, Options};
use guarddesk::raw::{decide_into, ANSWER_LENGTH, PLACES_LENGTH, ROWS_LENGTH, SAT, UNSAT};
use oracle::guard::Limits;
use oracle::read::read;
use oracle::smt::scoped;
use oracle::vectors::hex;
use std::io::{self, BufWriter, Write};

/// Prints each guard with an `echo` of the library's verdict and the file before it.
pub fn print(options: &Options) -> io::Result<()> {
    let maker = Maker::default();
    let mut rows = [0; ROWS_LENGTH];
    let mut places = [0; PLACES_LENGTH];
    let mut answer = [0; ANSWER_LENGTH];
    let mut out = BufWriter::new(io::stdout().lock());
    writeln!(out, "(set-option :timeout 20000)\n(set-logic ALL)")?;
    for number in 0..options.files {
        let file = maker.make(&mut of_file(options.seed, number));
        let Ok(guard) = read(&file, Limits::BASE) else {
            continue;
        };
        decide_into(&file, options.limit, &mut rows, &mut places, &mut answer);
        let verdict = match answer[0] {
            SAT => "sat",
            UNSAT => "unsat",
            _ => continue,
        };
        writeln!(out, "(echo \"{verdict} {}\")", hex(&file))?;
        write!(out, "{}", scoped(&guard, &format!("g{number}")))?;
    }
    out.flush()
}
