//! The whole call as a program, with the input and output of `guarddesk`.

use std::io::{self, BufWriter, Read, Write};

use twin::{decide, read, Answer, PLACES_LENGTH, ROWS_LENGTH};

fn main() -> io::Result<()> {
    let mut file = Vec::new();
    io::stdin().take(1_024).read_to_end(&mut file)?;
    let mut rows = [0; ROWS_LENGTH];
    let mut places = [0; PLACES_LENGTH];
    let answer = decide(&file, 1_000_000, &mut rows, &mut places);
    let mut out = BufWriter::new(io::stdout().lock());
    writeln!(out, "{}", answer.line_one())?;
    if let Answer::Sat { rows: many, .. } = answer {
        show(&mut out, &file, &rows[..4 * many as usize], &places)?;
    }
    out.flush()
}

/// Each row, and each term with its row. How many parts a row has isn't in the row.
fn show(out: &mut impl Write, file: &[u8], rows: &[i32], places: &[i32]) -> io::Result<()> {
    let Ok(guard) = read(file) else { return Ok(()) };
    for (i, row) in rows.chunks_exact(4).enumerate() {
        if row[0] < 0 {
            let value = i64::from(row[2]) << 32 | i64::from(row[1] as u32);
            writeln!(out, "row {i} type {} number {value}", -1 - row[0])?;
            continue;
        }
        let (ty, variant) = (row[0] / 16, row[0] % 16);
        write!(out, "row {i} type {ty} variant {variant}")?;
        let many = guard.fields(ty as u8, variant as u8).len();
        for (p, part) in row[1..=many].iter().enumerate() {
            write!(out, "{} {part}", if p == 0 { " parts" } else { "" })?;
        }
        writeln!(out)?;
    }
    for (term, place) in places[..guard.rows.len()].iter().enumerate() {
        writeln!(out, "term {term} row {place}")?;
    }
    Ok(())
}
