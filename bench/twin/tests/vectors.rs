//! All vectors through the whole call, checked by the outside solver: verdicts, node counts, splits, messages, and every number
//! of both buffers.

use oracle::answer::line_one;
use oracle::guard::Limits;
use oracle::read;
use oracle::shown::check_shown;
use oracle::vectors;
use twin::{decide, Answer, PLACES_LENGTH, ROWS_LENGTH};

/// No number of an answer; buffers longer than they need be are full of it.
const NOISE: i32 = 1_000_000_007;

#[test]
fn all_vectors() {
    let text = concat!(env!("CARGO_MANIFEST_DIR"), "/../../vectors/vectors.txt");
    let text = std::fs::read_to_string(text).expect("the vectors");
    for vector in vectors::parse(&text).expect("the vectors") {
        let mut rows = vec![NOISE; ROWS_LENGTH + 5];
        let mut places = vec![NOISE; PLACES_LENGTH + 5];
        let answer = decide(&vector.file, vector.budget, &mut rows, &mut places);
        assert_eq!(answer.to_string(), vector.answer, "{}", vector.name);
        assert_eq!(answer.line_one(), line_one(&vector.answer));
        let right = match (answer, read::read(&vector.file, Limits::BASE)) {
            (Answer::Sat { rows: many, .. }, Ok(guard)) => {
                check_shown(&guard, many as usize, &rows, &places)
            }
            _ => rows
                .iter()
                .chain(&places)
                .all(|&number| number == 0)
                .then_some(())
                .ok_or("not cleared".into()),
        };
        assert_eq!(right, Ok(()), "{}", vector.name);
    }
}

#[test]
fn short_buffers() {
    for (rows, places) in [
        (ROWS_LENGTH - 1, PLACES_LENGTH),
        (ROWS_LENGTH, PLACES_LENGTH - 1),
    ] {
        let (mut rows, mut places) = (vec![NOISE; rows], vec![NOISE; places]);
        let answer = decide(&[0, 0, 0], 1, &mut rows, &mut places);
        assert_eq!(answer, Answer::Refused { question: 1 });
        assert!(rows.iter().chain(&places).all(|&number| number == 0));
    }
}
