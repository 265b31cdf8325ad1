//! A much simpler opinion on tiny guards: try all small messages.

mod messages;

use messages::{holds, small_messages, tiny, value, Message};
use oracle::answer::{answer, Answer};
use oracle::guard::{Guard, Limits, Row};
use oracle::random::{draft, Random};
use oracle::read::read;

/// Gives the remaining rows values, trying each small message for a variable.
fn some_model(guard: &Guard, small: &[Vec<Message>], values: &mut Vec<Message>) -> bool {
    let row = values.len();
    if row == guard.rows.len() {
        return guard.lines.iter().all(|line| holds(line, values));
    }
    let known = value(guard, row, values);
    let tried = match &known {
        Some(value) => std::slice::from_ref(value),
        None => &small[guard.row_types[row]],
    };
    tried.iter().any(|message| {
        values.push(message.clone());
        let found = some_model(guard, small, values);
        values.truncate(row);
        found
    })
}

#[test]
fn small_models_agree_with_the_search() {
    let profiles = [
        tiny([3, 1, 2, 4], [3, 4, 1, 1]),
        tiny([1, 1, 4, 5], [6, 4, 1, 2]),
        tiny([1, 0, 0, 3], [4, 1, 1, 3]),
    ];
    let mut random = Random::named("brute force");
    let (mut found, mut missed, mut none) = (0, 0, 0);
    for round in 0..900 {
        let file = draft(&mut random, &profiles[round % profiles.len()]).bytes();
        let guard = read(&file, Limits::BASE).expect("random guards are accepted");
        let variables = guard
            .rows
            .iter()
            .filter(|row| matches!(row, Row::Variable { .. }));
        if variables.count() > 3 {
            continue;
        }
        let model = some_model(&guard, &small_messages(&guard), &mut Vec::new());
        match answer(&file, u32::MAX, Limits::BASE) {
            Answer::Sat { .. } if model => found += 1,
            Answer::Sat { .. } => missed += 1,
            other => {
                assert!(!model, "{other}, but a model exists: {file:02x?}");
                none += 1;
            }
        }
    }
    // Small messages are enough for nearly all of these guards.
    assert!(found > 200 && none > 200, "{found} found, {none} without");
    assert!(missed * 20 < found, "{missed} missed, {found} found");
}
