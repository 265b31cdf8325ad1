//! All vectors of the repository through the library: verdicts, node counts and splits, records, what the checker says of others, files
//! written from lists, merged files and files by column are those of the outside solver; and the records that the library writes are
//! accepted.
use guarddesk::{check, decide, explain, load, merge, raw, restore, store, write};
use guarddesk::{Answer, Branch, MergeRefusal, Question, Refusal, StoreRefusal};

const VECTORS: &str = concat!(env!("CARGO_MANIFEST_DIR"), "/../../vectors");

fn bytes(hex: &str) -> Vec<u8> {
    let digits = if hex == "-" { "" } else { hex };
    (0..digits.len())
        .step_by(2)
        .map(|i| u8::from_str_radix(&digits[i..i + 2], 16).unwrap())
        .collect()
}

/// Calls `each` with the columns of each line; there are more lines than `many`.
fn for_each_line<const N: usize>(file: &str, many: usize, each: impl Fn([&str; N])) {
    let text = std::fs::read_to_string(format!("{VECTORS}/{file}")).unwrap();
    let lines = text.lines().filter(|line| !line.starts_with('#'));
    let columns = lines.map(|line| line.split('\t').collect::<Vec<_>>().try_into().expect(line));
    assert!(columns.map(each).count() > many, "{file}");
}

/// The splits of either kind; a refusal has none.
fn splits(answer: &Answer) -> Option<(u32, u32)> {
    match *answer {
        Answer::Refused { .. } => None,
        Answer::Sat {
            first_splits,
            second_splits,
            ..
        }
        | Answer::Unsat {
            first_splits,
            second_splits,
            ..
        }
        | Answer::Spent {
            first_splits,
            second_splits,
            ..
        } => Some((first_splits, second_splits)),
    }
}

fn decide_all() {
    for_each_line("vectors.txt", 2000, |[name, budget, hex, expected]| {
        let answer = decide(&bytes(hex), budget.parse().unwrap());
        let text = answer.to_string();
        let mut line = text.lines().next().unwrap_or_default().to_string();
        if let Some((first, second)) = splits(&answer) {
            line += &format!(" splits {first} {second}");
        }
        assert_eq!(line, expected, "{name}");
    });
}

/// The loader's answers: over buffers of the lengths given, and where these are long enough by the easier call.
fn load_all() {
    for_each_line(
        "loads.txt",
        900,
        |[name, budget, rows, places, hex, expected]| {
            let (file, budget) = (bytes(hex), budget.parse().unwrap());
            let (rows, places): (usize, usize) = (rows.parse().unwrap(), places.parse().unwrap());
            let (mut rows, mut places) = (vec![7; rows], vec![7; places]);
            let mut answer = [7; raw::ANSWER_LENGTH];
            let code = raw::load_into(&file, budget, &mut rows, &mut places, &mut answer);
            assert_eq!(code, raw::ANSWERED, "{name}");
            let [verdict, number, many, first, second] = answer;
            let line = match verdict {
                raw::REFUSED => format!("REFUSED {number}"),
                raw::SAT => format!("SAT {number} splits {first} {second}"),
                raw::UNSAT => format!("UNSAT {number} splits {first} {second}"),
                _ => format!("SPENT {number} splits {first} {second}"),
            };
            assert_eq!(line, expected, "{name}");
            let past = if verdict == raw::SAT {
                4 * many as usize
            } else {
                0
            };
            assert!(rows[past..].iter().all(|&number| number == 0), "{name}");
            if expected != "REFUSED 1" {
                assert_eq!(
                    load(&file, budget).to_string().lines().next(),
                    line.split(" splits").next(),
                    "{name}"
                );
            }
            if !expected.starts_with("REFUSED 1") && expected != "REFUSED 4" {
                assert_eq!(
                    splits(&load(&file, budget)),
                    splits(&decide(&file, budget)),
                    "{name}"
                );
            }
        },
    );
}

/// The nodes and the splits of a tree.
fn counts(branch: &Branch) -> (u32, u32) {
    match branch {
        Branch::Closed(_) => (1, 0),
        Branch::Split { is, isnt, .. } => {
            let [is, isnt] = [is, isnt].map(|child| counts(child));
            (1 + is.0 + isnt.0, 1 + is.1 + isnt.1)
        }
    }
}

fn explain_all() {
    for_each_line("vectors.txt", 2000, |[name, budget, hex, _]| {
        let (file, budget) = (bytes(hex), budget.parse().unwrap());
        let explanation = explain(&file, budget);
        assert_eq!(explanation.answer, decide(&file, budget), "{name}");
        let splits = splits(&explanation.answer);
        match (explanation.answer, explanation.refutation) {
            (Answer::Unsat { nodes: many, .. }, Some(refutation)) => {
                let (nodes, all) = counts(&refutation.tree());
                assert_eq!(nodes, many, "{name}");
                assert_eq!(Some(all), splits.map(|(a, b)| a + b), "{name}");
                assert_eq!(check(&file, refutation.bytes()), Ok(()), "{name}");
            }
            (Answer::Unsat { .. }, None) | (_, Some(_)) => panic!("{name}"),
            (_, None) => {}
        }
    });
}

fn check_all() {
    for_each_line("records.txt", 1000, |[name, file, record, expected]| {
        let expected = match expected.parse().unwrap() {
            0 => Ok(()),
            question => Err(Question(question)),
        };
        let (file, record) = (bytes(file), bytes(record));
        assert_eq!(check(&file, &record), expected, "{name}");
        if name.starts_with("written-") {
            let written = explain(&file, u32::MAX).refutation.expect(name);
            assert_eq!(written.bytes(), record, "{name}");
        }
    });
}

/// A call with an output buffer of its line's length gives the file or the refusal of the line, and zeros behind it. `whole` is the
/// answer with a buffer that every file fits into.
fn check_output(
    [name, room, expected]: [&str; 3],
    call: impl FnOnce(&mut [u8]) -> i64,
    whole: Result<Vec<u8>, u32>,
) {
    let expected = match expected.strip_prefix("REFUSED ") {
        Some(question) => Err(question.parse::<u32>().unwrap()),
        None => Ok(bytes(expected)),
    };
    let mut out = vec![7; room.parse().unwrap()];
    let code = call(&mut out);
    let front = match &expected {
        Ok(file) => (file.len() as i64, &file[..]),
        Err(question) => (-i64::from(*question), &[][..]),
    };
    assert_eq!((code, &out[..front.1.len()]), front, "{name}");
    assert!(out[front.1.len()..].iter().all(|&n| n == 0), "{name}");
    match whole {
        Ok(file) if expected == Err(14) => assert!(file.len() > out.len(), "{name}"),
        whole => assert_eq!(whole, expected, "{name}"),
    }
}

fn write_all() {
    for_each_line("lists.txt", 1000, |[name, room, list, expected]| {
        let list = if list == "-" { "" } else { list };
        let numbers = list.split_whitespace().map(|word| word.parse().unwrap());
        let numbers: Vec<i64> = numbers.collect();
        let call = |out: &mut [u8]| raw::write_into(&numbers, out);
        let whole = write(&numbers).map_err(|Refusal(question)| question);
        check_output([name, room, expected], call, whole);
    });
}

fn merge_all() {
    for_each_line(
        "merges.txt",
        1000,
        |[name, room, first, second, expected]| {
            let (first, second) = (bytes(first), bytes(second));
            let call = |out: &mut [u8]| raw::merge_into(&first, &second, out);
            let whole = merge(&first, &second).map_err(|MergeRefusal(question)| question);
            check_output([name, room, expected], call, whole);
        },
    );
}

fn store_and_restore_all() {
    for_each_line("columns.txt", 1000, |[name, room, way, input, expected]| {
        let input = bytes(input);
        let of = |StoreRefusal(question)| question;
        let (call, whole): (fn(&[u8], &mut [u8]) -> i64, _) = match way {
            "store" => (raw::store_into, store(&input).map_err(of)),
            "restore" => (raw::restore_into, restore(&input).map_err(of)),
            _ => panic!("{name}"),
        };
        if let Ok(bytes) = &whole {
            let other = if way == "store" { restore } else { store };
            assert_eq!(other(bytes), Ok(input.clone()), "{name}");
        }
        check_output([name, room, expected], |out| call(&input, out), whole);
    });
}

/// In a thread with the stack that the crate's documentation asks for.
fn in_the_stack_asked_for(run: fn()) {
    let thread = std::thread::Builder::new().stack_size(820 * 1024);
    thread.spawn(run).unwrap().join().unwrap();
}

#[test]
fn answers_of_all_vectors() {
    in_the_stack_asked_for(decide_all);
}

#[test]
fn the_loaders_answers() {
    in_the_stack_asked_for(load_all);
}

#[test]
fn records_of_all_vectors() {
    in_the_stack_asked_for(explain_all);
}

#[test]
fn the_checkers_answers() {
    in_the_stack_asked_for(check_all);
}

#[test]
fn files_of_all_lists() {
    in_the_stack_asked_for(write_all);
}

#[test]
fn merged_files_of_all_pairs() {
    in_the_stack_asked_for(merge_all);
}

#[test]
fn files_by_column_and_back() {
    in_the_stack_asked_for(store_and_restore_all);
}

#[test]
fn calls_in_several_threads() {
    let case_c = bytes("020002000200010200010300010101000001");
    let expected = decide(&case_c, 3);
    std::thread::scope(|scope| {
        for _ in 0..4 {
            scope.spawn(|| (0..200).for_each(|_| assert_eq!(decide(&case_c, 3), expected)));
        }
    });
}
