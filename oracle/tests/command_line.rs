//! The command line: what it prints, and that wrong use never panics.

use std::fs;
use std::io::Write;
use std::path::PathBuf;
use std::process::{Command, Output, Stdio};

fn oracle(words: &[&str], input: &[u8]) -> Output {
    let mut child = Command::new(env!("CARGO_BIN_EXE_oracle"))
        .args(words)
        .stdin(Stdio::piped())
        .stdout(Stdio::piped())
        .stderr(Stdio::piped())
        .spawn()
        .expect("the program starts");
    // The program may stop before it has read its input.
    let _ = child.stdin.take().expect("piped").write_all(input);
    child.wait_with_output().expect("the program ends")
}

fn printed(output: &Output) -> String {
    String::from_utf8_lossy(&output.stdout).into_owned()
}

fn scratch(name: &str) -> PathBuf {
    let dir = PathBuf::from(env!("CARGO_TARGET_TMPDIR")).join(name);
    fs::create_dir_all(&dir).expect("a directory for the test");
    dir
}

const C: &[u8] = &[2, 0, 2, 0, 2, 0, 1, 2, 0, 1, 3, 0, 1, 1, 1, 0, 0, 1];

#[test]
fn answers() {
    let cases: [(&[&str], &[u8], &str); 6] = [
        (&["answer", "-"], C, "SAT 3 splits 1 0\n"),
        (&["answer", "-", "--budget", "2"], C, "SPENT 2 splits 1 0\n"),
        (
            &["answer", "-", "--budget", "4294967295"],
            C,
            "SAT 3 splits 1 0\n",
        ),
        (&["answer", "-"], &[], "REFUSED 2\n"),
        (&["answer", "-"], &[0; 5_000], "REFUSED 10\n"),
        (&["answer", "-"], &[0x80; 5_000], "REFUSED 3\n"),
    ];
    for (words, input, expected) in cases {
        let output = oracle(words, input);
        assert_eq!(printed(&output), expected);
        assert_eq!(output.status.code(), Some(0));
    }
}

#[test]
fn checks_printed_answers() {
    let dir = scratch("check");
    let (file, right, wrong) = (dir.join("c"), dir.join("right"), dir.join("wrong"));
    let text = "SAT 3\nrow 0 type 1 variant 0\nterm 0 row 0\nterm 1 row 0\n";
    fs::write(&file, C).expect("written");
    fs::write(&right, text).expect("written");
    fs::write(&wrong, [0xff, 0xfe, 0x0a]).expect("written");
    let (file, right) = (file.display().to_string(), right.display().to_string());
    let output = oracle(&["check", &file, &right], &[]);
    assert_eq!(
        (printed(&output), output.status.code()),
        ("ok\n".to_string(), Some(0))
    );
    let output = oracle(
        &["check", &file, "-"],
        text.replace("SAT 3", "SAT 2").as_bytes(),
    );
    assert_eq!(output.status.code(), Some(1));
    assert!(String::from_utf8_lossy(&output.stderr).contains("expected SAT 3"));
    let output = oracle(&["check", &file, &right, "--budget", "2"], &[]);
    assert_eq!(output.status.code(), Some(1));
    let output = oracle(&["check", &file, &wrong.display().to_string()], &[]);
    assert_eq!(output.status.code(), Some(1));
}

#[test]
fn wrong_use_is_said() {
    let cases: &[&[&str]] = &[
        &[],
        &["nonsense"],
        &["answer"],
        &["answer", "no such file"],
        &["answer", "."],
        &["answer", "-", "--budget"],
        &["answer", "-", "--budget", "-1"],
        &["answer", "-", "--budget", "4294967296"],
        &["answer", "-", "--budget", "many"],
        &["answer", "-", "--limit", "1"],
        &["check", "-", "-"],
        &["check", "-", "no such file"],
        &["record", "no such file"],
        &["record", "-", "--budget", "many"],
        &["check-record", "-", "-"],
        &["check-record", "-", "no such file"],
        &["list"],
        &["list", "no such file"],
        &["write", "no such file"],
        &["merge", "-"],
        &["merge", "-", "-"],
        &["merge", "-", "no such file"],
        &["store"],
        &["store", "no such file"],
        &["restore", "no such file"],
        &["orders"],
        &["orders", "no such file"],
        &["orders", "-", "--rule", "best"],
        &["orders", "-", "--seed", "-1"],
        &["orders", "-", "--wishes", "1/"],
        &["orders", "--check", "no such file"],
        &["vectors", "--check", "no such directory"],
        &["records", "no such directory"],
        &["records", "--check", "no such directory"],
        &["lists", "no such directory"],
        &["lists", "--check", "no such directory"],
        &["merges", "no such directory"],
        &["merges", "--check", "no such directory"],
        &["columns", "no such directory"],
        &["columns", "--check", "no such directory"],
        &["procedure", "no such file"],
        &["procedure", "-", "--budget", "many"],
        &["branches", "no such directory"],
        &["branches", "--check", "no such directory"],
        &["pack", "no such file", "out"],
        &["tables", "no such file", "."],
        &["tables", "--check", "no such file", "."],
        &["walks", "no such file", "."],
        &["walks", "--check", "no such file", "."],
        &["answers", "no such file", "."],
        &["answers", "--check", "no such file", "."],
    ];
    for words in cases {
        let output = oracle(words, &[0, 0, 0]);
        let said = String::from_utf8_lossy(&output.stderr).into_owned();
        assert_eq!(output.status.code(), Some(2), "{words:?}: {said}");
        assert!(said.starts_with("oracle: "), "{words:?}: {said}");
        assert!(printed(&output).is_empty(), "{words:?}");
    }
}

/// Document 01's case e: a list inside itself.
const E: &[u8] = &[
    2, 0, 2, 0, 2, 0, 1, 2, 0, 1, 3, 0, 1, 1, 2, 0, 0, 1, 2, 0, 1,
];

#[test]
fn records_are_for_unsat_guards() {
    assert_eq!(printed(&oracle(&["record", "-"], E)), "0300\n");
    for (words, input, why) in [
        (&["record", "-"][..], C, "the answer is SAT 3 splits 1 0"),
        (
            &["record", "-", "--budget", "0"],
            E,
            "the answer is SPENT 0",
        ),
        (&["record", "-"], &[7], "the file is REFUSED 4"),
    ] {
        let output = oracle(words, input);
        assert_eq!(output.status.code(), Some(1), "{why}");
        assert!(String::from_utf8_lossy(&output.stderr).contains(why));
    }
}

#[test]
fn checks_records() {
    let file = scratch("check-record").join("e");
    fs::write(&file, E).expect("written");
    let file = file.display().to_string();
    let check = |record: &str| oracle(&["check-record", &file, "-"], record.as_bytes());
    for record in ["0300", "0300\n", "03 01\n"] {
        let output = check(record);
        assert_eq!(printed(&output), "ok\n");
        assert_eq!(output.status.code(), Some(0));
    }
    for (record, why) in [
        ("-", "REFUSED 13"),
        ("03", "REFUSED 12"),
        ("0302", "REFUSED 12"),
        ("030003", "REFUSED 13"),
        ("3", "isn't hexadecimal"),
        ("0x", "isn't hexadecimal"),
    ] {
        let output = check(record);
        assert_eq!(output.status.code(), Some(1), "{record}");
        assert!(String::from_utf8_lossy(&output.stderr).contains(why));
    }
}

#[test]
fn orders_of_splitting() {
    let all = "first: 3 nodes, 1 of them open\nlast: 3 nodes, 1 of them open\n\
               depth: 3 nodes, 1 of them open\nmost: 3 nodes, 1 of them open\n\
               fewest: 3 nodes, 1 of them open\nany order: 3 to 3 nodes\n2 x W - 1 is 7\n";
    let one = "3 nodes, 1 of them open\n2 x W - 1 is 7\n";
    for (words, expected) in [
        (&["orders", "-"][..], all),
        (&["orders", "-", "--rule", "last"], one),
        (&["orders", "-", "--seed", "5"], one),
        (&["orders", "-", "--wishes", "0/1,1"], one),
    ] {
        assert_eq!(printed(&oracle(words, C)), expected);
    }
    let output = oracle(&["orders", "-"], &[7]);
    assert_eq!(output.status.code(), Some(1));
    assert!(String::from_utf8_lossy(&output.stderr).contains("the file is REFUSED 4"));
    let vectors = "c\t3\t020002000200010200010300010101000001\tSAT 3 splits 1 0\n";
    let output = oracle(&["orders", "--check", "-"], vectors.as_bytes());
    assert!(printed(&output).starts_with("ok, 13 trees of 1 guards, all orders of 1,"));
    let output = oracle(
        &["orders", "--check", "-"],
        vectors.replace("SAT", "UNSAT").as_bytes(),
    );
    assert_eq!(output.status.code(), Some(1));
}

#[test]
fn merges_two_files() {
    let file = scratch("merge").join("c");
    fs::write(&file, C).expect("written");
    let file = file.display().to_string();
    let output = oracle(&["merge", &file, "-"], C);
    assert_eq!(
        printed(&output),
        "02000200020001030001030001010300010102000001000002\n"
    );
    for (words, input, why) in [
        (["merge", &file, "-"], &[7][..], "second file is REFUSED 4"),
        (["merge", "-", &file], &[], "the first file is REFUSED 2"),
        (["merge", "-", &file], &[0, 0, 0], "the merge is REFUSED 15"),
    ] {
        let output = oracle(&words, input);
        assert_eq!(output.status.code(), Some(1), "{why}");
        assert!(String::from_utf8_lossy(&output.stderr).contains(why));
    }
}

/// A file that is made from the vectors: written anew it is the kept one, and
/// a wrong one is told.
fn made_and_checked(command: &str) {
    let dir = scratch(command);
    let name = format!("{command}.txt");
    let kept = PathBuf::from(env!("CARGO_MANIFEST_DIR")).join("../vectors");
    fs::copy(kept.join("vectors.txt"), dir.join("vectors.txt")).expect("copied");
    let place = dir.display().to_string();
    let code = |words: &[&str]| oracle(words, &[]).status.code();
    assert_eq!(code(&[command, &place]), Some(0));
    assert_eq!(code(&[command, "--check", &place]), Some(0));
    let right = fs::read(dir.join(&name)).expect("what was made");
    assert_eq!(right, fs::read(kept.join(&name)).expect("kept"));
    fs::write(dir.join(&name), &right[..right.len() - 2]).expect("written");
    assert_eq!(code(&[command, "--check", &place]), Some(1));
    // Too few guards for each kind of damage, and wrong answers.
    for vectors in ["", "x\t1\t000000\tUNSAT 1 splits 0 0\n"] {
        fs::write(dir.join("vectors.txt"), vectors).expect("written");
        assert_eq!(code(&[command, &place]), Some(1));
    }
}

#[test]
fn records_are_written_and_checked() {
    made_and_checked("records");
}

#[test]
fn lists_are_written_and_checked() {
    made_and_checked("lists");
}

#[test]
fn merges_are_written_and_checked() {
    made_and_checked("merges");
}

#[test]
fn columns_are_written_and_checked() {
    made_and_checked("columns");
}

/// A list and its tail; it is its own tail, is so and a cons, isn't a cons.
const THREE: &[u8] = &[
    2, 0, 2, 0, 2, 0, 1, 2, 0, 1, 3, 0, 1, 1, 3, 1, 0, 0, 1, 2, 0, 0, 1, 2, 0, 1, 1, 3, 0, 1,
];

#[test]
fn branches_of_a_procedure() {
    let cases: [(&[&str], &[u8], &str); 3] = [
        (&["procedure", "-"], THREE, "dead 1\npair 0 2\n"),
        (
            &["procedure", "-", "--budget", "2"],
            THREE,
            "dead 1\npair 0 2\nspent 0\n",
        ),
        (&["procedure", "-"], &[0, 0, 0], "REFUSED 19\n"),
    ];
    for (words, input, expected) in cases {
        let output = oracle(words, input);
        assert_eq!(printed(&output), expected);
        assert_eq!(output.status.code(), Some(0));
    }
}

/// Document 01's case j: the values −3 and 4.
const J: &[u8] = &[1, 0, 2, 1, 0, 5, 1, 0, 8, 1, 0, 0, 1];

#[test]
fn lists_and_files() {
    let (list, hex) = (
        "1 0 2 1 0 -3 1 0 4 1 0 0 1\n",
        "01000201000501000801000001\n",
    );
    assert_eq!(printed(&oracle(&["list", "-"], J)), list);
    assert_eq!(printed(&oracle(&["write", "-"], list.as_bytes())), hex);
    for (words, input, why) in [
        (&["list", "-"], &[7][..], "the file is REFUSED 4"),
        (&["write", "-"], b"-1", "the list is REFUSED 4"),
        (&["write", "-"], b"-", "the list is REFUSED 2"),
        (&["write", "-"], b"", "the list is REFUSED 2"),
        (&["write", "-"], b"0 0 zero", "isn't a list of numbers"),
    ] {
        let output = oracle(words, input);
        assert_eq!(output.status.code(), Some(1), "{why}");
        assert!(String::from_utf8_lossy(&output.stderr).contains(why));
    }
}

#[test]
fn stores_and_restores_a_file() {
    let stored = [1, 0, 2, 1, 1, 0, 0, 5, 8, 1, 0, 0, 1];
    let there = printed(&oracle(&["store", "-"], J));
    assert_eq!(there, "01000201010000050801000001\n");
    let back = printed(&oracle(&["restore", "-"], &stored));
    assert_eq!(back, "01000201000501000801000001\n");
    for (words, input, why) in [
        (&["store", "-"], &[7][..], "the file is REFUSED 4"),
        (&["restore", "-"], &stored[..7], "stored file is REFUSED 2"),
        (&["restore", "-"], &[1, 0, 1, 4], "stored file is REFUSED 6"),
    ] {
        let output = oracle(words, input);
        assert_eq!(output.status.code(), Some(1), "{why}");
        assert!(String::from_utf8_lossy(&output.stderr).contains(why));
    }
}

#[test]
fn smt_scripts_are_for_accepted_guards() {
    let script = printed(&oracle(&["smt", "-"], C));
    assert!(script.starts_with("(set-logic ALL)\n"));
    assert!(script.contains("(ite ((_ is c1_1) t0) (f1_1_1 t0) c1_0)"));
    assert!(script.ends_with("(check-sat)\n"));
    assert_eq!(oracle(&["smt", "-"], &[7]).status.code(), Some(1));
}

#[test]
fn packs_vectors() {
    let dir = scratch("pack");
    let (vectors, out) = (dir.join("vectors.txt"), dir.join("packed"));
    fs::write(
        &vectors,
        "# a comment\nx\t258\t000000\tSAT 1 splits 0 0\ny\t0\t-\tREFUSED 2\n",
    )
    .expect("written");
    let words = [
        "pack",
        &vectors.display().to_string(),
        &out.display().to_string(),
    ];
    assert_eq!(oracle(&words, &[]).status.code(), Some(0));
    let expected = [3, 0, 0, 0, 0, 2, 1, 0, 0, 0, 0, 0, 0, 0, 0, 255, 255];
    assert_eq!(fs::read(&out).expect("packed"), expected);
    for bad in [
        "x 1 00 SAT 1\n",
        "x\t-1\t00\tSAT 1\n",
        "x\t1\t0\tSAT 1\n",
        "x\t1\t0g\tSAT 1\n",
        "\n",
    ] {
        fs::write(&vectors, bad).expect("written");
        assert_eq!(oracle(&words, &[]).status.code(), Some(1), "{bad:?}");
    }
}

#[test]
fn tables_are_written_and_checked() {
    written_and_checked("tables", "0 types 0 rows 0 lines, sum 0\nrefused 2\n");
}

#[test]
fn walks_are_written_and_checked() {
    written_and_checked("walks", "SAT 1 splits 0 0\nREFUSED 2\n");
}

fn written_and_checked(command: &str, lines: &str) {
    let dir = scratch(command);
    let vectors = dir.join("vectors.txt");
    let text = "x\t1\t000000\tSAT 1 splits 0 0\ny\t0\t-\tREFUSED 2\n";
    fs::write(&vectors, text).expect("written");
    let (vectors, place) = (vectors.display().to_string(), dir.display().to_string());
    let write = [command, &vectors, &place];
    let check = [command, "--check", &vectors, &place];
    assert_eq!(oracle(&write, &[]).status.code(), Some(0));
    assert_eq!(oracle(&check, &[]).status.code(), Some(0));
    let stdout = fs::read(dir.join("stdout")).expect("the lines");
    assert_eq!(stdout, lines.as_bytes());
    for name in ["stdin", "stdout"] {
        let right = fs::read(dir.join(name)).expect("written");
        let mut wrong = right.clone();
        wrong[0] ^= 1;
        for bytes in [&wrong[..], &right[1..], &right[..right.len() - 1]] {
            fs::write(dir.join(name), bytes).expect("written");
            assert_eq!(oracle(&check, &[]).status.code(), Some(1), "{name}");
        }
        fs::write(dir.join(name), right).expect("written");
    }
}

#[test]
fn answers_are_checked_in_full() {
    let dir = scratch("answers");
    let vectors = dir.join("vectors.txt");
    let hex: String = C.iter().map(|byte| format!("{byte:02x}")).collect();
    let text = format!(
        "x\t3\t{hex}\tSAT 3 splits 1 0\ny\t0\t-\tREFUSED 2\nz\t2\t{hex}\tSPENT 2 splits 1 0\n"
    );
    fs::write(&vectors, text).expect("written");
    let (vectors, place) = (vectors.display().to_string(), dir.display().to_string());
    let write = oracle(&["answers", &vectors, &place], &[]);
    assert_eq!(write.status.code(), Some(0));
    let check = |output: &str| {
        fs::write(dir.join("stdout"), output).expect("written");
        oracle(&["answers", "--check", &vectors, &place], &[])
    };
    let right = "SAT 3\nrow 0 type 1 variant 0\nterm 0 row 0\nterm 1 row 0\nREFUSED 2\nSPENT 2\n";
    let output = check(right);
    assert_eq!(
        printed(&output),
        "ok, answers to 3 vectors, 1 of them SAT\n"
    );
    assert_eq!(output.status.code(), Some(0));
    for (old, new, why) in [
        ("SAT 3", "SAT 2", "x: line one is \"SAT 2\", expected SAT 3"),
        // What the program prints has no splits.
        (
            "SAT 3",
            "SAT 3 splits 1 0",
            "x: line one is \"SAT 3 splits 1 0\", expected SAT 3",
        ),
        (
            "variant 0",
            "variant 1",
            "x: row 0: part 0 isn't a lower row",
        ),
        (
            "type 1 variant 0",
            "type 0 number 0",
            "x: term 0 is of type 1",
        ),
        (
            "term 1 row 0\n",
            "",
            "x: 1 terms are printed, the guard has 2",
        ),
        (
            "REFUSED 2\n",
            "dirty\nREFUSED 2\n",
            "y: line one is \"dirty\"",
        ),
        ("REFUSED 2\n", "", "y: line one is \"SPENT 2\""),
        (
            "REFUSED 2\n",
            "REFUSED 2\nrow 0\n",
            "y: something follows after",
        ),
        ("SPENT 2\n", "SPENT 2", "z: line one doesn't end"),
        ("SPENT 2\n", "", "z: line one doesn't end, or is missing"),
        (
            "SPENT 2\n",
            "SPENT 2\ndirty\n",
            "\"dirty\" follows after the last",
        ),
    ] {
        let output = check(&right.replacen(old, new, 1));
        let said = String::from_utf8_lossy(&output.stderr).into_owned();
        assert_eq!(output.status.code(), Some(1), "{new:?}");
        assert!(said.contains(why), "{said}");
    }
    fs::write(dir.join("stdin"), [255, 255]).expect("written");
    assert_eq!(check(right).status.code(), Some(1));
}
