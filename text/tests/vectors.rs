//! The test vectors: every file is taken or refused as expected, every accepted guard comes
//! back from its text, and its file if it has one number type or none; every dead one of these
//! has a line for each node and each split.

use guarddesk::Refusal;
use guardtext::branches::branches;
use guardtext::decode::{decode, from_hex};
use guardtext::desk::{explain, Answer};
use guardtext::encode::encode;
use guardtext::types::second_number;
use guardtext::write::write;

#[test]
fn files_come_back_from_their_texts() {
    let path = concat!(env!("CARGO_MANIFEST_DIR"), "/../vectors/vectors.txt");
    let vectors = std::fs::read_to_string(path).expect("the vectors");
    let (mut taken, mut several, mut refused, mut dead) = (0, 0, 0, 0);
    for vector in vectors.lines().filter(|line| !line.starts_with('#')) {
        let columns: Vec<&str> = vector.split('\t').collect();
        let [name, _, digits, answer] = columns[..] else {
            panic!("{vector}");
        };
        let file = match digits {
            "-" => Vec::new(),
            _ => from_hex(digits.as_bytes()).expect(name).expect(name),
        };
        match decode(&file) {
            Err(refusal) => {
                let found = format!("REFUSED {}", refusal.why.question());
                assert_eq!(found, answer, "{name}");
                refused += 1;
            }
            Ok(guard) => {
                assert!(!answer.starts_with("REFUSED"), "{name}");
                let text = write(&guard);
                let source = guardtext::read(&text);
                let source = source.unwrap_or_else(|fault| panic!("{name}: {fault}\n{text}"));
                assert_eq!(source.guard, guard, "{name}");
                assert_eq!(source.names.terms.len(), guard.rows.len(), "{name}");
                if second_number(&guard.types).is_some() {
                    assert_eq!(encode(&guard), Err(Refusal(18)), "{name}");
                    several += 1;
                    continue;
                }
                assert_eq!(encode(&guard).as_ref(), Ok(&file), "{name}");
                taken += 1;
                if let (Answer::Unsat { nodes, splits }, Some(refutation)) = explain(&file, 1000) {
                    let lines = branches(&source, &refutation).expect(name);
                    assert_eq!(lines.lines().count(), nodes as usize, "{name}");
                    let asked = lines.lines().filter(|line| line.ends_with('?')).count();
                    assert_eq!(asked as u32, splits.reads + splits.values, "{name}");
                    dead += 1;
                }
            }
        }
    }
    assert!(taken > 1_000 && refused > 500, "{taken} and {refused}");
    assert!(several > 100, "{several} with several number types");
    assert!(dead > 500, "{dead} dead ones");
}

#[test]
fn hexadecimal_is_told_from_a_file() {
    assert_eq!(from_hex(b"\x02\x00"), None);
    assert_eq!(from_hex(b""), None);
    assert_eq!(from_hex(b" 02 00\n1F"), Some(Ok(vec![2, 0, 31])));
    assert!(matches!(from_hex(b"020"), Some(Err(_))));
    assert!(matches!(from_hex(b"0g"), Some(Err(_))));
}

#[test]
fn a_fifth_byte_ends_a_number() {
    let question = |file: &[u8]| decode(file).expect_err("a refusal").why.question();
    assert_eq!(question(&[0x80; 4]), 2);
    assert_eq!(question(&[0x80; 5]), 3);
    assert_eq!(question(&[0xff, 0xff, 0xff, 0xff, 0x1f]), 3);
    assert_eq!(question(&[0xff, 0xff, 0xff, 0xff, 0x0f]), 4);
}

#[test]
fn a_tenth_byte_ends_a_value() {
    let value = |bytes: &[u8]| decode(&[&[1, 0, 1, 1, 0], bytes, &[0]].concat());
    let question = |bytes: &[u8]| value(bytes).expect_err("a refusal").why.question();
    let cut = [&[1, 0, 1, 1, 0][..], &[0x80; 9]].concat();
    assert_eq!(decode(&cut).expect_err("a refusal").why.question(), 2);
    assert_eq!(question(&[0x80; 10]), 3);
    assert_eq!(question(&[&[0xff; 9][..], &[0x02]].concat()), 3);
    assert_eq!(question(&[&[0xff; 9][..], &[0x00]].concat()), 3);
    assert!(value(&[&[0xff; 9][..], &[0x01]].concat()).is_ok());
}
