//! The implementation alone on the repository's vectors: those from outside, the trials and the costliest.

use compare::paper::{self, Answer, Refusal};
use std::path::{Path, PathBuf};

/// The first words of the names of files.
const WORDS: [&str; 4] = ["check", "claims", "write", "read"];

/// The files of `crates/evidence_vectors/data` whose names begin with a word; none has another.
fn files(word: &str) -> Vec<PathBuf> {
    let folder = Path::new(env!("CARGO_MANIFEST_DIR")).join("../crates/evidence_vectors/data");
    let mut files = Vec::new();
    for file in std::fs::read_dir(folder).expect("the folder of vectors") {
        let path = file.expect("a file").path();
        let name = path.file_name().and_then(|name| name.to_str());
        let first = name
            .and_then(|name| name.split('_').next())
            .expect("a name");
        assert!(WORDS.contains(&first), "{} is for no test", path.display());
        if first == word {
            files.push(path);
        }
    }
    files.sort();
    files
}

/// The rows of these files; a line that begins with '#' is a remark.
fn rows(word: &str, fields: usize) -> Vec<Vec<String>> {
    let mut rows = Vec::new();
    for path in files(word) {
        let file = path.display();
        let text = std::fs::read_to_string(&path).expect("a text");
        let before = rows.len();
        for line in text.lines().filter(|line| !line.starts_with('#')) {
            let row: Vec<String> = line.split('\t').map(String::from).collect();
            assert_eq!(row.len(), fields, "{file}: fields of {line}");
            rows.push(row);
        }
        assert!(before < rows.len(), "{file} has no rows");
    }
    assert!(!rows.is_empty(), "no rows for {word}");
    rows
}

fn bytes(hex: &str) -> Vec<u8> {
    if hex == "-" {
        return Vec::new();
    }
    let digit = |i: usize| u8::from_str_radix(&hex[i..i + 2], 16).expect("hexadecimal");
    (0..hex.len()).step_by(2).map(digit).collect()
}

fn refused(refusal: Refusal) -> String {
    format!("REFUSED {} {}", refusal.number, refusal.record)
}

#[test]
fn weigh() {
    for row in rows("check", 2) {
        let input = bytes(&row[0]);
        // A two-byte length, the description, then evidence; missing bytes leave either short.
        let (length, rest) = match input[..] {
            [high, low, ..] => (u16::from_be_bytes([high, low]) as usize, &input[2..]),
            _ => (0, &[][..]),
        };
        let (description, evidence) = rest.split_at(length.min(rest.len()));
        let answer = match paper::check(description, evidence) {
            Answer::Inhabited => "INHABITED 0 0".into(),
            Answer::Empty => "EMPTY 0 0".into(),
            Answer::Refused(refusal) => refused(refusal),
            other => panic!("{other:?} is no verdict"),
        };
        assert_eq!(answer, row[1], "input {}", row[0]);
    }
}

#[test]
fn claims() {
    for row in rows("claims", 6) {
        let literal = |field: &String| field.parse().expect("a literal");
        let (c, d) = (literal(&row[1]), literal(&row[2]));
        let answer = match paper::claim(&bytes(&row[0]), c, d, &bytes(&row[3]), &bytes(&row[4])) {
            Answer::Holds => "HOLDS 0 0".into(),
            Answer::Fails => "FAILS 0 0".into(),
            Answer::HoldsOfNothing => "HOLDS OF NOTHING 0 0".into(),
            Answer::Refused(refusal) => refused(refusal),
            other => panic!("{other:?} is no answer to a claim"),
        };
        assert_eq!(answer, row[5], "claim {row:?}");
    }
}

#[test]
fn write() {
    for row in rows("write", 4) {
        let room: usize = row[2].parse().expect("a length");
        let pattern: Vec<u8> = (0..room).map(|i| (i * 7 + 3) as u8).collect();
        let mut buffer = pattern.clone();
        let answer = paper::write(&bytes(&row[0]), &bytes(&row[1]), &mut buffer);
        match answer {
            Answer::Written => {
                let line = bytes(row[3].strip_prefix("LINE ").expect("a line"));
                assert_eq!(buffer[..line.len()], line, "line of {}", row[1]);
                assert_eq!(buffer[line.len()..], pattern[line.len()..], "past the line");
            }
            Answer::Refused(refusal) => {
                assert_eq!(refused(refusal), row[3], "evidence {}", row[1]);
                assert_eq!(buffer, pattern, "a refusal leaves all bytes");
            }
            other => panic!("{other:?} is no answer of the writer"),
        }
    }
}

#[test]
fn read() {
    for row in rows("read", 3) {
        let answer = match paper::read(&bytes(&row[0]), &bytes(&row[1])) {
            Answer::Holds => "HOLDS".into(),
            Answer::Fails => "FAILS".into(),
            Answer::Refused(refusal) => refused(refusal),
            other => panic!("{other:?} is no answer of the reader"),
        };
        assert_eq!(answer, row[2], "line {}", row[1]);
    }
}
