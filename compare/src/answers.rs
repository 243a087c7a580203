//! Answers in the form of the C interface, and bytes in print.

use crate::paper::Answer;

pub const WORDS: [&str; 8] = [
    "REFUSED",
    "INHABITED",
    "EMPTY",
    "WRITTEN",
    "HOLDS",
    "FAILS",
    "HOLDS OF NOTHING",
    "DONE",
];

/// An answer of the paper in the interface's form: word · 65536 + number · 256 + record.
pub fn code(answer: Answer) -> u32 {
    match answer {
        Answer::Refused(refusal) => refusal.number as u32 * 256 + refusal.record as u32,
        Answer::Inhabited => 65536,
        Answer::Empty => 2 * 65536,
        Answer::Written => 3 * 65536,
        Answer::Holds => 4 * 65536,
        Answer::Fails => 5 * 65536,
        Answer::HoldsOfNothing => 6 * 65536,
        Answer::Done => 7 * 65536,
    }
}

/// An answer in words.
pub fn told(code: u32) -> String {
    let word = WORDS.get(code as usize >> 16).unwrap_or(&"(no word)");
    format!("{word} {} {}", code >> 8 & 255, code & 255)
}

pub fn hex(bytes: &[u8]) -> String {
    if bytes.is_empty() {
        return "-".into();
    }
    bytes.iter().map(|b| format!("{b:02x}")).collect()
}
