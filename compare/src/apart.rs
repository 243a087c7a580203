//! Errors about roles that never share a filler, and whether an answer would show them.

mod cells;
mod records;
mod uses;

use crate::encode;
use crate::paper;
use crate::paper::bytes::parts;
use crate::paper::description::pairs_of;
use crate::paper::{Answer, Refusal};
use crate::steps::Weighed;
use records::Tables;

/// What was asked with a description, and the paper's answer.
pub struct Asked<'a> {
    pub description: &'a [u8],
    pub input: Input<'a>,
    pub answer: Answer,
}

pub enum Input<'a> {
    Check(&'a [u8]),
    /// With the length of the buffer.
    Write(&'a [u8], usize),
    Read(&'a [u8]),
    Claim {
        c: u8,
        d: u8,
        first: &'a [u8],
        second: &'a [u8],
    },
}

impl Input<'_> {
    /// The paper's answer.
    fn answer(&self, description: &[u8]) -> Answer {
        match *self {
            Input::Check(evidence) => paper::check(description, evidence),
            Input::Write(evidence, room) => paper::write(description, evidence, &mut vec![0; room]),
            Input::Read(line) => paper::read(description, line),
            Input::Claim {
                c,
                d,
                first,
                second,
            } => paper::claim(description, c, d, first, second),
        }
    }
}

impl<'a> Asked<'a> {
    pub fn new(description: &'a [u8], input: Input<'a>) -> Asked<'a> {
        Asked {
            answer: input.answer(description),
            description,
            input,
        }
    }

    /// The list that has been weighed, if there is one.
    pub fn list(&self) -> Option<Weighed> {
        match self.input {
            Input::Check(list) | Input::Claim { first: list, .. } => {
                Weighed::of(self.description, list, self.answer)
            }
            _ => None,
        }
    }

    /// The paper's answer under another description.
    fn under(&self, description: &[u8]) -> Answer {
        self.input.answer(description)
    }

    fn number(&self) -> u8 {
        number_of(self.answer)
    }

    /// The description with those of its records that are kept.
    fn with_records(&self, kept: impl Fn(usize, [u8; 2]) -> bool) -> Option<Vec<u8>> {
        let mut parts = four_parts(self.description)?;
        let records = parts[3].chunks_exact(2).enumerate();
        let records = records.filter(|(i, b)| kept(*i, [b[0], b[1]]));
        parts[3] = records.flat_map(|(_, b)| b.to_vec()).collect();
        Some(encode::join_parts(&parts))
    }
}

/// The number of a refusal, or 0.
fn number_of(answer: Answer) -> u8 {
    match answer {
        Answer::Refused(Refusal { number, .. }) => number,
        _ => 0,
    }
}

/// The parts of a description with four pairs.
fn four_parts(description: &[u8]) -> Option<Vec<Vec<u8>>> {
    let found = match pairs_of(description) {
        4 => parts(description, 0, 4)?,
        _ => return None,
    };
    Some(found.into_iter().map(<[u8]>::to_vec).collect())
}

/// An input with what the errors look at.
struct Case<'a> {
    asked: &'a Asked<'a>,
    list: Option<&'a Weighed>,
    /// With four pairs, once none of 1 to 7 refuses the description.
    tables: Option<Tables>,
}

/// An error, by the name of its row: would a checker that has it give another answer?
type Lapse = (&'static str, fn(&Case) -> bool);

const GROUPS: [&[Lapse]; 3] = [&records::LAPSES, &uses::LAPSES, &cells::LAPSES];

pub const LAPSES: usize = records::LAPSES.len() + uses::LAPSES.len() + cells::LAPSES.len();

pub fn names() -> impl Iterator<Item = &'static str> {
    GROUPS.into_iter().flatten().map(|(name, _)| *name)
}

/// For each error: would a checker with it give another answer? `list` is the list weighed.
pub fn shown(asked: &Asked, list: Option<&Weighed>) -> [bool; LAPSES] {
    let case = Case {
        asked,
        list,
        tables: Tables::of(asked.description),
    };
    let mut shown = [false; LAPSES];
    let lapses = GROUPS.into_iter().flatten();
    for (shown, (_, shows)) in shown.iter_mut().zip(lapses) {
        *shown = shows(&case);
    }
    shown
}
