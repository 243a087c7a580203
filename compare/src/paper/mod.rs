//! The papers' answers: the verdict on evidence, the written line, the reading of a line, the
//! judgement of a claim, and the editor's.

pub mod bytes;
pub mod claim;
pub mod counting;
pub mod description;
pub mod editor;
pub mod evidence;
pub mod graph;
pub mod label;
pub mod line;
pub mod list;

use description::Description;
use evidence::Head;
use label::Label;

/// A refusal: its number in the paper's table, and the record it falls on.
#[derive(Clone, Copy, PartialEq, Eq, Debug)]
pub struct Refusal {
    pub number: u8,
    pub record: u8,
}

impl Refusal {
    /// A refusal that falls on no record: 1 to 9, and 21 on.
    pub fn whole(number: u8) -> Refusal {
        Refusal { number, record: 0 }
    }

    pub fn at(number: u8, record: usize) -> Refusal {
        // There are at most 64 records.
        Refusal {
            number,
            record: record as u8,
        }
    }
}

/// Every answer of the four functions, and of the editor's.
#[derive(Clone, Copy, PartialEq, Eq, Debug)]
pub enum Answer {
    Refused(Refusal),
    Inhabited,
    Empty,
    Written,
    Holds,
    Fails,
    HoldsOfNothing,
    Done,
}

/// The verdict on evidence for a description.
pub fn check(description: &[u8], evidence: &[u8]) -> Answer {
    verdict(description, evidence).unwrap_or_else(Answer::Refused)
}

fn verdict(description: &[u8], evidence: &[u8]) -> Result<Answer, Refusal> {
    let description = Description::read(description)?;
    let evidence = evidence::head(evidence)?;
    weigh(&description, Label::of(&[description.root]), &evidence)?;
    Ok(match evidence {
        Head::Graph(_) => Answer::Inhabited,
        Head::List(_) => Answer::Empty,
    })
}

/// 10 to 20: a graph shows a line that has the literals wanted, a list that there is none.
fn weigh(description: &Description, wanted: Label, evidence: &Head) -> Result<(), Refusal> {
    let width = description.width();
    match evidence {
        Head::Graph(records) => {
            let nodes = evidence::nodes(records, width)?;
            graph::weigh(description, wanted, &nodes)
        }
        Head::List(records) => {
            let closings = evidence::closings(records, width)?;
            list::weigh(description, wanted, &closings)
        }
    }
}

/// Judges the claim "every C is D" by one piece of evidence or by two.
pub fn claim(description: &[u8], c: u8, d: u8, first: &[u8], second: &[u8]) -> Answer {
    claim::judge(description, [c, d], first, second).unwrap_or_else(Answer::Refused)
}

/// Writes the line of a graph that keeps the rules; on a refusal nothing is written.
pub fn write(description: &[u8], evidence: &[u8], buffer: &mut [u8]) -> Answer {
    match line_of(description, evidence, buffer.len()) {
        Ok(line) => {
            buffer[..line.len()].copy_from_slice(&line);
            Answer::Written
        }
        Err(refusal) => Answer::Refused(refusal),
    }
}

fn line_of(description: &[u8], evidence: &[u8], room: usize) -> Result<Vec<u8>, Refusal> {
    let description = Description::read(description)?;
    let Head::Graph(records) = evidence::head(evidence)? else {
        // 9: a list given to the line writer.
        return Err(Refusal::whole(9));
    };
    let nodes = evidence::nodes(&records, description.width())?;
    graph::weigh(&description, Label::of(&[description.root]), &nodes)?;
    line::write(&description, &nodes, room)
}

/// The direct reading of a line.
pub fn read(description: &[u8], line: &[u8]) -> Answer {
    match reading(description, line) {
        Ok(true) => Answer::Holds,
        Ok(false) => Answer::Fails,
        Err(refusal) => Answer::Refused(refusal),
    }
}

fn reading(description: &[u8], line: &[u8]) -> Result<bool, Refusal> {
    let description = Description::read(description)?;
    let line = line::Line::read(&description, line)?;
    Ok(line.holds(&description))
}
