//! How often each answer of the editor came, and each error in one showed.

use crate::paper::editor::Operation;
use crate::paper::{Answer, Refusal};
use crate::slips::{Slip, SLIPS};

pub const OPERATIONS: [&str; 7] = [
    "start",
    "role",
    "inclusion",
    "concept",
    "root",
    "rule",
    "write",
];

/// The numbers of refusals, and 0.
const NUMBERS: usize = 26;

/// Each must come as often, wherever it can come.
pub const LEAST: usize = 100;

type Counts = [usize; OPERATIONS.len()];

#[derive(Default)]
pub struct Tally {
    /// Items put in, descriptions written out.
    done: Counts,
    refusals: [Counts; NUMBERS],
    /// States too short, and states that no operation has made.
    short: Counts,
    any: Counts,
    /// Scripts that an editor with each error would get wrong.
    pub slips: [usize; SLIPS.len()],
}

/// A line of the table; nothing where there can be no such answer.
pub struct Row {
    pub head: String,
    pub counts: Vec<Option<usize>>,
}

impl Row {
    pub fn too_seldom(&self) -> bool {
        self.counts.iter().flatten().any(|&n| n < LEAST)
    }
}

impl Tally {
    pub fn count(&mut self, operation: Operation, answer: Answer) {
        let at = place(operation);
        match answer {
            Answer::Refused(Refusal { number, .. }) => self.refusals[number as usize][at] += 1,
            _ => self.done[at] += 1,
        }
    }

    pub fn count_short(&mut self, operation: Operation) {
        self.short[place(operation)] += 1;
    }

    pub fn count_any(&mut self, operation: Operation) {
        self.any[place(operation)] += 1;
    }

    /// The operations, but for those on states that none has made.
    pub fn operations(&self) -> usize {
        let refusals = self.refusals.iter().flatten();
        let others = self.done.iter().chain(&self.short);
        refusals.chain(others).sum()
    }

    /// For each answer how often each operation had it.
    pub fn rows(&self) -> Vec<Row> {
        let write = OPERATIONS.len() - 1;
        let mut rows = vec![
            row("DONE", &self.done, |at| at < write),
            row("WRITTEN", &self.done, |at| at == write),
        ];
        for (number, counts) in self.refusals.iter().enumerate() {
            if (0..OPERATIONS.len()).any(|at| can_refuse(at, number)) {
                let head = format!("refusal {number:2}");
                rows.push(row(&head, counts, |at| can_refuse(at, number)));
            }
        }
        rows.push(row("short state", &self.short, |_| true));
        // A start makes any state a good one.
        rows.push(row("any state", &self.any, |at| at > 0));
        rows
    }

    /// For each error in how many scripts it shows.
    pub fn slip_rows(&self) -> Vec<Row> {
        let slips = SLIPS.iter().zip(&self.slips);
        let row = |((_, name), &count): (&(Slip, &str), &usize)| Row {
            head: name.to_string(),
            counts: vec![Some(count)],
        };
        slips.map(row).collect()
    }
}

fn row(head: &str, counts: &Counts, can_come: impl Fn(usize) -> bool) -> Row {
    let counts = counts.iter().enumerate();
    Row {
        head: head.into(),
        counts: counts.map(|(at, &n)| can_come(at).then_some(n)).collect(),
    }
}

fn place(operation: Operation) -> usize {
    match operation {
        Operation::Start => 0,
        Operation::Role(_) => 1,
        Operation::Inclusion { .. } => 2,
        Operation::Concept(_) => 3,
        Operation::Root(_) => 4,
        Operation::Rule(_) => 5,
        Operation::Write(_) => 6,
    }
}

/// Can that operation be refused with that number, the state being long enough?
fn can_refuse(at: usize, number: usize) -> bool {
    let numbers: &[usize] = match OPERATIONS[at] {
        "role" => &[3, 25],
        "inclusion" => &[3, 5, 7],
        "concept" => &[4, 5, 6, 7, 25],
        "root" => &[8],
        "rule" => &[8, 25],
        "write" => &[2, 22],
        _ => &[],
    };
    numbers.contains(&number)
}
