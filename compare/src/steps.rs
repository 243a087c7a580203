//! The counting steps of a list that has been weighed, for errors that an answer would show.

use crate::paper::counting::{byte_fits, cell_by_roles, cell_roles, row, Row};
use crate::paper::description::Description;
use crate::paper::evidence::{closings, head, Closing, Counting, Head, Step};
use crate::paper::label::Label;
use crate::paper::{Answer, Refusal};
use std::ops::RangeInclusive;

/// A list in the form that 10 asks for, with the paper's answer to it: the evidence of a question
/// or the first piece of a claim.
pub struct Weighed {
    pub description: Description,
    pub closings: Vec<Closing>,
    answer: Answer,
}

impl Weighed {
    pub fn of(description: &[u8], evidence: &[u8], answer: Answer) -> Option<Weighed> {
        let description = Description::read(description).ok()?;
        let Ok(Head::List(records)) = head(evidence) else {
            return None;
        };
        let closings = closings(&records, description.width()).ok()?;
        Some(Weighed {
            description,
            closings,
            answer,
        })
    }

    /// The counting steps that came to the test of their cells.
    pub fn tested(&self) -> impl Iterator<Item = Place<'_>> {
        (0..self.count_tested()).filter_map(|record| self.place(record))
    }

    /// How many records came to the test of their cells.
    fn count_tested(&self) -> usize {
        let Answer::Refused(Refusal { number, record }) = self.answer else {
            return self.closings.len();
        };
        match number {
            ..=9 | 24 => 0,
            16..=17 => record as usize,
            18..=19 => record as usize + 1,
            // The end, or the second piece.
            _ => self.closings.len(),
        }
    }

    /// A counting step whose rows are rows.
    pub fn place(&self, record: usize) -> Option<Place<'_>> {
        let Closing { label, step } = &self.closings[record];
        let Step::Counting(step) = step else {
            return None;
        };
        let is_literal = |&l: &u8| self.description.in_table(l);
        if !step.rows.iter().all(is_literal) {
            return None;
        }
        let rows = step.rows.iter().map(|&l| row(&self.description, l));
        Some(Place {
            description: &self.description,
            closings: &self.closings,
            record,
            label: *label,
            step,
            rows: rows.collect::<Option<_>>()?,
        })
    }
}

pub struct Place<'a> {
    pub description: &'a Description,
    pub closings: &'a [Closing],
    pub record: usize,
    pub label: Label,
    pub step: &'a Counting,
    pub rows: Vec<Row>,
}

impl Place<'_> {
    pub fn cells(&self) -> RangeInclusive<usize> {
        1..=self.step.cells.len()
    }

    pub fn byte(&self, cell: usize) -> u8 {
        self.step.cells[cell - 1]
    }

    /// The roles of the rows of a cell.
    pub fn roles(&self, cell: usize) -> u16 {
        cell_roles(self.description, &self.rows, cell)
    }

    /// Does the cell's byte fit what these roles make of it?
    pub fn passes(&self, cell: usize, roles: u16) -> bool {
        let answer = cell_by_roles(self.description, self.label, &self.rows, cell, roles);
        byte_fits(self.byte(cell), answer, self.closings)
    }
}
