//! Errors in walking the cells of a counting step with the roles kept from one cell to the next,
//! and whether an answer would show them.

use crate::paper::counting::OPEN;
use crate::steps::{Place, Weighed};

#[derive(Clone, Copy, PartialEq, Eq)]
pub enum Walk {
    /// A row that goes out takes all its roles along, also those of a row that stays.
    Takes,
    /// Rows never go out.
    Keeps,
    /// The roles are those of the cell before.
    Lags,
    /// Rows that change at an open cell are not seen to.
    Skips,
    /// The last cell is not tested.
    Stops,
}

pub const WALKS: [(Walk, &str); 5] = [
    (Walk::Takes, "walk takes"),
    (Walk::Keeps, "walk keeps"),
    (Walk::Lags, "walk lags"),
    (Walk::Skips, "walk skips"),
    (Walk::Stops, "walk stops"),
];

/// For each walk: would a checker with that error give another answer than the paper's?
pub fn shown(list: &Weighed) -> [bool; WALKS.len()] {
    let mut shown = [false; WALKS.len()];
    for place in list.tested() {
        for (shown, differs) in shown.iter_mut().zip(place.differ()) {
            *shown |= differs;
        }
    }
    shown
}

impl Place<'_> {
    /// For each walk: is the step refused with 18 where it should not be, or not where it should?
    fn differ(&self) -> [bool; WALKS.len()] {
        let right = self.cells().map(|cell| {
            let roles = self.roles(cell);
            (roles, self.passes(cell, roles))
        });
        let right: Vec<(u16, bool)> = right.collect();
        let passes = right.iter().all(|(_, passes)| *passes);
        WALKS.map(|(walk, _)| {
            let mut cells = self.walked(walk).into_iter().zip(&right).enumerate();
            let all_pass = cells.all(|(i, (roles, right))| match roles == right.0 {
                true => right.1,
                false => self.passes(i + 1, roles),
            });
            all_pass != passes
        })
    }

    /// The roles that a walk has at each cell it tests.
    fn walked(&self, walk: Walk) -> Vec<u16> {
        let cells = &self.step.cells;
        let (mut roles, mut held) = (0, 0);
        let mut walked = Vec::new();
        for cell in 1..=cells.len() {
            let changed = cell ^ (cell - 1);
            let (gone, come) = (changed & !cell, changed & cell);
            match walk {
                Walk::Takes => roles = roles & !self.roles(gone) | self.roles(come),
                Walk::Keeps => roles |= self.roles(come),
                Walk::Lags => roles = self.roles(cell - 1),
                Walk::Skips if cells[cell - 1] == OPEN => {}
                Walk::Skips => {
                    held = held & !gone | come;
                    roles = self.roles(held);
                }
                Walk::Stops if cell == cells.len() => break,
                Walk::Stops => roles = self.roles(cell),
            }
            walked.push(roles);
        }
        walked
    }
}
