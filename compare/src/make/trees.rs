//! Trees of a counting step, by a small search over multipliers and splits.

use crate::paper::counting::{leaf_closes, Bound, Row};
use crate::paper::evidence::Tree;
use crate::random::Random;

/// A tree that closes, if a small search finds one.
pub fn search(r: &mut Random, rows: &[Row], open: &[usize]) -> Option<Tree> {
    let bounds = rows.iter().enumerate();
    let mut search = Search {
        r,
        open,
        bounds: bounds.map(|(i, row)| Bound::of_row(i, row)).collect(),
        fuel: 40,
    };
    let splits = search.r.pick(&[0, 2, 3, 4, 6, 8]);
    search.half(splits)
}

struct Search<'a> {
    r: &'a mut Random,
    open: &'a [usize],
    bounds: Vec<Bound>,
    /// Leaves that may still be tried.
    fuel: usize,
}

impl Search<'_> {
    /// A tree below the present bounds with at most so many splits on a path.
    fn half(&mut self, splits: usize) -> Option<Tree> {
        if self.fuel == 0 {
            return None;
        }
        self.fuel -= 1;
        let may_split = splits > 0 && !self.open.is_empty();
        // At times a split that is not needed, so that deep trees are common.
        if !(may_split && self.r.one_in(4)) {
            if let Some(multipliers) = self.multipliers() {
                return Some(Tree::Leaf(multipliers));
            }
        }
        if !may_split {
            return None;
        }
        let cell = self.r.pick(self.open);
        let value = if self.r.one_in(6) {
            self.r.pick(&[4, 10, 998, 999, 1000])
        } else {
            self.r.below(3) as u16
        };
        let at_most = self.below(Bound::at_most(cell, value), splits - 1)?;
        let at_least = self.below(Bound::at_least_more(cell, value), splits - 1)?;
        Some(Tree::Split {
            cell: cell as u8,
            value,
            at_most: Box::new(at_most),
            at_least: Box::new(at_least),
        })
    }

    fn below(&mut self, bound: Bound, splits: usize) -> Option<Tree> {
        self.bounds.push(bound);
        let half = self.half(splits);
        self.bounds.pop();
        half
    }

    /// Small multipliers that close a leaf: 0 and 1 first, then up to 2 or 3 if few.
    fn multipliers(&self) -> Option<Vec<u8>> {
        let n = self.bounds.len();
        let tops: &[u8] = match n {
            0..=5 => &[1, 3],
            6..=7 => &[1, 2],
            _ => &[1],
        };
        tops.iter().find_map(|&top| self.up_to(top, n))
    }

    fn up_to(&self, top: u8, n: usize) -> Option<Vec<u8>> {
        let mut multipliers = vec![0; n];
        loop {
            // The next number in base top + 1.
            let place = multipliers.iter().position(|&m| m < top)?;
            multipliers[..place].fill(0);
            multipliers[place] += 1;
            if leaf_closes(&multipliers, self.open, &self.bounds) {
                return Some(multipliers);
            }
        }
    }
}
