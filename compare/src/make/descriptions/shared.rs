//! Rows whose roles have ancestors in common, so that a cell owes a role to several of its rows
//! and from one cell to the next keeps it or loses it.

use super::Maker;
use crate::paper::description::{Concept, Role};
use crate::paper::label::{opposite, Literal};
use crate::random::Random;

/// One to three roles above, of which each may be transitive, and two to four below, each in any
/// of those above and now and then in one another. So two rows have one role, or an ancestor in
/// common, or nothing.
pub(super) fn roles(r: &mut Random) -> Vec<Role> {
    let (above, below) = (r.range(1, 3), r.range(2, 4));
    let mut roles = Vec::new();
    for i in 0..above + below {
        let mut parents = 0u16;
        for j in 0..i {
            let often = if j < above { 2 } else { 8 };
            if r.one_in(often) {
                parents |= 1 << j;
            }
        }
        let transitive = i < above && r.one_in(2);
        roles.push(Role {
            transitive,
            parents,
        });
    }
    roles
}

/// What is joined in the root: a number (counts only), a role and a literal.
#[derive(Clone, Copy)]
pub(super) enum Part {
    AtLeast(usize, usize, Literal),
    AtMost(usize, usize, Literal),
    Some(usize, Literal),
    Every(usize, Literal),
}

impl Maker<'_> {
    /// A root with two rows that no fillers meet together, and others that give cells more roles.
    pub(super) fn shared(&mut self) {
        self.size.most = self.size.most.max(32);
        if self.rows_that_share().is_none() {
            self.loose();
        }
    }

    fn rows_that_share(&mut self) -> Option<()> {
        let pool = self.some_names()?;
        let (lower, upper) = self.below_and_above()?;
        let (l, number) = (self.r.pick(&pool), self.some_number().min(999));
        // Not a count and its own complement: those would clash without a counting step.
        let parts = vec![
            Part::AtLeast(number + 1, lower, l),
            Part::AtMost(number - 1, upper, l),
        ];
        self.with_others(parts, &pool)
    }

    pub(super) fn some_names(&mut self) -> Option<Vec<Literal>> {
        let count = self.r.range(2, 4);
        (0..count).map(|_| self.entry(Concept::Name)).collect()
    }

    /// A root that joins these parts with some others, which need not be met.
    pub(super) fn with_others(&mut self, mut parts: Vec<Part>, pool: &[Literal]) -> Option<()> {
        for _ in 0..self.r.range(1, 4) {
            parts.push(self.row_beside(pool));
        }
        for _ in 0..self.r.range(1, 4) {
            let (role, l) = (self.role(), self.r.pick(pool));
            parts.push(Part::Every(role, self.either(l)));
        }
        // Entries are numbered, and rows ordered, as they come.
        self.r.shuffle(&mut parts);
        let joined: Vec<Literal> = parts.iter().filter_map(|&p| self.joined(p)).collect();
        self.description.root = self.all_of(&joined)?;
        Some(())
    }

    /// Two roles that can be counted, the second an ancestor of the first.
    fn below_and_above(&mut self) -> Option<(usize, usize)> {
        let description = &self.description;
        let simple: Vec<usize> = (0..description.roles.len())
            .filter(|&s| description.simple(s))
            .collect();
        let pairs: Vec<(usize, usize)> = simple
            .iter()
            .flat_map(|&a| simple.iter().map(move |&b| (a, b)))
            .filter(|&(a, b)| description.has_ancestor(a, b))
            .collect();
        (!pairs.is_empty()).then(|| self.r.pick(&pairs))
    }

    /// Any row; it need not be met.
    fn row_beside(&mut self, pool: &[Literal]) -> Part {
        let (role, l) = (self.role(), self.r.pick(pool));
        let l = self.either(l);
        let number = self.some_number();
        match self.r.below(5) {
            0..=1 if self.description.simple(role) => Part::AtLeast(number, role, l),
            2..=3 if self.description.simple(role) => Part::AtMost(number - 1, role, l),
            _ => Part::Some(role, l),
        }
    }

    /// The literal of a part, once its entries are there.
    fn joined(&mut self, part: Part) -> Option<Literal> {
        match part {
            Part::AtLeast(number, role, l) => self.at_least(number, role, l),
            Part::AtMost(number, role, l) => self.at_least(number + 1, role, l).map(opposite),
            Part::Some(role, l) => self.every(role, opposite(l)).map(opposite),
            Part::Every(role, l) => self.every(role, l),
        }
    }
}
