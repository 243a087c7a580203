//! Inclusions that harm a third role. One chain of inclusions leads up from a role that is mostly
//! transitive, another to a role with a count or an "every"; then the first is put under the second.

use super::Maker;
use crate::paper::editor::Operation;

/// The two chains, each from below.
struct Chains {
    under: Vec<u8>,
    over: Vec<u8>,
}

impl Chains {
    /// The role that all others of the first chain are above.
    fn lowest(&self) -> u8 {
        self.under[0]
    }

    /// The role that all others of the second chain are below.
    fn highest(&self) -> u8 {
        self.over[self.over.len() - 1]
    }

    fn inclusions(&self) -> Vec<Operation> {
        let pairs = self.under.windows(2).chain(self.over.windows(2));
        pairs.map(|p| inclusion(p[0], p[1])).collect()
    }

    /// The inclusion that makes one chain of the two.
    fn joint(&self) -> Operation {
        inclusion(self.under[self.under.len() - 1], self.over[0])
    }
}

fn inclusion(role: u8, parent: u8) -> Operation {
    Operation::Inclusion { role, parent }
}

fn every(role: u8, literal: u8) -> Operation {
    Operation::Concept([3, role, literal, 0, 0, 0])
}

fn at_least(number: u8, role: u8, literal: u8) -> Operation {
    Operation::Concept([4, role, literal, 0, 0, number])
}

impl Maker<'_> {
    pub(super) fn harmed(&mut self) {
        let chains = self.chains();
        self.push(Operation::Concept([0; 6]));
        let mut parts = chains.inclusions();
        parts.extend(self.entries_on(&chains));
        self.r.shuffle(&mut parts);
        for part in parts {
            self.push(part);
        }
        let joined = self.push(chains.joint());
        if !joined && self.r.one_in(2) {
            // The "every" that may have been missing.
            for literal in 0..2 {
                self.push(every(chains.lowest(), literal));
            }
        }
        if self.r.one_in(2) {
            self.push(chains.joint());
        }
        for _ in 0..self.r.range(2, 7) {
            self.probe(&chains);
        }
    }

    /// Roles at any places of the table, with some that are in neither chain.
    fn chains(&mut self) -> Chains {
        let (under, over) = (self.r.range(1, 4), self.r.range(1, 4));
        let count = (under + over + self.r.below(3)) as u8;
        let mut places: Vec<u8> = (0..count).collect();
        self.r.shuffle(&mut places);
        let over = places[under..under + over].to_vec();
        let under = places[..under].to_vec();
        for role in 0..count {
            let transitive = match role == under[0] {
                true => !self.r.one_in(8),
                false => self.r.one_in(15),
            };
            self.push(Operation::Role(transitive as u8));
        }
        Chains { under, over }
    }

    /// Entries that the joint may harm: a count, an "every", both or none, on the highest role or
    /// now and then on another one above.
    fn entries_on(&mut self, chains: &Chains) -> Vec<Operation> {
        let mut entries = Vec::new();
        let role = match self.r.one_in(4) {
            true => self.r.pick(&chains.over),
            false => chains.highest(),
        };
        let literal = self.r.below(2) as u8;
        if self.r.one_in(3) {
            entries.push(at_least(1, role, literal));
        }
        if self.r.one_in(2) {
            entries.push(every(chains.highest(), literal));
            if self.r.one_in(3) {
                entries.push(every(chains.lowest(), literal));
            }
        }
        entries
    }

    /// An operation that shows what is held of a role of the chains.
    fn probe(&mut self, chains: &Chains) {
        let all = [&chains.under[..], &chains.over[..]].concat();
        let (role, other) = (self.r.pick(&all), self.r.pick(&all));
        let (number, literal) = (self.r.range(1, 3) as u8, self.few());
        let probe = match self.r.below(12) {
            0..=3 => at_least(number, role, literal),
            4..=6 => every(role, literal),
            7 => every(chains.lowest(), literal),
            8 => inclusion(role, other),
            // A circle.
            9 => inclusion(chains.highest(), chains.lowest()),
            10 => return self.any(),
            _ => return self.whole_every(),
        };
        self.push(probe);
    }
}
