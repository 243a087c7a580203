//! Tables filled to their limits and past them, and whole descriptions put in item by item.

use super::Maker;
use crate::encode;
use crate::make::descriptions;
use crate::paper::description::{Concept, Description, Role, MOST_ENTRIES, MOST_ROLES, MOST_RULES};
use crate::paper::editor::Operation;

/// So many refusals in a row, and items are put in another order.
const PATIENCE: usize = 8;

/// Items of one kind, in the order in which they must go in; the inclusions may in any.
type Queues = [Vec<Operation>; 5];

const INCLUSIONS: usize = 2;

impl Maker<'_> {
    /// One table or all three are filled, then more is added.
    pub(super) fn full(&mut self) {
        self.push(Operation::Concept([0; 6]));
        let which = self.r.below(10);
        if which <= 3 || which == 9 {
            while self.roles() < MOST_ROLES {
                self.role();
            }
            for _ in 0..self.r.below(20) {
                self.inclusion();
            }
        }
        if which >= 8 {
            self.fill_entries();
        }
        if (4..=7).contains(&which) || which == 9 {
            while self.editor.rules.len() < MOST_RULES {
                self.rule();
            }
        }
        for _ in 0..self.r.range(4, 12) {
            self.past();
        }
    }

    fn fill_entries(&mut self) {
        while self.entries() < MOST_ENTRIES {
            match self.r.below(6) {
                0 if self.roles() < MOST_ROLES => self.role(),
                1 => self.inclusion(),
                2..=3 => self.concept(),
                _ => {
                    self.push(Operation::Concept([1, 0, 0, 0, 0, 0]));
                }
            }
        }
    }

    /// An operation that is most telling where its table is full.
    fn past(&mut self) {
        let last = self.r.pick(&[14, 15, 15, 16]);
        let other = self.r.below(17) as u8;
        match self.r.below(8) {
            0..=1 => self.role(),
            2 => self.rule(),
            3 => self.concept(),
            4 => self.spoiled(),
            5 => {
                let literal = self.r.pick(&[126, 127, 128, 255, 0]);
                let both = [Operation::Root(literal), Operation::Rule(literal)];
                let operation = self.r.pick(&both);
                self.push(operation);
            }
            6 => {
                let (role, parent) = self.r.pick(&[(last, other), (other, last), (last, last)]);
                self.push(Operation::Inclusion { role, parent });
            }
            _ => self.any(),
        }
    }

    /// The items of a description in any order in which they go, or tables first. Gives its bytes.
    pub(super) fn replayed(&mut self) -> Vec<u8> {
        let mut description = descriptions::random(self.r);
        // The editor has no operation for a fourth part.
        description.apart = None;
        let mut queues = items(&description);
        self.r.shuffle(&mut queues[INCLUSIONS]);
        let mix = self.r.one_in(2);
        if !mix || !self.mixed(queues.clone()) {
            if mix {
                self.push(Operation::Start);
            }
            self.in_order(queues);
        }
        encode::description(&description)
    }

    /// Inclusions come behind all entries, so that nothing can be missing.
    fn in_order(&mut self, queues: Queues) {
        for operation in queues.concat() {
            if self.r.one_in(8) {
                self.refused();
            }
            self.push(operation);
        }
    }

    /// The first items of the queues in any order; what is refused is tried again later. False if
    /// it does not end.
    fn mixed(&mut self, mut queues: Queues) -> bool {
        queues.iter_mut().for_each(|queue| queue.reverse());
        let mut refused = 0;
        while refused < PATIENCE {
            let waiting: Vec<usize> = (0..5).filter(|&q| !queues[q].is_empty()).collect();
            if waiting.is_empty() {
                return true;
            }
            if self.r.one_in(8) {
                self.refused();
            }
            let queue = self.r.pick(&waiting);
            let operation = queues[queue][queues[queue].len() - 1];
            match self.push(operation) {
                true => {
                    queues[queue].pop();
                    refused = 0;
                }
                false => {
                    // Another inclusion comes first; the other queues keep their order.
                    self.r.shuffle(&mut queues[INCLUSIONS]);
                    refused += 1;
                }
            }
        }
        false
    }

    /// An operation that is refused in whatever state.
    fn refused(&mut self) {
        let (any, past) = (self.r.byte(), self.r.range(128, 255) as u8);
        let operations = [
            Operation::Role(past),
            Operation::Inclusion {
                role: past,
                parent: any,
            },
            Operation::Inclusion {
                role: any,
                parent: past,
            },
            Operation::Concept([past, any, any, any, any, any]),
            Operation::Concept([4, 0, 0, 0, 0, 0]),
            Operation::Concept([2, 0, past, 0, 0, 0]),
            Operation::Root(past),
            Operation::Rule(past),
        ];
        let operation = self.r.pick(&operations);
        self.push(operation);
    }
}

/// Roles, entries, inclusions, roots (the last counts) and rules.
fn items(description: &Description) -> Queues {
    let mut inclusions = Vec::new();
    for (role, record) in description.roles.iter().enumerate() {
        let parents = (0..16).filter(|j| record.parents >> j & 1 == 1);
        inclusions.extend(parents.map(|parent| Operation::Inclusion {
            role: role as u8,
            parent,
        }));
    }
    let role = |role: &Role| Operation::Role(role.transitive as u8);
    let concept = |concept: &Concept| Operation::Concept(encode::entry(concept));
    let rules = description.rules.iter().copied();
    [
        description.roles.iter().map(role).collect(),
        description.concepts.iter().map(concept).collect(),
        inclusions,
        vec![Operation::Root(1), Operation::Root(description.root)],
        rules.map(Operation::Rule).collect(),
    ]
}
