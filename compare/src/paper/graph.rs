//! The rules of a graph, 11 to 15.

use super::description::{Concept, Description};
use super::evidence::{Edge, Node};
use super::label::{opposite, Label, Literal};
use super::Refusal;

/// One record of a graph, with what its rules ask about.
struct Place<'a> {
    description: &'a Description,
    /// What record 0 has to have: the root, or literals of a claim.
    wanted: Label,
    nodes: &'a [Node],
    record: usize,
}

type Rule<'a> = fn(&Place<'a>) -> bool;

/// Records rising, and within one the smallest number.
pub fn weigh<'a>(
    description: &'a Description,
    wanted: Label,
    nodes: &'a [Node],
) -> Result<(), Refusal> {
    let rules: [(u8, Rule<'a>); 5] = [
        (11, Place::label),
        (12, Place::both),
        (13, Place::edges),
        (14, Place::every),
        (15, Place::count),
    ];
    for record in 0..nodes.len() {
        let place = Place {
            description,
            wanted,
            nodes,
            record,
        };
        for (number, keeps) in rules {
            if !keeps(&place) {
                return Err(Refusal::at(number, record));
            }
        }
    }
    Ok(())
}

impl Place<'_> {
    fn node(&self) -> &Node {
        &self.nodes[self.record]
    }

    fn has(&self, l: Literal) -> bool {
        self.node().label.has(l)
    }

    /// The edges of a role.
    fn edges_of(&self, role: usize) -> impl Iterator<Item = &Edge> {
        let edges = self.node().edges.iter();
        edges.filter(move |edge| edge.mask >> role & 1 == 1)
    }

    fn target_has(&self, edge: &Edge, l: Literal) -> bool {
        self.nodes[edge.target].label.has(l)
    }

    /// Asks a rule of each entry: whether it is in the label, and whether its complement is.
    fn each_entry(&self, keeps: impl Fn(&Concept, bool, bool) -> bool) -> bool {
        let mut concepts = self.description.concepts.iter().enumerate();
        concepts.all(|(e, concept)| {
            let literal = 2 * e as Literal;
            keeps(concept, self.has(literal), self.has(opposite(literal)))
        })
    }

    /// 11: in the table, literal 0, all rules, no clash; record 0 has the literals wanted.
    fn label(&self) -> bool {
        let label = self.node().label;
        label.in_table(self.description.concepts.len())
            && label.has(0)
            && self.description.rules.iter().all(|&l| label.has(l))
            && !label.clashes()
            && (self.record != 0 || self.wanted.within(label))
    }

    /// 12: "both" brings both literals, its complement the opposite of one.
    fn both(&self) -> bool {
        self.each_entry(|concept, held, denied| match *concept {
            Concept::Both(a, b) => {
                (!held || self.has(a) && self.has(b))
                    && (!denied || self.has(opposite(a)) || self.has(opposite(b)))
            }
            _ => true,
        })
    }

    /// 13: the target is a record, the mask is not empty, has roles of the table only, holds
    /// their ancestors and not both roles of a record, and the count is 1 to 1,000.
    fn edges(&self) -> bool {
        let roles = self.description.roles.len();
        let mask_ok = |mask: u16| {
            let held = |r: usize| mask >> r & 1 == 1;
            mask != 0
                && !(roles..16).any(held)
                && (0..roles).all(|r| !held(r) || self.description.ancestors[r] & !mask == 0)
                && !self.description.barred(mask)
        };
        self.node().edges.iter().all(|edge| {
            edge.target < self.nodes.len() && mask_ok(edge.mask) && (1..=1000).contains(&edge.count)
        })
    }

    /// 14: "every R l" reaches each R edge's target and goes on along transitive roles;
    /// its complement has a witness.
    fn every(&self) -> bool {
        self.each_entry(|concept, held, denied| match *concept {
            Concept::Every { role, literal } => {
                let carried = |edge: &Edge| self.carries(edge, role, literal);
                let witness = |edge: &Edge| self.target_has(edge, opposite(literal));
                (!held || self.edges_of(role).all(carried))
                    && (!denied || self.edges_of(role).any(witness))
            }
            _ => true,
        })
    }

    /// The target has l and, for each transitive T on the edge with ancestor R, "every T l".
    fn carries(&self, edge: &Edge, role: usize, literal: Literal) -> bool {
        let below = self.description.transitive_below(role).into_iter();
        let mut on_edge = below.filter(|&t| edge.mask >> t & 1 == 1);
        let every_held = |t: usize| match self.description.every_entry(t, literal) {
            Some(entry) => self.target_has(edge, 2 * entry as Literal),
            None => false,
        };
        self.target_has(edge, literal) && on_edge.all(every_held)
    }

    /// 15: the counts to targets with l total n or more; for the complement at most n-1, and
    /// each target has l or its opposite.
    fn count(&self) -> bool {
        self.each_entry(|concept, held, denied| match *concept {
            Concept::AtLeast {
                number,
                role,
                literal,
            } => {
                let number = number as u32;
                let counted = |edge: &&Edge| self.target_has(edge, literal);
                let denies = |edge: &Edge| self.target_has(edge, opposite(literal));
                let edges = self.edges_of(role).filter(counted);
                let total: u32 = edges.map(|edge| edge.count as u32).sum();
                let decided = self
                    .edges_of(role)
                    .all(|edge| counted(&edge) || denies(edge));
                (!held || total >= number) && (!denied || total < number && decided)
            }
            _ => true,
        })
    }
}
