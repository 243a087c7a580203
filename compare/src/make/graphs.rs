//! Graphs by an expansion like a tableau's: labels are completed to the rules, and each
//! demand of a label gets an edge. Choices are random; a graph that breaks a rule is dropped.

use crate::paper::counting::{row, Row, Side};
use crate::paper::description::{Concept, Description};
use crate::paper::evidence::{Edge, Node, MOST_EDGES};
use crate::paper::graph;
use crate::paper::label::{opposite, Label, Literal};
use crate::random::Random;

/// A graph that keeps the rules and whose record 0 has the literals wanted, if a few tries
/// find one.
pub fn search(
    r: &mut Random,
    description: &Description,
    wanted: Label,
    tries: usize,
) -> Option<Vec<Node>> {
    for _ in 0..tries {
        let mut maker = Maker {
            merge: r.below(3),
            most: if r.one_in(10) { 64 } else { 10 },
            r,
            description,
            nodes: Vec::new(),
        };
        let found = maker.expand(wanted).is_some();
        if found && graph::weigh(description, wanted, &maker.nodes).is_ok() {
            return Some(maker.nodes);
        }
    }
    None
}

struct Maker<'a> {
    r: &'a mut Random,
    description: &'a Description,
    nodes: Vec<Node>,
    /// How gladly one edge serves several demands: never, at times, always.
    merge: usize,
    /// No more nodes than these.
    most: usize,
}

/// A lower row with what is still missing.
struct Demand {
    row: Row,
    left: i64,
}

impl Maker<'_> {
    fn expand(&mut self, wanted: Label) -> Option<()> {
        self.node(wanted)?;
        if self.r.one_in(4) {
            // Nodes that nothing leads to must keep the rules as well.
            for _ in 0..self.r.range(1, 4) {
                let l = self.r.below(2 * self.description.concepts.len());
                self.node(Label::of(&[l as Literal]));
            }
        }
        let mut i = 0;
        while i < self.nodes.len() {
            self.connect(i)?;
            i += 1;
        }
        Some(())
    }

    /// A new node whose label is completed from a seed.
    fn node(&mut self, seed: Label) -> Option<usize> {
        if self.nodes.len() >= self.most {
            return None;
        }
        let label = self.complete(seed)?;
        self.nodes.push(Node {
            label,
            edges: Vec::new(),
        });
        Some(self.nodes.len() - 1)
    }

    /// Literal 0, all rules, and what each "both" brings.
    fn complete(&mut self, seed: Label) -> Option<Label> {
        let mut label = seed.with(0).join(Label::of(&self.description.rules));
        if self.r.one_in(4) {
            let l = self.r.below(2 * self.description.concepts.len()) as Literal;
            if !label.has(opposite(l)) {
                label = label.with(l);
            }
        }
        loop {
            let before = label;
            for (e, concept) in self.description.concepts.iter().enumerate().rev() {
                let Concept::Both(a, b) = *concept else {
                    continue;
                };
                let own = 2 * e as Literal;
                if label.has(own) {
                    label = label.with(a).with(b);
                }
                let open = !label.has(opposite(a)) && !label.has(opposite(b));
                if label.has(opposite(own)) && open {
                    let first = label.has(b) || !label.has(a) && self.r.one_in(2);
                    label = label.with(opposite(if first { a } else { b }));
                }
            }
            if label.clashes() {
                return None;
            }
            if label == before {
                return Some(label);
            }
        }
    }

    /// Gives a node the edges that its label asks for.
    fn connect(&mut self, i: usize) -> Option<()> {
        let label = self.nodes[i].label;
        let literals = (0..2 * self.description.concepts.len()).map(|l| l as Literal);
        let rows: Vec<Row> = literals
            .filter(|&l| label.has(l))
            .filter_map(|l| row(self.description, l))
            .collect();
        let lower = rows.iter().filter(|row| row.side == Side::Lower);
        let mut demands: Vec<Demand> = lower
            .map(|&row| Demand {
                row,
                left: row.bound,
            })
            .collect();
        self.r.shuffle(&mut demands);
        while let Some(first) = demands.iter().position(|demand| demand.left > 0) {
            let (mask, seed, most) = self.filler(label, &rows, &demands, first)?;
            let target = self.target(seed)?;
            let count = if most > 1 && self.r.one_in(6) {
                self.r.range(1, most as usize) as i64
            } else {
                most
            };
            self.nodes[i].edges.push(Edge {
                target,
                mask,
                count: count as u16,
            });
            if self.nodes[i].edges.len() > MOST_EDGES {
                return None;
            }
            let reached = self.nodes[target].label;
            for demand in &mut demands {
                let row = demand.row;
                if mask >> row.role & 1 == 1 && reached.has(row.qualifier) {
                    demand.left -= count;
                }
            }
        }
        Some(())
    }

    /// The mask, the seed of the label and the count of an edge for one demand and some others.
    fn filler(
        &mut self,
        label: Label,
        rows: &[Row],
        demands: &[Demand],
        first: usize,
    ) -> Option<(u16, Label, i64)> {
        let start = &demands[first];
        let mut mask = self.description.ancestors[start.row.role];
        let mut wanted = Label::of(&[0, start.row.qualifier]);
        let mut count = start.left;
        for demand in demands.iter().filter(|demand| demand.left > 0) {
            let joins = self.merge == 2 || self.merge == 1 && self.r.one_in(2);
            let joined = mask | self.description.ancestors[demand.row.role];
            let shared = !wanted.has(opposite(demand.row.qualifier));
            if joins && shared && !self.description.barred(joined) {
                mask = joined;
                wanted = wanted.with(demand.row.qualifier);
                count = count.min(demand.left);
            }
        }
        let mut seed = wanted.join(self.carried(label, mask));
        for row in rows.iter().filter(|row| row.side == Side::Upper) {
            let q = row.qualifier;
            if mask >> row.role & 1 == 1 && !seed.has(q) && !seed.has(opposite(q)) {
                seed = seed.with(if self.r.one_in(4) { q } else { opposite(q) });
            }
        }
        (!seed.clashes()).then_some((mask, seed, count))
    }

    /// What the label's "every" entries say of the target of an edge with that mask.
    fn carried(&self, label: Label, mask: u16) -> Label {
        let mut seed = Label::default();
        for (e, concept) in self.description.concepts.iter().enumerate() {
            let Concept::Every { role, literal } = *concept else {
                continue;
            };
            if !label.has(2 * e as Literal) || mask >> role & 1 == 0 {
                continue;
            }
            seed = seed.with(literal);
            for t in self.description.transitive_below(role) {
                if let (1, Some(every)) = (mask >> t & 1, self.description.every_entry(t, literal))
                {
                    seed = seed.with(2 * every as Literal);
                }
            }
        }
        seed
    }

    /// A node whose label has the seed, an old one if it can be.
    fn target(&mut self, seed: Label) -> Option<usize> {
        let fits = |node: &Node| seed.within(node.label);
        match self.nodes.iter().position(fits) {
            Some(old) if !self.r.one_in(5) => Some(old),
            _ => self.node(seed),
        }
    }
}
