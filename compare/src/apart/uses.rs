//! Errors in 13 and in the reading of a line.

use super::{Case, Input, Lapse};
use crate::paper::description::Description;
use crate::paper::evidence::{head, nodes, Head, Node};
use crate::paper::label::opposite;
use crate::paper::line::Line;
use crate::paper::{claim, Answer};

pub(super) const LAPSES: [Lapse; 8] = [
    ("edge both", edge_both),
    ("edge first", edge_first),
    ("edge turned", edge_turned),
    ("edge joined", edge_joined),
    ("edge written", edge_written),
    ("line both", line_both),
    ("line first", line_first),
    ("line form", line_form),
];

impl Case<'_> {
    /// The answer to the graph that is refused with 13, under another description.
    fn graph_under(&self, description: &[u8]) -> Answer {
        match self.asked.input {
            // The second piece, as a claim of its own that wants the same of its record 0.
            Input::Claim { c, second, .. } if !second.is_empty() => {
                claim(description, c, opposite(c), second, &[])
            }
            _ => self.asked.under(description),
        }
    }

    /// Would it not be refused with 13 if only those records were asked?
    fn edge_with(&self, kept: impl Fn(usize, [u8; 2]) -> bool) -> bool {
        let others = self.asked.with_records(kept);
        let others = others.filter(|_| self.asked.number() == 13);
        others.is_some_and(|others| self.graph_under(&others) != self.asked.answer)
    }

    /// The graph of a good answer, with the description.
    fn good_graph(&self) -> Option<(Description, Vec<Node>)> {
        let bytes = match (&self.asked.input, self.asked.answer) {
            (Input::Check(graph), Answer::Inhabited) => graph,
            (Input::Write(graph, _), Answer::Written) => graph,
            (Input::Claim { first, .. }, Answer::Fails) => first,
            (Input::Claim { second, .. }, Answer::Holds) => second,
            _ => return None,
        };
        let description = Description::read(self.asked.description).ok()?;
        let Ok(Head::Graph(records)) = head(bytes) else {
            return None;
        };
        let nodes = nodes(&records, description.width()).ok()?;
        Some((description, nodes))
    }

    /// Would a line hold if only those records were asked?
    fn line_with(&self, kept: impl Fn(usize, [u8; 2]) -> bool) -> bool {
        if !matches!(self.asked.input, Input::Read(_)) || self.asked.answer != Answer::Fails {
            return false;
        }
        let others = self.asked.with_records(kept);
        others.is_some_and(|others| self.asked.under(&others) == Answer::Holds)
    }
}

/// An edge may hold both roles of a record.
fn edge_both(case: &Case) -> bool {
    case.edge_with(|_, _| false)
}

/// Only the first record is asked of edges.
fn edge_first(case: &Case) -> bool {
    case.edge_with(|i, _| i == 0)
}

/// A record is asked of edges only if its first role is below its second.
fn edge_turned(case: &Case) -> bool {
    case.edge_with(|_, [a, b]| a < b)
}

/// Edges to one node are taken for one.
fn edge_joined(case: &Case) -> bool {
    let Some((description, nodes)) = case.good_graph() else {
        return false;
    };
    let joined = |node: &Node, target: usize| {
        let edges = node.edges.iter().filter(|edge| edge.target == target);
        edges.fold(0, |mask, edge| mask | edge.mask)
    };
    let mut places = nodes
        .iter()
        .flat_map(|node| (0..nodes.len()).map(move |y| (node, y)));
    places.any(|(node, y)| description.barred(joined(node, y)))
}

/// The writer lets an edge hold both.
fn edge_written(case: &Case) -> bool {
    matches!(case.asked.input, Input::Write(..)) && edge_both(case)
}

/// No record is asked of a line.
fn line_both(case: &Case) -> bool {
    case.line_with(|_, _| false)
}

/// Only the first record is asked of a line.
fn line_first(case: &Case) -> bool {
    case.line_with(|i, _| i == 0)
}

/// A line with both roles of a record on one pair is refused with 23.
fn line_form(case: &Case) -> bool {
    let (Input::Read(line), Answer::Fails) = (&case.asked.input, case.asked.answer) else {
        return false;
    };
    let Ok(description) = Description::read(case.asked.description) else {
        return false;
    };
    let line = Line::read(&description, line);
    line.is_ok_and(|line| {
        line.pairs
            .iter()
            .flatten()
            .any(|&mask| description.barred(mask))
    })
}
