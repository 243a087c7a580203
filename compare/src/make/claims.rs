//! Claims with evidence that keeps the rules, for each of the three answers.

use crate::encode;
use crate::make::refutations::Known;
use crate::make::{graphs, refutations};
use crate::paper::description::{Concept, Description};
use crate::paper::evidence::{Closing, Node};
use crate::paper::label::{opposite, Label, Literal, Width};
use crate::random::Random;

/// A piece of evidence.
#[derive(Clone)]
pub enum Piece {
    Graph(Vec<Node>),
    List(Vec<Closing>),
}

impl Piece {
    pub fn bytes(&self, width: Width) -> Vec<u8> {
        match self {
            Piece::Graph(nodes) => encode::graph(width, nodes),
            Piece::List(closings) => encode::list(width, closings),
        }
    }
}

/// "Every C is D", with one piece of evidence or two.
pub struct Claim {
    pub c: Literal,
    pub d: Literal,
    pub first: Piece,
    pub second: Option<Piece>,
}

/// A claim with its evidence, if small searches find some.
pub fn search(r: &mut Random, description: &Description) -> Option<Claim> {
    let (c, d) = match r.below(11) {
        0..=3 => first_empty(r, description)?,
        4 => parts(r, description)?,
        5..=6 => counts(r, description)?,
        7 => special(r, description),
        // Often there is no line with the root.
        8..=9 => (description.root, literal(r, description)),
        _ => (literal(r, description), literal(r, description)),
    };
    decide(r, description, c, d)
}

/// Evidence for the one answer that is true of two literals.
fn decide(r: &mut Random, description: &Description, c: Literal, d: Literal) -> Option<Claim> {
    let subject = Label::of(&[c]);
    let exception = Label::of(&[c, opposite(d)]);
    let (first, second) = if let Some(nodes) = graphs::search(r, description, exception, 3) {
        (Piece::Graph(nodes), None)
    } else if let Some(nodes) = graphs::search(r, description, subject, 3) {
        let closings = refutations::search(r, description, exception, Known::AsSaid, 3)?;
        (Piece::List(closings), Some(Piece::Graph(nodes)))
    } else {
        let closings = refutations::search(r, description, subject, Known::AsSaid, 3)?;
        (Piece::List(closings), None)
    };
    Some(Claim {
        c,
        d,
        first,
        second,
    })
}

fn literal(r: &mut Random, description: &Description) -> Literal {
    r.below(2 * description.concepts.len()) as Literal
}

/// The root is often a "both" of a "both" and so on. Of the innermost one without a graph, say
/// both(a, b), it is mostly true that something has a and nothing both: every a is not b.
fn first_empty(r: &mut Random, description: &Description) -> Option<(Literal, Literal)> {
    let mut chain = Vec::new();
    let mut l = description.root;
    while let (0, Concept::Both(a, b)) = (l % 2, &description.concepts[l as usize / 2]) {
        chain.push((*a, *b));
        l = *a;
    }
    let no_graph = |&(a, b): &(Literal, Literal)| {
        graphs::search(r, description, Label::of(&[a, b]), 3).is_none()
    };
    let (a, b) = chain.into_iter().rev().find(no_graph)?;
    Some((a, opposite(b)))
}

/// A "both" and one of its literals, or its complement and an opposite.
fn parts(r: &mut Random, description: &Description) -> Option<(Literal, Literal)> {
    let mut found = Vec::new();
    for (e, concept) in description.concepts.iter().enumerate() {
        if let Concept::Both(a, b) = *concept {
            let own = 2 * e as Literal;
            found.extend([(own, a), (own, b)]);
        }
    }
    if found.is_empty() {
        return None;
    }
    let (own, part) = r.pick(&found);
    Some(if r.one_in(4) {
        (opposite(part), opposite(own))
    } else {
        (own, part)
    })
}

/// Two literals of "at least" and "every" entries.
fn counts(r: &mut Random, description: &Description) -> Option<(Literal, Literal)> {
    let mut found = Vec::new();
    for (e, concept) in description.concepts.iter().enumerate() {
        if let Concept::AtLeast { .. } | Concept::Every { .. } = concept {
            let own = 2 * e as Literal;
            found.extend([own, opposite(own)]);
        }
    }
    (!found.is_empty()).then(|| (r.pick(&found), r.pick(&found)))
}

/// A literal twice or with its opposite, the root, top and its complement.
fn special(r: &mut Random, description: &Description) -> (Literal, Literal) {
    let (l, root) = (literal(r, description), description.root);
    let pairs = [
        (l, l),
        (l, opposite(l)),
        (root, opposite(root)),
        (root, l),
        (0, l),
        (l, 0),
        (l, 1),
        (1, l),
    ];
    r.pick(&pairs)
}
