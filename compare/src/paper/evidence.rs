//! The head of evidence (9) and the form of its records (10).

use super::bytes::{number, parts};
use super::label::{Label, Literal, Width};
use super::Refusal;

/// The records of a graph or of a closing list, each still in bytes.
pub enum Head<'a> {
    Graph(Vec<&'a [u8]>),
    List(Vec<&'a [u8]>),
}

#[derive(Clone, PartialEq, Eq, Debug)]
pub struct Node {
    pub label: Label,
    pub edges: Vec<Edge>,
}

#[derive(Clone, PartialEq, Eq, Debug)]
pub struct Edge {
    pub target: usize,
    pub mask: u16,
    pub count: u16,
}

/// A record of a closing list: no element has its label.
#[derive(Clone, PartialEq, Eq, Debug)]
pub struct Closing {
    pub label: Label,
    pub step: Step,
}

/// The number of a cited record.
pub type Cite = u8;

#[derive(Clone, PartialEq, Eq, Debug)]
pub enum Step {
    /// 1: a literal and its opposite.
    Clash(Literal),
    /// 2: a "both" of the label.
    Both { entry: u8, cite: Cite },
    /// 3: a "both" whose complement is in the label.
    NotBoth { entry: u8, cites: [Cite; 2] },
    /// 4: a rule.
    Rule { rule: u8, cite: Cite },
    /// 5: an entry, or its complement.
    Cases { entry: u8, cites: [Cite; 2] },
    /// 6: counting.
    Counting(Counting),
}

#[derive(Clone, PartialEq, Eq, Debug)]
pub struct Counting {
    pub rows: Vec<Literal>,
    /// The bytes of cells 1 up: a cite, or open.
    pub cells: Vec<u8>,
    pub tree: Tree,
}

#[derive(Clone, PartialEq, Eq, Debug)]
pub enum Tree {
    /// One multiplier a row, then one for each split above, from the top.
    Leaf(Vec<u8>),
    Split {
        cell: u8,
        value: u16,
        at_most: Box<Tree>,
        at_least: Box<Tree>,
    },
}

pub const MOST_RECORDS: usize = 64;
pub const MOST_EDGES: usize = 32;
pub const MOST_ROWS: usize = 6;
pub const MOST_SPLITS: usize = 8;

/// 9: evidence head or pairs off.
pub fn head(evidence: &[u8]) -> Result<Head<'_>, Refusal> {
    head_of(evidence).ok_or(Refusal::whole(9))
}

fn head_of(evidence: &[u8]) -> Option<Head<'_>> {
    let kind = *evidence.first()?;
    let count = *evidence.get(1)? as usize;
    if !(1..=MOST_RECORDS).contains(&count) {
        return None;
    }
    let records = parts(evidence, 2, count)?;
    match kind {
        1 => Some(Head::Graph(records)),
        2 => Some(Head::List(records)),
        _ => None,
    }
}

/// 10, over all records of a graph, rising.
pub fn nodes(records: &[&[u8]], width: Width) -> Result<Vec<Node>, Refusal> {
    let node = |(i, bytes)| node(bytes, width).ok_or(Refusal::at(10, i));
    records.iter().copied().enumerate().map(node).collect()
}

/// 10, over all records of a list, rising.
pub fn closings(records: &[&[u8]], width: Width) -> Result<Vec<Closing>, Refusal> {
    let closing = |(i, bytes)| closing(bytes, width).ok_or(Refusal::at(10, i));
    records.iter().copied().enumerate().map(closing).collect()
}

/// A label and 0 to 32 edges of 5 bytes.
fn node(bytes: &[u8], width: Width) -> Option<Node> {
    let (label, edges) = bytes.split_at_checked(width.label())?;
    if edges.len() % 5 != 0 || edges.len() / 5 > MOST_EDGES {
        return None;
    }
    let edge = |b: &[u8]| Edge {
        target: b[0] as usize,
        mask: number(b, 1),
        count: number(b, 3),
    };
    Some(Node {
        label: Label::read(label),
        edges: edges.chunks(5).map(edge).collect(),
    })
}

/// A label, a step byte and the data of that step, with no byte left over.
fn closing(bytes: &[u8], width: Width) -> Option<Closing> {
    let (label, rest) = bytes.split_at_checked(width.label())?;
    let (&step, data) = rest.split_first()?;
    let step = match (step, data) {
        (1, &[literal]) => Step::Clash(literal),
        (2, &[entry, cite]) => Step::Both { entry, cite },
        (3, &[entry, a, b]) => Step::NotBoth {
            entry,
            cites: [a, b],
        },
        (4, &[rule, cite]) => Step::Rule { rule, cite },
        (5, &[entry, a, b]) => Step::Cases {
            entry,
            cites: [a, b],
        },
        (6, data) => Step::Counting(counting(data)?),
        _ => return None,
    };
    Some(Closing {
        label: Label::read(label),
        step,
    })
}

/// k (1 to 6), k row literals, 2^k - 1 cell bytes, and a tree up to the end.
fn counting(data: &[u8]) -> Option<Counting> {
    let mut left = data;
    let k = take(&mut left, 1)?[0] as usize;
    if !(1..=MOST_ROWS).contains(&k) {
        return None;
    }
    let rows = take(&mut left, k)?.to_vec();
    let cells = take(&mut left, (1 << k) - 1)?.to_vec();
    let tree = tree(&mut left, k, 0)?;
    left.is_empty().then_some(Counting { rows, cells, tree })
}

/// A tree in preorder below `above` splits; at most 8 stand above a leaf (reading 5).
fn tree(left: &mut &[u8], k: usize, above: usize) -> Option<Tree> {
    match take(left, 1)?[0] {
        0 => Some(Tree::Leaf(take(left, k + above)?.to_vec())),
        1 if above < MOST_SPLITS => {
            let split = take(left, 3)?;
            Some(Tree::Split {
                cell: split[0],
                value: number(split, 1),
                at_most: Box::new(tree(left, k, above + 1)?),
                at_least: Box::new(tree(left, k, above + 1)?),
            })
        }
        _ => None,
    }
}

/// The next `count` bytes, if there are as many.
fn take<'a>(left: &mut &'a [u8], count: usize) -> Option<&'a [u8]> {
    let (taken, rest) = left.split_at_checked(count)?;
    *left = rest;
    Some(taken)
}
