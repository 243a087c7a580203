//! Bytes of descriptions and evidence; also of such as no test would accept.

use crate::paper::description::{Concept, Description};
use crate::paper::evidence::{Closing, Counting, Node, Step, Tree};
use crate::paper::label::Width;

/// Pairs (offset, length) from byte `at` on, then the parts. What is too long for a pair
/// is cut to 16 bits, as a damaged input may be.
fn with_pairs(mut bytes: Vec<u8>, parts: &[Vec<u8>]) -> Vec<u8> {
    let mut offset = bytes.len() + 4 * parts.len();
    for part in parts {
        bytes.extend((offset as u16).to_be_bytes());
        bytes.extend((part.len() as u16).to_be_bytes());
        offset += part.len();
    }
    bytes.extend(parts.concat());
    bytes
}

/// The parts of a description, in bytes: roles, concepts, question and, if there is a fourth pair,
/// roles that never share a filler.
pub fn description_parts(description: &Description) -> Vec<Vec<u8>> {
    let mut roles = Vec::new();
    for role in &description.roles {
        roles.push(role.transitive as u8);
        roles.extend(role.parents.to_be_bytes());
    }
    let concepts = description.concepts.iter().flat_map(entry).collect();
    let mut question = vec![description.root];
    question.extend(&description.rules);
    let mut parts = vec![roles, concepts, question];
    parts.extend(description.apart.as_ref().map(|records| records.concat()));
    parts
}

pub fn join_parts(parts: &[Vec<u8>]) -> Vec<u8> {
    with_pairs(Vec::new(), parts)
}

pub fn description(description: &Description) -> Vec<u8> {
    join_parts(&description_parts(description))
}

/// An entry as it is stored.
pub fn entry(concept: &Concept) -> [u8; 6] {
    match *concept {
        Concept::Top => [0; 6],
        Concept::Name => [1, 0, 0, 0, 0, 0],
        Concept::Both(a, b) => [2, 0, a, b, 0, 0],
        Concept::Every { role, literal } => [3, role as u8, literal, 0, 0, 0],
        Concept::AtLeast {
            number,
            role,
            literal,
        } => {
            let [high, low] = number.to_be_bytes();
            [4, role as u8, literal, 0, high, low]
        }
    }
}

/// The evidence of some records; `kind` is 1 for a graph, 2 for a list.
pub fn bundle(kind: u8, records: &[Vec<u8>]) -> Vec<u8> {
    with_pairs(vec![kind, records.len() as u8], records)
}

pub fn graph(width: Width, nodes: &[Node]) -> Vec<u8> {
    bundle(1, &graph_records(width, nodes))
}

pub fn list(width: Width, closings: &[Closing]) -> Vec<u8> {
    bundle(2, &list_records(width, closings))
}

pub fn graph_records(width: Width, nodes: &[Node]) -> Vec<Vec<u8>> {
    nodes.iter().map(|n| node(width, n)).collect()
}

pub fn list_records(width: Width, closings: &[Closing]) -> Vec<Vec<u8>> {
    closings.iter().map(|c| closing(width, c)).collect()
}

fn node(width: Width, node: &Node) -> Vec<u8> {
    let mut bytes = node.label.bytes(width);
    for edge in &node.edges {
        bytes.push(edge.target as u8);
        bytes.extend(edge.mask.to_be_bytes());
        bytes.extend(edge.count.to_be_bytes());
    }
    bytes
}

pub fn closing(width: Width, closing: &Closing) -> Vec<u8> {
    let mut bytes = closing.label.bytes(width);
    match &closing.step {
        Step::Clash(literal) => bytes.extend([1, *literal]),
        Step::Both { entry, cite } => bytes.extend([2, *entry, *cite]),
        Step::NotBoth { entry, cites } => bytes.extend([3, *entry, cites[0], cites[1]]),
        Step::Rule { rule, cite } => bytes.extend([4, *rule, *cite]),
        Step::Cases { entry, cites } => bytes.extend([5, *entry, cites[0], cites[1]]),
        Step::Counting(Counting { rows, cells, tree }) => {
            bytes.extend([6, rows.len() as u8]);
            bytes.extend(rows);
            bytes.extend(cells);
            put_tree(tree, &mut bytes);
        }
    }
    bytes
}

fn put_tree(tree: &Tree, bytes: &mut Vec<u8>) {
    match tree {
        Tree::Leaf(multipliers) => {
            bytes.push(0);
            bytes.extend(multipliers);
        }
        Tree::Split {
            cell,
            value,
            at_most,
            at_least,
        } => {
            bytes.extend([1, *cell]);
            bytes.extend(value.to_be_bytes());
            put_tree(at_most, bytes);
            put_tree(at_least, bytes);
        }
    }
}
