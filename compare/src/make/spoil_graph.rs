//! Graphs with one thing changed; some changes leave a graph that keeps the rules.

use crate::encode;
use crate::make::{damage, spoil_apart, widths};
use crate::paper::description::Description;
use crate::paper::evidence::{Edge, Node, MOST_EDGES, MOST_RECORDS};
use crate::paper::label::{Label, Literal, Width};
use crate::random::Random;

pub fn spoiled(r: &mut Random, description: &Description, nodes: &[Node]) -> Vec<u8> {
    let width = description.width();
    let bytes = encode::graph(width, nodes);
    match r.below(15) {
        0 => damage::bytes(r, &bytes),
        1 => damage::pairs(r, &bytes, 2, nodes.len()),
        2 => head(r, &bytes),
        3 => form(r, width, nodes),
        4 => {
            let mut nodes = nodes.to_vec();
            for _ in 0..2 {
                change(r, description, &mut nodes);
            }
            encode::graph(width, &nodes)
        }
        5 => widths::graph(r, width, nodes),
        _ => {
            let mut nodes = nodes.to_vec();
            change(r, description, &mut nodes);
            encode::graph(width, &nodes)
        }
    }
}

/// The kind, or the number of records.
pub fn head(r: &mut Random, bytes: &[u8]) -> Vec<u8> {
    let mut bytes = bytes.to_vec();
    match r.below(4) {
        0 => bytes[0] = r.pick(&[0, 1, 2, 3, 255]),
        1 => bytes[1] = r.pick(&[0, 1, 2, 63, 64, 65, 255]),
        2 => bytes.truncate(r.below(8)),
        _ => bytes[1] = bytes[1].wrapping_add(1),
    }
    bytes
}

/// A record too short or too long, with pairs that agree.
fn form(r: &mut Random, width: Width, nodes: &[Node]) -> Vec<u8> {
    let label = width.label();
    let mut records = encode::graph_records(width, nodes);
    let i = r.below(records.len());
    match r.below(5) {
        // The end of the last record may lie past 65,535.
        0 if i + 1 == nodes.len() && r.one_in(4) => {
            let edges = r.pick(&[33, 11_999, (65_535 - label) / 5]);
            let whole = label + 5 * edges;
            records[i].resize(r.pick(&[whole, whole, whole, 65_535]), 1)
        }
        0 => records[i].truncate(r.below(label + 1)),
        1 => records[i].push(0),
        2 => {
            records[i].pop();
        }
        _ => {
            // 32 or 33 edges.
            let first = records[i].get(label..label + 5);
            let edge = first.unwrap_or(&[0, 0, 1, 0, 1]).to_vec();
            let edges = r.range(32, 33);
            while records[i].len() < label + 5 * edges {
                records[i].extend(&edge);
            }
        }
    }
    encode::bundle(1, &records)
}

fn change(r: &mut Random, description: &Description, nodes: &mut Vec<Node>) {
    let i = r.below(nodes.len());
    match r.below(if description.apart.is_some() { 11 } else { 10 }) {
        0 if r.one_in(20) => largest(nodes),
        0..=2 => label(r, description, &mut nodes[i]),
        3..=5 => edge(r, description, nodes),
        6 => {
            let other = r.below(nodes.len());
            nodes.swap(i, other);
        }
        7 => {
            let copy = nodes[i].clone();
            nodes.push(copy);
        }
        8 => many_elements(r, description, nodes),
        10 => spoil_apart::edges(r, description, nodes),
        _ => {
            // Edges in another order, doubled or dropped.
            let edges = &mut nodes[i].edges;
            match r.below(3) {
                0 => r.shuffle(edges),
                1 => {
                    edges.pop();
                }
                _ => {
                    let copy = edges.last().cloned();
                    edges.extend(copy);
                }
            }
        }
    }
}

fn label(r: &mut Random, description: &Description, node: &mut Node) {
    let literals = 2 * description.concepts.len();
    match r.below(6) {
        // A literal that is there is dropped.
        0..=1 => {
            let held = node.label.literals();
            if !held.is_empty() {
                node.label = node.label.without(r.pick(&held));
            }
        }
        // An entry changes its side: rules 12, 14 and 15 are asked anew.
        2..=3 => {
            let e = r.below(description.concepts.len()) as Literal;
            let bits = node.label.0 >> (2 * e) & 3;
            let turned = (bits & 1) << 1 | bits >> 1;
            let turned = if turned == 0 { 1 << r.below(2) } else { turned };
            node.label = Label(node.label.0 & !(3 << (2 * e)) | turned << (2 * e));
        }
        4 => node.label = Label(node.label.0 ^ 1 << r.below(literals)),
        _ => {
            let bits = 8 * description.width().label();
            node.label = Label(node.label.0 ^ 1 << r.below(bits));
        }
    }
}

fn edge(r: &mut Random, description: &Description, nodes: &mut [Node]) {
    let count = nodes.len();
    let linked: Vec<usize> = (0..count).filter(|&i| !nodes[i].edges.is_empty()).collect();
    if linked.is_empty() || r.one_in(8) {
        let added = Edge {
            target: r.below(count),
            mask: r.pick(&description.ancestors),
            count: r.pick(&[1, 1, 2, 3, 1000]),
        };
        let i = r.below(count);
        nodes[i].edges.push(added);
        return;
    }
    let i = r.pick(&linked);
    let j = r.below(nodes[i].edges.len());
    let edge = &mut nodes[i].edges[j];
    match r.below(8) {
        0 => edge.target = r.below(count),
        1 => edge.target = r.pick(&[count, count - 1, count + 1, 63, 64, 255]),
        2 => edge.mask ^= 1 << r.below(16),
        3 => edge.mask = r.pick(&[0, 1, 0x8000, 0xFFFF, description.ancestors[0]]),
        4 => edge.mask |= r.pick(&description.ancestors),
        5 => edge.count = r.pick(&[0, 1, 255, 256, 1000, 1001, 65535]),
        6 => edge.count = edge.count.saturating_add(1),
        _ => edge.count = edge.count.saturating_sub(1),
    }
}

/// As many records and edges as may be. Where nothing limits the fillers it still keeps the rules.
fn largest(nodes: &mut Vec<Node>) {
    let last = nodes[nodes.len() - 1].clone();
    nodes.resize(MOST_RECORDS, last);
    for edges in nodes.iter_mut().map(|node| &mut node.edges) {
        if let Some(last) = edges.last().cloned() {
            edges.resize(MOST_EDGES, last);
        }
    }
}

/// Counts such that the line has 64 elements, a few less or a few more, if rule 15 lets them.
fn many_elements(r: &mut Random, description: &Description, nodes: &mut Vec<Node>) {
    if r.one_in(2) {
        let last = nodes[nodes.len() - 1].clone();
        nodes.resize(
            r.pick(&[1, 2, 4, 5, 8, 13, 16, 32, 63, 64, 65, nodes.len()]),
            last,
        );
        let count = nodes.len();
        for edge in nodes.iter_mut().flat_map(|node| &mut node.edges) {
            edge.target = edge.target.min(count - 1);
        }
    }
    let k = (64 / nodes.len()).max(1);
    let count = r.pick(&[k, k + 1, 13]) as u16;
    let (i, target) = (r.below(nodes.len()), r.below(nodes.len()));
    if r.one_in(3) {
        // Numbers of elements that look small once cut to 8 or 16 bits.
        let mut left = r.pick(&[256, 65536]) / nodes.len() + r.below(2);
        let mask = r.pick(&description.ancestors);
        while left > 0 && nodes[i].edges.len() < MOST_EDGES {
            let count = left.min(1000);
            left -= count;
            nodes[i].edges.push(Edge {
                target,
                mask,
                count: count as u16,
            });
        }
        return;
    }
    match nodes[i].edges.last_mut() {
        Some(edge) if !r.one_in(3) => edge.count = count,
        _ => nodes[i].edges.push(Edge {
            target,
            mask: r.pick(&description.ancestors),
            count,
        }),
    }
}
