//! Changes that touch roles that never share a filler: to a description's fourth part, and to edges,
//! cells and lines.

use crate::encode;
use crate::paper::counting::{cell_roles, known_by_roles, row, Row, BARRED, OPEN};
use crate::paper::description::{Description, MOST_APART, MOST_ROLES};
use crate::paper::evidence::{Closing, Edge, Node, Step};
use crate::paper::line::Line;
use crate::random::Random;

/// A description with another fourth part, none, or one where there was none.
pub fn description(r: &mut Random, whole: &Description) -> Vec<u8> {
    let mut parts = encode::description_parts(whole);
    match parts.len() {
        3 => parts.push(match r.one_in(2) {
            true => Vec::new(),
            false => (0..r.range(1, 3)).flat_map(|_| two(r, whole)).collect(),
        }),
        _ => part(r, whole, &mut parts),
    }
    let length = parts.get(3).map_or(0, Vec::len);
    let off = length % 2 == 1 || length > 2 * MOST_APART;
    if r.one_in(if off { 2 } else { 5 }) {
        // 8 comes before 26, and after 2.
        let at = r.below(parts[2].len());
        parts[2][at] = 255;
    }
    encode::join_parts(&parts)
}

/// No fourth part, an empty one, one of a wrong length, or one with another record.
fn part(r: &mut Random, whole: &Description, parts: &mut Vec<Vec<u8>>) {
    match r.below(24) {
        0..=4 => {
            parts.pop();
        }
        5..=6 => parts[3].clear(),
        7 => parts[3].push(r.below(whole.roles.len()) as u8),
        8..=10 => {
            // One byte more than may be, or two.
            so_many(&mut parts[3], MOST_APART + 1);
            let length = 2 * MOST_APART + r.range(1, 2);
            parts[3].truncate(length);
        }
        11 => so_many(&mut parts[3], MOST_APART),
        _ => {
            let record = record(r, whole, &mut parts[0]);
            put(r, &mut parts[3], record);
        }
    }
}

/// So many records: the old ones over and over.
pub fn so_many(part: &mut Vec<u8>, records: usize) {
    if part.is_empty() {
        part.extend([0, 1]);
    }
    let old = part.clone();
    *part = old.into_iter().cycle().take(2 * records).collect();
}

/// In place of an old record, or behind all.
fn put(r: &mut Random, part: &mut Vec<u8>, record: [u8; 2]) {
    let records = part.len() / 2;
    if records == MOST_APART || records > 0 && r.one_in(2) {
        let at = 2 * r.below(records);
        part[at..at + 2].copy_from_slice(&record);
    } else {
        part.extend(record);
    }
}

/// Any two roles of the table.
fn two(r: &mut Random, whole: &Description) -> [u8; 2] {
    [(); 2].map(|()| r.below(whole.roles.len()) as u8)
}

/// A record that 26 lets in or not; `roles` is the table, which may get more roles for it.
fn record(r: &mut Random, whole: &Description, roles: &mut Vec<u8>) -> [u8; 2] {
    let count = whole.roles.len();
    let [a, b] = two(r, whole);
    let old = whole.records_apart();
    let kept = match old.is_empty() {
        true => [a, b],
        false => r.pick(old),
    };
    let mut record = match r.below(8) {
        0 => [kept[0], kept[0]],
        1..=2 => [kept[0], r.pick(&[count, count, count, 15, 16, 255]) as u8],
        3..=4 if count + 2 <= MOST_ROLES => [kept[0], not_simple(r, count, roles)],
        5 => nested(r, whole).unwrap_or([a, b]),
        6 => kept,
        _ => [a, b],
    };
    if r.one_in(2) {
        record.reverse();
    }
    record
}

/// A new role that is transitive, or one that has such a role below it; nothing else speaks of it.
fn not_simple(r: &mut Random, count: usize, roles: &mut Vec<u8>) -> u8 {
    if r.one_in(3) {
        roles.extend([1, 0, 0]);
        return count as u8;
    }
    let [high, low] = (1u16 << count).to_be_bytes();
    roles.extend([0, 0, 0, 1, high, low]);
    count as u8
}

/// A role and one above it.
fn nested(r: &mut Random, whole: &Description) -> Option<[u8; 2]> {
    let roles = 0..whole.roles.len();
    let pairs = roles
        .clone()
        .flat_map(|a| roles.clone().map(move |b| (a, b)));
    let nested = pairs.filter(|&(a, b)| a != b && whole.has_ancestor(a, b));
    let nested: Vec<[u8; 2]> = nested.map(|(a, b)| [a as u8, b as u8]).collect();
    (!nested.is_empty()).then(|| r.pick(&nested))
}

/// The masks of the roles of a record with all their ancestors.
fn masks(r: &mut Random, description: &Description) -> Option<[u16; 2]> {
    let records = description.records_apart();
    let (first, mut record) = (records.first()?, r.pick(records));
    // The first one says the same as many of the others.
    let turned = [first[1], first[0]];
    let others = records
        .iter()
        .filter(|other| *other != first && **other != turned);
    let others: Vec<&[u8; 2]> = others.collect();
    if !others.is_empty() && r.one_in(2) {
        record = *r.pick(&others);
    }
    Some(record.map(|role| description.ancestors[role as usize]))
}

/// An edge with both roles of a record, or two edges to one node with one of them each.
pub fn edges(r: &mut Random, description: &Description, nodes: &mut [Node]) {
    let Some([a, b]) = masks(r, description) else {
        return;
    };
    let linked: Vec<usize> = (0..nodes.len())
        .filter(|&i| !nodes[i].edges.is_empty())
        .collect();
    let (i, mut target) = (r.below(nodes.len()), r.below(nodes.len()));
    let i = match linked.is_empty() {
        true => i,
        false => r.pick(&linked),
    };
    let edges = &mut nodes[i].edges;
    if !edges.is_empty() && !r.one_in(4) {
        let at = r.below(edges.len());
        target = edges[at].target;
        if r.one_in(2) {
            edges[at].mask |= a | b;
            return;
        }
    }
    let count = r.range(1, 2) as u16;
    let masks = if r.one_in(2) { vec![a, b] } else { vec![a | b] };
    edges.extend(masks.into_iter().map(|mask| Edge {
        target,
        mask,
        count,
    }));
}

/// A barred cell, which the list has marked, gets another byte, or another cell the mark.
pub fn cell(r: &mut Random, description: &Description, closings: &mut [Closing], own: usize) {
    let (before, rest) = closings.split_at_mut(own);
    let Closing { label, step } = &mut rest[0];
    let Step::Counting(step) = step else {
        return;
    };
    let cells = 1..=step.cells.len();
    let barred: Vec<usize> = cells.filter(|c| step.cells[c - 1] == BARRED).collect();
    if barred.is_empty() || r.one_in(4) {
        let other = r.below(step.cells.len());
        step.cells[other] = BARRED;
        return;
    }
    let cell = r.pick(&barred);
    let rows = step.rows.iter().filter_map(|&l| row(description, l));
    let rows: Vec<Row> = rows.collect();
    let roles = cell_roles(description, &rows, cell);
    // If it were not barred, it could cite one of these.
    let known = known_by_roles(description, *label, &rows, cell, roles);
    let fitting = (0..own).filter(|&i| before[i].label.within(known));
    let earlier: Vec<usize> = fitting.chain([r.below(own.max(1))]).collect();
    let earlier = r.pick(&earlier);
    let past = r.pick(&[own, own + 1, 63, 64, 253]);
    step.cells[cell - 1] = match r.below(7) {
        0..=1 => OPEN,
        2..=3 => past as u8,
        _ => earlier as u8,
    };
}

/// A graph with such edges.
pub fn graph(r: &mut Random, description: &Description, nodes: &[Node]) -> Vec<u8> {
    let mut nodes = nodes.to_vec();
    edges(r, description, &mut nodes);
    encode::graph(description.width(), &nodes)
}

/// A list with such a cell, if it has a counting step.
pub fn list(r: &mut Random, description: &Description, closings: &[Closing]) -> Vec<u8> {
    let mut closings = closings.to_vec();
    let counting = |i: &usize| matches!(closings[*i].step, Step::Counting(_));
    let steps: Vec<usize> = (0..closings.len()).filter(counting).collect();
    if !steps.is_empty() {
        let own = r.pick(&steps);
        cell(r, description, &mut closings, own);
    }
    encode::list(description.width(), &closings)
}

/// A pair of one role of a record, if there is one, becomes a pair of both.
pub fn pair(r: &mut Random, description: &Description, line: &mut Line) {
    let Some([a, b]) = masks(r, description) else {
        return;
    };
    let held = |mask: &&mut u16| a & !**mask == 0 || b & !**mask == 0;
    let mut pairs: Vec<&mut u16> = line.pairs.iter_mut().flatten().filter(held).collect();
    if !pairs.is_empty() {
        let at = r.below(pairs.len());
        *pairs[at] |= a | b;
        return;
    }
    let d = line.names.len();
    line.pairs[r.below(d)][r.below(d)] |= a | b;
}
