//! Compares the checker's library with the papers' own implementation.
//!
//! Arguments: a seed (1 if not given), then a number of inputs (300,000 if not given); as many
//! claims follow them, then a script for the editor for every ten.

mod claims;
mod compare;
mod library;
mod report;

use ::compare::edits::Edits;
use ::compare::encode;
use ::compare::make::refutations::Known;
use ::compare::make::{
    cells, damage, descriptions, graphs, lines, refutations, spoil_apart, spoil_graph, spoil_list,
};
use ::compare::paper::description::Description;
use ::compare::paper::evidence::{Closing, Node};
use ::compare::paper::label::Label;
use ::compare::paper::line::{copies, length, Line, MOST_ELEMENTS};
use ::compare::random::Random;
use compare::Comparison;
use std::process::ExitCode;

fn main() -> ExitCode {
    let mut arguments = std::env::args().skip(1).map(|a| a.parse::<u64>());
    let (Ok(seed), Ok(inputs)) = (
        arguments.next().unwrap_or(Ok(1)),
        arguments.next().unwrap_or(Ok(300_000)),
    ) else {
        eprintln!("arguments: seed, number of inputs");
        return ExitCode::from(2);
    };
    let mut r = Random::new(seed);
    let mut comparison = Comparison::default();
    let mut evidence = Vec::new();
    while comparison.inputs() < inputs as usize && comparison.differences < 20 {
        evidence = round(&mut r, &mut comparison, &evidence);
    }
    let mut before = vec![evidence];
    while comparison.inputs() < 2 * inputs as usize && comparison.differences < 20 {
        claims::round(&mut r, &mut comparison, &mut before);
    }
    let mut edits = Edits::default();
    while edits.scripts < inputs as usize / 10 && edits.differences < 20 {
        edits.round(&mut r, &library::Library);
    }
    ExitCode::from(!report::report(&comparison, &edits) as u8)
}

/// One description with evidence, lines and damage to all of them; also with the evidence of
/// the round before, which was made for another description. Gives its own evidence.
fn round(r: &mut Random, c: &mut Comparison, before: &[u8]) -> Vec<u8> {
    let description = descriptions::random(r);
    let width = description.width();
    let bytes = encode::description(&description);
    c.check(&bytes, before);
    let root = Label::of(&[description.root]);
    let evidence = match graphs::search(r, &description, root, 6) {
        Some(nodes) => with_graph(r, c, &description, &bytes, &nodes),
        None => match refutations::search(r, &description, root, Known::AsSaid, 4) {
            Some(closings) => with_list(r, c, &description, &bytes, &closings),
            None => with_nothing(r, c, &description, &bytes),
        },
    };
    // Lists that rest on an error about cells; most often the description is not empty.
    for &known in refutations::errors(&description) {
        if let Some(closings) = refutations::search(r, &description, root, known, 1) {
            c.check(&bytes, &encode::list(width, &closings));
        }
    }
    for _ in 0..3 {
        let line = lines::random(r, &description);
        c.read(&bytes, &line.bytes(width));
    }
    for _ in 0..6 {
        let spoiled = damage::description(r, &description);
        match r.below(6) {
            0 => {
                let room = r.below(200);
                c.write(&spoiled, &evidence, room, r.byte());
            }
            1 => c.read(&spoiled, &lines::random(r, &description).bytes(width)),
            _ => c.check(&spoiled, &evidence),
        }
    }
    if description.apart.is_some() {
        with_other_records(r, c, &description, &evidence);
    }
    evidence
}

/// The fourth part is another one; now and then the evidence or a line has no form, either.
fn with_other_records(
    r: &mut Random,
    c: &mut Comparison,
    description: &Description,
    evidence: &[u8],
) {
    for _ in 0..6 {
        let spoiled = spoil_apart::description(r, description);
        match r.below(6) {
            0 => c.check(&spoiled, &damage::bytes(r, evidence)),
            1 => c.read(&spoiled, &damage::bytes(r, evidence)),
            _ => c.check(&spoiled, evidence),
        }
    }
}

fn with_graph(
    r: &mut Random,
    c: &mut Comparison,
    description: &Description,
    bytes: &[u8],
    nodes: &[Node],
) -> Vec<u8> {
    let width = description.width();
    let evidence = encode::graph(width, nodes);
    c.check(bytes, &evidence);
    let elements = nodes.len() * copies(nodes);
    if elements <= MOST_ELEMENTS {
        with_line(r, c, description, bytes, nodes);
    }
    for _ in 0..10 {
        let spoiled = spoil_graph::spoiled(r, description, nodes);
        c.check(bytes, &spoiled);
        if r.one_in(2) {
            let room = r.pick(&[
                0,
                1,
                50,
                200,
                length(width, MOST_ELEMENTS),
                length(width, elements.min(64)),
            ]);
            c.write(bytes, &spoiled, room, r.byte());
        }
    }
    if description.apart.is_some() {
        for _ in 0..4 {
            let spoiled = spoil_apart::graph(r, description, nodes);
            c.check(bytes, &spoiled);
            c.write(bytes, &spoiled, length(width, MOST_ELEMENTS), r.byte());
        }
    }
    evidence
}

/// The line of a graph, written into buffers that hold it or not, then read with changes.
fn with_line(
    r: &mut Random,
    c: &mut Comparison,
    description: &Description,
    bytes: &[u8],
    nodes: &[Node],
) {
    let width = description.width();
    let evidence = encode::graph(width, nodes);
    let elements = nodes.len() * copies(nodes);
    let full = length(width, elements);
    let over = full + r.range(1, 40);
    // The last is the room for a line with masks of the other width.
    for room in [full - 1, full, over, length(width.other(), elements)] {
        c.write(bytes, &evidence, room, r.byte());
    }
    let mut line = Line::unfold(description, nodes);
    line.close(description);
    c.read(bytes, &line.bytes(width));
    for _ in 0..3 {
        let near = lines::near(r, description, &line);
        c.read(bytes, &near.bytes(width));
        let spoiled = lines::spoiled(r, description, &line);
        c.read(bytes, &spoiled);
    }
    if description.apart.is_some() {
        for _ in 0..6 {
            let mut near = line.clone();
            spoil_apart::pair(r, description, &mut near);
            c.read(bytes, &near.bytes(width));
        }
    }
}

fn with_list(
    r: &mut Random,
    c: &mut Comparison,
    description: &Description,
    bytes: &[u8],
    closings: &[Closing],
) -> Vec<u8> {
    let evidence = encode::list(description.width(), closings);
    c.check(bytes, &evidence);
    if r.one_in(4) {
        c.write(bytes, &evidence, 100, r.byte());
    }
    for _ in 0..16 {
        let spoiled = spoil_list::spoiled(r, description, closings);
        c.check(bytes, &spoiled);
    }
    if description.apart.is_some() {
        for _ in 0..8 {
            c.check(bytes, &spoil_apart::list(r, description, closings));
        }
    }
    for _ in 0..2 {
        if let Some(narrowed) = cells::narrowed(r, description, closings) {
            c.check(bytes, &narrowed);
            c.check(&damage::roles(r, description), &narrowed);
        }
    }
    evidence
}

/// No evidence was found: a single node that has the root, most often refused.
fn with_nothing(
    r: &mut Random,
    c: &mut Comparison,
    description: &Description,
    bytes: &[u8],
) -> Vec<u8> {
    let node = Node {
        label: Label::of(&[0, description.root]).join(Label::of(&description.rules)),
        edges: Vec::new(),
    };
    let evidence = encode::graph(description.width(), &[node]);
    c.check(bytes, &evidence);
    c.check(bytes, &damage::bytes(r, &evidence));
    evidence
}
