//! Lines for the reader: random ones, and such as lie near a model.

use crate::make::{damage, spoil_apart};
use crate::paper::description::{Concept, Description};
use crate::paper::line::{length, Line};
use crate::random::Random;

/// A line of few elements, mostly one that keeps inclusions and transitivity.
pub fn random(r: &mut Random, description: &Description) -> Line {
    let d = match r.below(40) {
        0 => 64,
        1 => r.range(10, 30),
        _ => r.range(1, 5),
    };
    let mut line = Line {
        names: vec![0; d],
        pairs: vec![vec![0; d]; d],
    };
    let dense = r.range(2, 6);
    for x in 0..d {
        for e in names(description) {
            line.names[x] |= (r.below(2) as u64) << e;
        }
        for y in 0..d {
            if r.one_in(dense) {
                line.pairs[x][y] |= role_mask(r, description);
            }
        }
    }
    if !r.one_in(6) {
        line.close(description);
    }
    line
}

/// A small change of a line that leaves its form as it is.
pub fn near(r: &mut Random, description: &Description, line: &Line) -> Line {
    let mut line = line.clone();
    let d = line.names.len();
    for _ in 0..r.range(1, 2) {
        let (x, y) = (r.below(d), r.below(d));
        match r.below(if description.apart.is_some() { 7 } else { 6 }) {
            0..=1 => {
                let names = names(description);
                if !names.is_empty() {
                    line.names[x] ^= 1 << r.pick(&names);
                }
            }
            2 => line.pairs[x][y] |= role_mask(r, description),
            3 => line.pairs[x][y] = 0,
            4 => line.pairs[x][y] ^= 1 << r.below(description.roles.len()),
            6 => spoil_apart::pair(r, description, &mut line),
            _ => {
                line.pairs[x][y] |= role_mask(r, description);
                line.close(description);
            }
        }
    }
    line
}

/// Bytes that are a line or nearly one.
pub fn spoiled(r: &mut Random, description: &Description, line: &Line) -> Vec<u8> {
    let width = description.width();
    let mut bytes = line.bytes(width);
    let d = line.names.len();
    match r.below(9) {
        // A bit for no name, or for an entry past the table.
        0 => {
            let at = 1 + r.below(width.names() * d);
            bytes[at] ^= 1 << r.below(8);
        }
        // A bit past the last role.
        1 => {
            let at = 1 + width.names() * d + 2 * r.below(d * d);
            let bit = r.range(description.roles.len().min(15), 15);
            let mask = 1u16 << bit;
            bytes[at] |= mask.to_be_bytes()[0];
            bytes[at + 1] |= mask.to_be_bytes()[1];
        }
        2 => bytes[0] = r.pick(&[0, 1, 63, 64, 65, 255, d as u8 + 1, d as u8 - 1]),
        // No elements, one too many, or as many as there may be; all with the right length.
        3 => {
            let d = r.pick(&[0, 1, 2, 64, 65]);
            bytes = vec![0; length(width, d)];
            bytes[0] = d as u8;
        }
        4 => bytes.truncate(r.below(bytes.len())),
        // Masks of the other width, of which a wide one may lose names.
        5 => bytes = line.bytes(width.other()),
        6 => bytes.extend(vec![0; r.range(1, 4)]),
        _ => bytes = damage::bytes(r, &bytes),
    }
    bytes
}

fn names(description: &Description) -> Vec<usize> {
    let concepts = description.concepts.iter().enumerate();
    let named = concepts.filter(|(_, concept)| **concept == Concept::Name);
    named.map(|(e, _)| e).collect()
}

/// A role with its ancestors.
fn role_mask(r: &mut Random, description: &Description) -> u16 {
    r.pick(&description.ancestors)
}
