//! Claims with one thing changed or two: description, literals, pieces or their order.

use crate::encode;
use crate::make::claims::{Claim, Piece};
use crate::make::{damage, spoil_apart, spoil_graph, spoil_list};
use crate::paper::description::Description;
use crate::paper::label::opposite;
use crate::paper::Refusal;
use crate::random::Random;

/// A claim in bytes.
#[derive(Clone)]
pub struct Given {
    pub description: Vec<u8>,
    pub c: u8,
    pub d: u8,
    pub first: Vec<u8>,
    pub second: Vec<u8>,
}

impl Given {
    pub fn of(description: &Description, claim: &Claim) -> Given {
        let bytes = |piece: &Piece| piece.bytes(description.width());
        Given {
            description: encode::description(description),
            c: claim.c,
            d: claim.d,
            first: bytes(&claim.first),
            second: claim.second.as_ref().map_or(Vec::new(), bytes),
        }
    }
}

/// A claim that is given with changes; `before` has pieces of other claims.
pub fn spoiled(
    r: &mut Random,
    description: &Description,
    claim: &Claim,
    before: &[Vec<u8>],
) -> Given {
    let mut given = Given::of(description, claim);
    let changes = if r.one_in(4) { 2 } else { 1 };
    for _ in 0..changes {
        match r.below(16) {
            0..=2 => given.description = damage::description(r, description),
            3 => given.description = other_root(r, description, claim),
            4..=5 => literal(r, description, &mut given),
            6..=7 => order(r, &mut given, before),
            _ => piece(r, claim, &mut given, |r, piece| match piece {
                Piece::Graph(nodes) => spoil_graph::spoiled(r, description, nodes),
                Piece::List(closings) => spoil_list::spoiled(r, description, closings),
            }),
        }
    }
    given
}

/// A claim with a change that touches roles that never share a filler.
pub fn kept_apart(r: &mut Random, description: &Description, claim: &Claim) -> Given {
    let mut given = Given::of(description, claim);
    if r.below(5) < 3 {
        piece(r, claim, &mut given, |r, piece| match piece {
            Piece::Graph(nodes) => spoil_apart::graph(r, description, nodes),
            Piece::List(closings) => spoil_apart::list(r, description, closings),
        });
        return given;
    }
    given.description = spoil_apart::description(r, description);
    let refused = Description::read(&given.description).err();
    if refused == Some(Refusal::whole(26)) && r.one_in(2) {
        // 24 and 9 come after it.
        literal(r, description, &mut given);
        given.first = damage::bytes(r, &given.first);
    }
    given
}

/// One of the pieces spoiled.
fn piece(
    r: &mut Random,
    claim: &Claim,
    given: &mut Given,
    spoil: impl Fn(&mut Random, &Piece) -> Vec<u8>,
) {
    match &claim.second {
        Some(second) if r.one_in(2) => given.second = spoil(r, second),
        _ => given.first = spoil(r, &claim.first),
    }
}

/// The root is not used: another one changes nothing, except past the table.
fn other_root(r: &mut Random, description: &Description, claim: &Claim) -> Vec<u8> {
    let mut description = description.clone();
    let end = 2 * description.concepts.len() as u8;
    let any = r.below(end as usize) as u8;
    description.root = r.pick(&[any, any, claim.c, opposite(claim.c), claim.d, end, 255]);
    encode::description(&description)
}

/// Another C or D, in the table or past it.
fn literal(r: &mut Random, description: &Description, given: &mut Given) {
    let end = 2 * description.concepts.len();
    let past = [end, end, end + 1, 63, 64, 65, 127, 128, 254, 255];
    let other = match r.below(3) {
        0 => r.below(end),
        _ => r.pick(&past),
    } as u8;
    match r.below(8) {
        0 => given.c = opposite(given.c),
        1 => given.d = opposite(given.d),
        2 => (given.c, given.d) = (given.d, given.c),
        3 => given.d = r.pick(&[given.c, opposite(given.c)]),
        4..=5 => given.c = other,
        _ => given.d = other,
    }
}

/// The pieces exchanged, doubled, left out, or beside one of another claim.
fn order(r: &mut Random, given: &mut Given, before: &[Vec<u8>]) {
    let mut other = r.pick(before);
    if r.one_in(3) {
        other = damage::bytes(r, &other);
    }
    match r.below(9) {
        0 => std::mem::swap(&mut given.first, &mut given.second),
        1 => given.second = given.first.clone(),
        2 => given.first = given.second.clone(),
        3..=4 => given.second.clear(),
        5 => given.first.clear(),
        6 => {
            // A graph of C alone, or nothing at all.
            given.first = std::mem::take(&mut given.second);
        }
        7 => given.first = other,
        _ => given.second = other,
    }
}
