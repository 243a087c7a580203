//! Rounds of claims.

use crate::compare::Comparison;
use ::compare::encode;
use ::compare::make::claims::{self, Claim, Piece};
use ::compare::make::refutations;
use ::compare::make::spoil_claim::{kept_apart, spoiled, Given};
use ::compare::make::{cells, damage, descriptions};
use ::compare::paper::description::Description;
use ::compare::paper::label::{opposite, Label};
use ::compare::random::Random;

/// So many pieces of earlier claims are kept.
const KEPT: usize = 8;

/// A few claims on one description, and changes of them. `before` has pieces of earlier claims,
/// made for other literals or another description, and gets those of this round.
pub fn round(r: &mut Random, c: &mut Comparison, before: &mut Vec<Vec<u8>>) {
    let description = descriptions::random(r);
    for _ in 0..3 {
        if let Some(claim) = claims::search(r, &description) {
            let whole = Given::of(&description, &claim);
            with_changes(r, c, &description, &claim, before);
            with_cells(r, c, &description, &claim);
            with_error(r, c, &description, &whole);
            before.insert(0, whole.first);
            before.truncate(KEPT);
        }
    }
}

fn with_changes(
    r: &mut Random,
    c: &mut Comparison,
    description: &Description,
    claim: &Claim,
    before: &[Vec<u8>],
) {
    c.claim(&Given::of(description, claim));
    let changes = match claim.second {
        Some(_) => 20,
        None => 10,
    };
    for _ in 0..changes {
        c.claim(&spoiled(r, description, claim, before));
    }
    if description.apart.is_some() {
        // A list can show more of the errors than a graph.
        let changes = match (&claim.first, &claim.second) {
            (Piece::Graph(_), _) => 8,
            (Piece::List(_), None) => 20,
            (Piece::List(_), Some(_)) => 32,
        };
        for _ in 0..changes {
            c.claim(&kept_apart(r, description, claim));
        }
    }
}

/// The first piece is a list whose cells cite other records.
fn with_cells(r: &mut Random, c: &mut Comparison, description: &Description, claim: &Claim) {
    let Piece::List(closings) = &claim.first else {
        return;
    };
    for _ in 0..3 {
        if let Some(first) = cells::narrowed(r, description, closings) {
            let mut given = Given::of(description, claim);
            given.first = first;
            c.claim(&given);
            if r.one_in(2) {
                given.description = damage::roles(r, description);
                c.claim(&given);
            }
        }
    }
}

/// The first piece is a list that rests on an error about cells.
fn with_error(r: &mut Random, c: &mut Comparison, description: &Description, whole: &Given) {
    let known = r.pick(refutations::errors(description));
    let exception = Label::of(&[whole.c, opposite(whole.d)]);
    if let Some(closings) = refutations::search(r, description, exception, known, 1) {
        let mut given = whole.clone();
        given.first = encode::list(description.width(), &closings);
        c.claim(&given);
    }
}
