//! Long lists: full trees, many records, ends past 65,535.

use crate::encode;
use crate::paper::counting::open_cells;
use crate::paper::evidence::{Closing, Counting, Step, Tree, MOST_RECORDS};
use crate::paper::label::{Label, Width};
use crate::random::Random;

/// A list that still closes and whose last record reaches past 65,535, or just not, or that
/// no pairs can name. Full copies of a counting step come before the last record.
pub fn past_16_bits(r: &mut Random, width: Width, closings: &[Closing]) -> Option<Vec<u8>> {
    let (last, before) = closings.split_last()?;
    let first = before
        .iter()
        .find(|c| matches!(c.step, Step::Counting(_)))?;
    let mut records = encode::list_records(width, before);
    let mut end = encode::closing(width, last);
    if r.one_in(8) {
        // Too long to have a form; as evidence it may be as long as any.
        end.resize(65_535, 1);
    }
    let head = 2 + 4 * MOST_RECORDS;
    let used: usize = records.iter().map(Vec::len).sum();
    // Where the last record is to begin: its end passes 65,535, or its offset does.
    let goal = r.range(65_500, 65_580);
    let mut left = usize::checked_sub(goal, head + used)?;
    // The other records are filled up with clashes of two bytes behind the label.
    let clash = Closing {
        label: Label::of(&[0, 1]),
        step: Step::Clash(1),
    };
    let clash = encode::closing(width, &clash);
    for depth in (0..=8).rev() {
        let full = encode::closing(width, &full_closing(first, depth)?);
        while records.len() < MOST_RECORDS - 1 {
            let clashes = (MOST_RECORDS - 2 - records.len()) * clash.len();
            if left < full.len() + clashes {
                break;
            }
            left -= full.len();
            records.push(full.clone());
        }
    }
    while records.len() < MOST_RECORDS - 1 {
        records.push(clash.clone());
    }
    records.push(end);
    Some(encode::bundle(2, &records))
}

/// The closing with every leaf split down to a depth; the splits are not needed.
pub fn full_closing(closing: &Closing, depth: usize) -> Option<Closing> {
    let Step::Counting(step) = &closing.step else {
        return None;
    };
    let cell = open_cells(&step.cells).first().copied().unwrap_or(1) as u8;
    let tree = full_tree(&step.tree, cell, 0, depth);
    Some(Closing {
        label: closing.label,
        step: Step::Counting(Counting {
            tree,
            ..step.clone()
        }),
    })
}

fn full_tree(tree: &Tree, cell: u8, above: usize, depth: usize) -> Tree {
    let split = |cell: u8, value: u16, a: &Tree, b: &Tree| Tree::Split {
        cell,
        value,
        at_most: Box::new(full_tree(a, cell, above + 1, depth)),
        at_least: Box::new(full_tree(b, cell, above + 1, depth)),
    };
    match tree {
        Tree::Leaf(multipliers) if above < depth => {
            let mut longer = multipliers.clone();
            longer.push(0);
            let leaf = Tree::Leaf(longer);
            split(cell, 1000, &leaf, &leaf)
        }
        Tree::Leaf(_) => tree.clone(),
        Tree::Split {
            cell,
            value,
            at_most,
            at_least,
        } => split(*cell, *value, at_most, at_least),
    }
}
