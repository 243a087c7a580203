//! Closing lists with one thing changed; some changes leave a list that closes.

use crate::encode;
use crate::make::damage;
use crate::make::refutations::cites_of;
use crate::make::spoil_graph::head;
use crate::make::{spoil_apart, swell, widths};
use crate::paper::counting::{open_cells, BARRED, OPEN};
use crate::paper::description::Description;
use crate::paper::evidence::{Closing, Counting, Step, Tree};
use crate::paper::label::{Label, Literal, Width};
use crate::random::Random;

pub fn spoiled(r: &mut Random, description: &Description, closings: &[Closing]) -> Vec<u8> {
    let width = description.width();
    let bytes = encode::list(width, closings);
    match r.below(15) {
        0 => damage::bytes(r, &bytes),
        1 => damage::pairs(r, &bytes, 2, closings.len()),
        2 => head(r, &bytes),
        3 => form(r, width, closings),
        4 if r.one_in(10) => swell::past_16_bits(r, width, closings).unwrap_or(bytes),
        5 => widths::list(r, description, closings),
        _ => {
            let mut closings = closings.to_vec();
            change(r, description, &mut closings);
            encode::list(width, &closings)
        }
    }
}

/// A record too short or too long, an unknown step, another k; the pairs agree.
fn form(r: &mut Random, width: Width, closings: &[Closing]) -> Vec<u8> {
    let label = width.label();
    let mut records = encode::list_records(width, closings);
    let i = r.below(records.len());
    let record = &mut records[i];
    match r.below(6) {
        // The end of the last record may lie past 65,535.
        0 if i + 1 == closings.len() => record.resize(r.pick(&[300, 60_000, 65_535]), 1),
        0 => record.truncate(r.below(record.len())),
        1 => record.push(0),
        2 => {
            record.pop();
        }
        3 => record[label] = r.pick(&[0, 1, 2, 3, 4, 5, 6, 7, 255]),
        4 => record[label + 1] = r.pick(&[0, 1, 2, 5, 6, 7, 255]),
        _ => {
            let at = r.below(record.len());
            record[at] = r.pick(&[0, 1, 2, 255]);
        }
    }
    encode::bundle(2, &records)
}

fn change(r: &mut Random, description: &Description, closings: &mut Vec<Closing>) {
    let i = r.below(closings.len());
    let counting = |closing: &Closing| matches!(closing.step, Step::Counting(_));
    let steps: Vec<usize> = (0..closings.len())
        .filter(|&i| counting(&closings[i]))
        .collect();
    if !steps.is_empty() && !r.one_in(3) {
        let i = r.pick(&steps);
        return change_step(r, description, closings, i);
    }
    match r.below(10) {
        0..=1 => label(r, description, &mut closings[i]),
        2..=3 => cite(r, &mut closings[i].step, i),
        4..=5 => subject(r, description, &mut closings[i].step),
        6 => {
            let other = r.below(closings.len());
            closings.swap(i, other);
        }
        7 => {
            // The end is missing, or another record stands there.
            if closings.len() > 1 {
                closings.pop();
            }
        }
        8 => lengthen(r, closings, i),
        _ => {
            let last = closings.len() - 1;
            let l = r.below(2 * description.concepts.len());
            closings[last].label = closings[last].label.with(l as Literal);
        }
    }
}

/// A change to a counting step.
fn change_step(r: &mut Random, description: &Description, closings: &mut [Closing], i: usize) {
    if r.one_in(30) {
        closings[i] = swell::full_closing(&closings[i], 8).unwrap_or(closings[i].clone());
    }
    if description.apart.is_some() && r.one_in(10) {
        spoil_apart::cell(r, description, closings, i);
    } else if let Step::Counting(step) = &mut closings[i].step {
        count(r, description, step, i);
    }
}

/// Another record at the end; 64 records, or 65.
fn lengthen(r: &mut Random, closings: &mut Vec<Closing>, i: usize) {
    let copy = closings[i].clone();
    let last = closings[closings.len() - 1].clone();
    match r.below(4) {
        0 => closings.resize(64, last),
        1 => closings.resize(65, last),
        _ => closings.push(copy),
    }
}

fn label(r: &mut Random, description: &Description, closing: &mut Closing) {
    let held = closing.label.literals();
    let bits = 8 * description.width().label();
    match r.below(5) {
        0..=2 if !held.is_empty() => closing.label = closing.label.without(r.pick(&held)),
        3 => closing.label = Label(closing.label.0 ^ 1 << r.below(bits)),
        _ => {
            let l = r.below(2 * description.concepts.len());
            closing.label = Label(closing.label.0 ^ 1 << l);
        }
    }
}

/// A cite of another record, of this one, of a later one.
fn cite(r: &mut Random, step: &mut Step, own: usize) {
    let mut cites = cites_of(step);
    if cites.is_empty() {
        return;
    }
    let at = r.below(cites.len());
    *cites[at] = match r.below(6) {
        0 => own as u8,
        1 => own as u8 + 1,
        2 => r.pick(&[63, 64, 254, 255]),
        _ => r.below(own.max(1)) as u8,
    };
    if cites.len() == 2 && r.one_in(3) {
        let (a, b) = (*cites[0], *cites[1]);
        (*cites[0], *cites[1]) = (b, a);
    }
}

/// The literal, entry or rule of a step, within the table or past it.
fn subject(r: &mut Random, description: &Description, step: &mut Step) {
    let entries = description.concepts.len();
    let rules = description.rules.len();
    let mut near = |end: usize| match r.below(3) {
        0 => r.pick(&[end, end + 1, 63, 64, 127, 128, 255]) as u8,
        _ => r.below(end.max(1)) as u8,
    };
    match step {
        Step::Clash(l) => *l = near(2 * entries),
        Step::Both { entry, .. } | Step::NotBoth { entry, .. } | Step::Cases { entry, .. } => {
            *entry = near(entries)
        }
        Step::Rule { rule, .. } => *rule = near(rules),
        Step::Counting(step) => {
            if let Some(row) = step.rows.last_mut() {
                *row = near(2 * entries);
            }
        }
    }
}

fn count(r: &mut Random, description: &Description, step: &mut Counting, own: usize) {
    let k = step.rows.len();
    match r.below(14) {
        0 => {
            // Rows that do not rise, or are others.
            let (a, b) = (r.below(k), r.below(k));
            step.rows.swap(a, b);
        }
        1 => {
            let l = r.below(2 * description.concepts.len() + 1);
            step.rows[r.below(k)] = l as Literal;
        }
        2..=6 => {
            // A cell opened, shut, or shut by another record.
            let c = r.below(step.cells.len());
            let other = r.below(own.max(1)) as u8;
            step.cells[c] = match r.below(10) {
                0..=1 => OPEN,
                2 => own as u8,
                3..=4 => BARRED,
                _ => other,
            };
        }
        7 => more_rows(r, step),
        8..=9 => deepen(r, step),
        10 => scale(&mut step.tree, r.pick(&[2, 3, 64, 127, 255])),
        11 => split_value(r, step),
        _ => multiplier(r, &mut step.tree),
    }
}

/// k of 0, 6 or 7, with as many cells and multipliers as such a k asks for.
fn more_rows(r: &mut Random, step: &mut Counting) {
    let k = r.pick(&[0, 1, 6, 7, 7]);
    let next = step.rows.last().map_or(0, |l| l.saturating_add(1));
    step.rows.resize(k, next);
    step.cells.resize((1 << k) - 1, OPEN);
    step.tree = Tree::Leaf(vec![1; k]);
}

/// Splits that are not needed above a leaf, up to depth 8 or 9, seldom on a cell that is not open;
/// the leaf's multipliers of them are 0, so that it still closes.
fn deepen(r: &mut Random, step: &mut Counting) {
    let open = open_cells(&step.cells);
    let cell = match open.is_empty() || r.one_in(8) {
        true => r.range(1, step.cells.len()) as u8,
        false => r.pick(&open) as u8,
    };
    let value = r.pick(&[0, 1, 2, 999, 1000, 1000, 1001]);
    let depth = r.pick(&[1, 2, 7, 8, 8, 9]);
    let k = step.rows.len();
    let leaf = some_leaf(r, &mut step.tree);
    let Tree::Leaf(multipliers) = leaf.clone() else {
        return;
    };
    let above = multipliers.len().saturating_sub(k);
    *leaf = chain(r, multipliers, cell, value, depth.max(above) - above);
}

fn chain(r: &mut Random, mut multipliers: Vec<u8>, cell: u8, value: u16, depth: usize) -> Tree {
    if depth == 0 {
        return Tree::Leaf(multipliers);
    }
    multipliers.push(0);
    let short = Tree::Leaf(multipliers.clone());
    let long = chain(r, multipliers, cell, value, depth - 1);
    let (at_most, at_least) = if r.one_in(2) {
        (short, long)
    } else {
        (long, short)
    };
    Tree::Split {
        cell,
        value,
        at_most: Box::new(at_most),
        at_least: Box::new(at_least),
    }
}

/// A leaf on a random path.
fn some_leaf<'a>(r: &mut Random, tree: &'a mut Tree) -> &'a mut Tree {
    match tree {
        Tree::Leaf(_) => tree,
        Tree::Split {
            at_most, at_least, ..
        } => {
            let half = if r.one_in(2) { at_most } else { at_least };
            some_leaf(r, half)
        }
    }
}

/// All multipliers times a factor: a leaf that closes still does.
fn scale(tree: &mut Tree, factor: u8) {
    match tree {
        Tree::Leaf(multipliers) => {
            for m in multipliers {
                *m = m.saturating_mul(factor);
            }
        }
        Tree::Split {
            at_most, at_least, ..
        } => {
            scale(at_most, factor);
            scale(at_least, factor);
        }
    }
}

/// The split at the top gets another cell or value.
fn split_value(r: &mut Random, step: &mut Counting) {
    let last = step.cells.len() as u8;
    if let Tree::Split { cell, value, .. } = &mut step.tree {
        match r.below(3) {
            0 => *cell = r.pick(&[0, 1, last, last.wrapping_add(1), 255]),
            1 => *value = r.pick(&[0, 1, 2, 1000, 1001, 65535]),
            _ => *value = value.wrapping_add(1),
        }
    } else {
        deepen(r, step);
    }
}

/// One multiplier of one leaf.
fn multiplier(r: &mut Random, tree: &mut Tree) {
    if let Tree::Leaf(multipliers) = some_leaf(r, tree) {
        if !multipliers.is_empty() {
            let at = r.below(multipliers.len());
            multipliers[at] = match r.below(4) {
                0 => r.pick(&[0, 1, 2, 254, 255]),
                1 => multipliers[at].wrapping_sub(1),
                _ => multipliers[at].wrapping_add(1),
            };
        }
    }
}
