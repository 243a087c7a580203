//! Evidence whose labels have the other width, or that has a form at both.

use crate::encode;
use crate::paper::counting::{row, BARRED, OPEN};
use crate::paper::description::Description;
use crate::paper::evidence::{Closing, Node};
use crate::paper::label::{Label, Literal, Width};
use crate::random::Random;

/// A graph with labels of the other width, in all records or in one.
pub fn graph(r: &mut Random, width: Width, nodes: &[Node]) -> Vec<u8> {
    let records = |width| encode::graph_records(width, nodes);
    encode::bundle(1, &mixed(r, records(width), records(width.other())))
}

/// A list with labels of the other width, in all records or in one, or one with a form at both.
pub fn list(r: &mut Random, description: &Description, closings: &[Closing]) -> Vec<u8> {
    if r.one_in(2) {
        return with_both_forms(r, description);
    }
    let width = description.width();
    let records = |width| encode::list_records(width, closings);
    encode::bundle(2, &mixed(r, records(width), records(width.other())))
}

fn mixed(r: &mut Random, mut right: Vec<Vec<u8>>, mut other: Vec<Vec<u8>>) -> Vec<Vec<u8>> {
    if r.one_in(2) {
        return other;
    }
    let i = r.below(right.len());
    right[i] = other.swap_remove(i);
    right
}

/// A list that 10 does not refuse at either width, so that it is judged at the one it has not
/// been made for.
pub fn with_both_forms(r: &mut Random, description: &Description) -> Vec<u8> {
    let count = r.range(1, 4);
    let records: Vec<Vec<u8>> = (0..count)
        .map(|own| record_with_both_forms(r, description, own as u8))
        .collect();
    encode::bundle(2, &records)
}

/// 18 bytes. At 8 bytes of label they are a counting step of two rows with a leaf. At 16 the label
/// takes in step, rows and cells, and the leaf's multipliers 1 and l are a clash on l. An open
/// cell 1 is the literals 24 to 31 then, cell 2 those from 16, cell 3 those from 8.
fn record_with_both_forms(r: &mut Random, description: &Description, own: u8) -> Vec<u8> {
    let table = 2 * description.concepts.len();
    let is_row = |l: &usize| row(description, *l as Literal).is_some();
    let mut from: Vec<usize> = (0..table).filter(is_row).collect();
    if from.len() < 2 || r.one_in(6) {
        from = (0..table).collect();
    }
    let mut rows = [r.pick(&from) as u8, r.pick(&from) as u8];
    rows.sort();
    let front = match description.width() {
        Width::Narrow => Label::of(&rows),
        // The low bits are literals from 64 on.
        Width::Wide => Label(r.bits64() as u128 & ((1 << (table - 64)) - 1)),
    };
    let mut record = front.bytes(Width::Narrow);
    if r.one_in(8) {
        record[r.below(8)] ^= 1 << r.below(8);
    }
    record.extend([6, 2]);
    record.extend(rows);
    let mark = match description.apart {
        Some(_) => BARRED,
        None => OPEN,
    };
    let bytes = [OPEN, mark, own.saturating_sub(1), own];
    record.extend([(); 3].map(|()| r.pick(&bytes)));
    let clash = r.range(8, 31);
    let l = r.pick(&[0, 1, clash, clash, clash, table - 1, table]);
    record.extend([0, 1, l as u8]);
    record
}
