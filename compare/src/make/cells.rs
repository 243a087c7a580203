//! Closing lists in which cells of a counting step cite records that need what a cell knows by
//! its roles, or what it would know by the roles of another cell.

use crate::encode;
use crate::make::refutations::cites_of;
use crate::paper::counting::{cell_roles, known_by_roles, row, Row, BARRED, OPEN};
use crate::paper::description::Description;
use crate::paper::evidence::{Cite, Closing, Counting, Step, MOST_RECORDS};
use crate::paper::label::{Label, Literal};
use crate::random::Random;

/// A list where some cells of a step with two rows or more cite records of their own that need
/// more. It is as good as before, or one of them needs what its cell does not know. Nothing if
/// there is no such step.
pub fn narrowed(
    r: &mut Random,
    description: &Description,
    closings: &[Closing],
) -> Option<Vec<u8>> {
    let mut closings = closings.to_vec();
    let mut record = some_step(r, &closings)?;
    for _ in 0..r.range(1, 3) {
        record = narrow(r, description, &mut closings, record, false);
    }
    match r.below(8) {
        0..=2 => {}
        3..=6 => {
            narrow(r, description, &mut closings, record, true);
        }
        _ => beside(r, &mut closings[record].step),
    }
    Some(encode::list(description.width(), &closings))
}

fn some_step(r: &mut Random, closings: &[Closing]) -> Option<usize> {
    let rows = |i: usize| match &closings[i].step {
        Step::Counting(step) => step.rows.len(),
        _ => 0,
    };
    let steps: Vec<usize> = (0..closings.len()).filter(|&i| rows(i) >= 2).collect();
    (!steps.is_empty()).then(|| r.pick(&steps))
}

/// One cell gets such a record; gives the number that the step's record has then.
fn narrow(
    r: &mut Random,
    description: &Description,
    closings: &mut Vec<Closing>,
    record: usize,
    spoil: bool,
) -> usize {
    let needed = Place::of(description, &closings[record]).and_then(|p| p.needed(r, spoil));
    let (Some((cell, label)), true) = (needed, closings.len() < MOST_RECORDS) else {
        return record;
    };
    let Step::Counting(step) = &mut closings[record].step else {
        return record;
    };
    let old = std::mem::replace(&mut step.cells[cell - 1], record as Cite);
    let mut closing = closings[old as usize].clone();
    closing.label = closing.label.join(label);
    insert(closings, record, closing);
    record + 1
}

/// A counting step, with what the known labels of its cells rest on.
struct Place<'a> {
    description: &'a Description,
    label: Label,
    step: &'a Counting,
    rows: Vec<Row>,
}

impl Place<'_> {
    fn of<'a>(description: &'a Description, closing: &'a Closing) -> Option<Place<'a>> {
        let Step::Counting(step) = &closing.step else {
            return None;
        };
        let rows = step.rows.iter().map(|&l| row(description, l));
        Some(Place {
            description,
            label: closing.label,
            step,
            rows: rows.collect::<Option<_>>()?,
        })
    }

    /// What is known of a cell's fillers by the roles of the rows of another.
    fn known(&self, cell: usize, other: usize) -> Label {
        let roles = cell_roles(self.description, &self.rows, other);
        known_by_roles(self.description, self.label, &self.rows, cell, roles)
    }

    /// A cited cell with literals that it knows by its roles alone or, to spoil it, that it does
    /// not know. Mostly it would know those by roles of a cell near it.
    fn needed(&self, r: &mut Random, spoil: bool) -> Option<(usize, Label)> {
        for _ in 0..8 {
            let cell = self.cited_cell(r)?;
            let (less, more) = match spoil {
                false => (0, cell),
                true => (cell, cell | self.other_cell(r, cell)),
            };
            let (less, more) = (self.known(cell, less), self.known(cell, more));
            if !more.within(less) {
                return Some((cell, some_of(r, more, less)));
            }
        }
        let any = r.below(2 * self.description.concepts.len()) as Literal;
        spoil.then_some((self.cited_cell(r)?, Label::of(&[any])))
    }

    /// Any cell that cites a record; often one right behind an open cell, or the last that does.
    fn cited_cell(&self, r: &mut Random) -> Option<usize> {
        let open = |c: usize| self.step.cells[c - 1] == OPEN;
        let cells = 1..=self.step.cells.len();
        let cited: Vec<usize> = cells.filter(|&c| self.step.cells[c - 1] < BARRED).collect();
        let last = *cited.last()?;
        let any = r.pick(&cited);
        let behind = cited.iter().copied().filter(|&c| c > 1 && open(c - 1));
        let behind: Vec<usize> = behind.chain([any]).collect();
        let behind = r.pick(&behind);
        Some(r.pick(&[any, any, behind, last]))
    }

    /// The cell before, the next one, one row, or all rows that have come in up to the cell.
    fn other_cell(&self, r: &mut Random, cell: usize) -> usize {
        let one = 1 << r.below(self.rows.len());
        let come = (cell + 1).next_power_of_two() - 1;
        r.pick(&[cell - 1, cell + 1, one, come, come])
    }
}

/// All of a label, or of what another one lacks a single literal.
fn some_of(r: &mut Random, more: Label, less: Label) -> Label {
    let literals = more.literals().into_iter();
    let lacked: Vec<Literal> = literals.filter(|&l| !less.has(l)).collect();
    match r.one_in(2) {
        true => more,
        false => Label::of(&[r.pick(&lacked)]),
    }
}

/// What a cell has, a cite or none, the next one gets too, or the one before; so does the first
/// from the last, or the last from the first.
fn beside(r: &mut Random, step: &mut Step) {
    if let Step::Counting(Counting { cells, .. }) = step {
        let (count, from) = (cells.len(), r.below(cells.len()));
        let to = from + r.pick(&[1, count - 1]);
        cells[to % count] = cells[from];
    }
}

/// Puts a record before that one, which may cite it already.
fn insert(closings: &mut Vec<Closing>, record: usize, closing: Closing) {
    for later in &mut closings[record + 1..] {
        for cite in cites_of(&mut later.step) {
            if *cite as usize >= record {
                *cite += 1;
            }
        }
    }
    closings.insert(record, closing);
}
