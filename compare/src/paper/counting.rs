//! The counting step: rows, cells and the tree.

use super::description::{Concept, Description};
use super::evidence::{Closing, Counting, Tree};
use super::label::{opposite, Label, Literal};

/// The cell byte of an open cell.
pub const OPEN: u8 = 255;

/// The cell byte of a cell that is barred by its roles. With three pairs it is a cite like others.
pub const BARRED: u8 = 254;

#[derive(Clone, Copy, PartialEq, Eq, Debug)]
pub enum Side {
    Lower,
    Upper,
}

/// A row: so many fillers of the role with the qualifier, at least or at most.
#[derive(Clone, Copy, PartialEq, Eq, Debug)]
pub struct Row {
    pub role: usize,
    pub qualifier: Literal,
    pub side: Side,
    pub bound: i64,
}

/// The row that a literal of the table is, if it is one.
pub fn row(description: &Description, l: Literal) -> Option<Row> {
    let denied = l % 2 == 1;
    match description.concepts[l as usize / 2] {
        Concept::AtLeast {
            number,
            role,
            literal,
        } => Some(Row {
            role,
            qualifier: literal,
            side: if denied { Side::Upper } else { Side::Lower },
            bound: number as i64 - denied as i64,
        }),
        // The complement of "every R l": some filler has the opposite of l.
        Concept::Every { role, literal } if denied => Some(Row {
            role,
            qualifier: opposite(literal),
            side: Side::Lower,
            bound: 1,
        }),
        _ => None,
    }
}

/// Does a filler of the cell count in row i?
pub fn in_cell(cell: usize, i: usize) -> bool {
    cell >> i & 1 == 1
}

/// The mask of the ancestors of the roles of a cell's rows.
pub fn cell_roles(description: &Description, rows: &[Row], cell: usize) -> u16 {
    let of_cell = rows.iter().enumerate().filter(|(i, _)| in_cell(cell, *i));
    of_cell.fold(0, |mask, (_, row)| mask | description.ancestors[row.role])
}

/// The answer for one cell.
#[derive(Clone, Copy, PartialEq, Eq, Debug)]
pub enum Cell {
    /// What is known of its fillers.
    Known(Label),
    /// Its roles have both roles of a record, so there are none.
    Barred,
}

/// The answer for a cell, where `label` is the record's own.
pub fn cell_answer(description: &Description, label: Label, rows: &[Row], cell: usize) -> Cell {
    let roles = cell_roles(description, rows, cell);
    cell_by_roles(description, label, rows, cell, roles)
}

/// The same for fillers of which these roles are known, which may be others than the cell's.
pub fn cell_by_roles(
    description: &Description,
    label: Label,
    rows: &[Row],
    cell: usize,
    roles: u16,
) -> Cell {
    match description.barred(roles) {
        true => Cell::Barred,
        false => Cell::Known(known_by_roles(description, label, rows, cell, roles)),
    }
}

/// 18, for one cell: a barred one has the byte for that; any other is open or cites a record whose
/// label lies within the known one.
pub fn byte_fits(byte: u8, answer: Cell, closings: &[Closing]) -> bool {
    match (answer, byte) {
        (Cell::Barred, byte) => byte == BARRED,
        (Cell::Known(_), OPEN) => true,
        (Cell::Known(_), BARRED) => false,
        (Cell::Known(known), cite) => closings[cite as usize].label.within(known),
    }
}

/// What is known of fillers of a cell by these roles, barred or not.
pub fn known_by_roles(
    description: &Description,
    label: Label,
    rows: &[Row],
    cell: usize,
    roles: u16,
) -> Label {
    let among = |role: usize| roles >> role & 1 == 1;
    let mut known = Label::of(&[0]);
    for (i, row) in rows.iter().enumerate() {
        if in_cell(cell, i) {
            known = known.with(row.qualifier);
        } else if among(row.role) {
            known = known.with(opposite(row.qualifier));
        }
    }
    for (e, concept) in description.concepts.iter().enumerate() {
        let Concept::Every { role, literal } = *concept else {
            continue;
        };
        if !label.has(2 * e as Literal) {
            continue;
        }
        if among(role) {
            known = known.with(literal);
        }
        for t in description.transitive_below(role) {
            if let (true, Some(every)) = (among(t), description.every_entry(t, literal)) {
                known = known.with(2 * every as Literal);
            }
        }
    }
    known
}

/// A bound on the fillers of some cells: a row, or a half of a split.
#[derive(Clone, Copy)]
pub struct Bound {
    pub side: Side,
    pub bound: i64,
    cells: Cells,
}

#[derive(Clone, Copy)]
enum Cells {
    OfRow(usize),
    Only(usize),
}

impl Bound {
    pub fn of_row(i: usize, row: &Row) -> Bound {
        Bound {
            side: row.side,
            bound: row.bound,
            cells: Cells::OfRow(i),
        }
    }

    /// The half with at most v.
    pub fn at_most(cell: usize, v: u16) -> Bound {
        Bound {
            side: Side::Upper,
            bound: v as i64,
            cells: Cells::Only(cell),
        }
    }

    /// The half with at least v+1.
    pub fn at_least_more(cell: usize, v: u16) -> Bound {
        Bound {
            side: Side::Lower,
            bound: v as i64 + 1,
            cells: Cells::Only(cell),
        }
    }

    pub fn covers(&self, cell: usize) -> bool {
        match self.cells {
            Cells::OfRow(i) => in_cell(cell, i),
            Cells::Only(one) => one == cell,
        }
    }
}

/// The open cells of a step, from 1 up.
pub fn open_cells(cells: &[u8]) -> Vec<usize> {
    (1..=cells.len())
        .filter(|&c| cells[c - 1] == OPEN)
        .collect()
}

/// 19: every split is on an open cell with a value up to 1,000, and every leaf closes.
pub fn tree_closes(step: &Counting, rows: &[Row]) -> bool {
    let bounds = rows.iter().enumerate();
    let mut bounds = bounds.map(|(i, row)| Bound::of_row(i, row)).collect();
    half_closes(&step.tree, &open_cells(&step.cells), &mut bounds)
}

/// A half, where `bounds` has the rows and the halves above from the top.
fn half_closes(tree: &Tree, open: &[usize], bounds: &mut Vec<Bound>) -> bool {
    match tree {
        Tree::Leaf(multipliers) => leaf_closes(multipliers, open, bounds),
        Tree::Split {
            cell,
            value,
            at_most,
            at_least,
        } => {
            let cell = *cell as usize;
            if !open.contains(&cell) || *value > 1000 {
                return false;
            }
            let mut closes = |half: &Tree, bound: Bound| {
                bounds.push(bound);
                let closes = half_closes(half, open, bounds);
                bounds.pop();
                closes
            };
            closes(at_most, Bound::at_most(cell, *value))
                && closes(at_least, Bound::at_least_more(cell, *value))
        }
    }
}

/// In each open cell the lower multipliers total no more than the upper ones, and the lower
/// total less the upper total is above zero.
pub fn leaf_closes(multipliers: &[u8], open: &[usize], bounds: &[Bound]) -> bool {
    let signed = |side: Side, amount: i64| match side {
        Side::Lower => amount,
        Side::Upper => -amount,
    };
    let each = || bounds.iter().zip(multipliers.iter().map(|&m| m as i64));
    let excess = |cell: usize| -> i64 {
        each()
            .filter(|(b, _)| b.covers(cell))
            .map(|(b, m)| signed(b.side, m))
            .sum()
    };
    let gap: i64 = each().map(|(b, m)| signed(b.side, m * b.bound)).sum();
    gap > 0 && open.iter().all(|&cell| excess(cell) <= 0)
}
