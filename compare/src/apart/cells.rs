//! Errors about cells that are barred by their roles.

use super::{Case, Lapse};
use crate::encode;
use crate::paper::counting::{
    byte_fits, in_cell, known_by_roles, tree_closes, Cell, Row, BARRED, OPEN,
};
use crate::paper::description::pairs_of;
use crate::paper::evidence::Counting;
use crate::paper::{Answer, Refusal};
use crate::steps::Place;

pub(super) const LAPSES: [Lapse; 10] = [
    ("cell own", own),
    ("cell first", first),
    ("cell alone", alone),
    ("cell open", open),
    ("cell cited", cited),
    ("cell any", any),
    ("cell number", number),
    ("cell three", three),
    ("cell none", none),
    ("cell split", split),
];

impl Case<'_> {
    /// Is a step refused with 18 where another test would not, or the other way round?
    fn cells_differ(&self, passes: impl Fn(&Place, usize) -> bool) -> bool {
        let with_records = |place: &Place| !place.description.records_apart().is_empty();
        let Some(list) = self.list else {
            return false;
        };
        list.tested().filter(with_records).any(|place| {
            let right = place.cells().all(|cell| place.right(cell));
            right != place.cells().all(|cell| passes(&place, cell))
        })
    }
}

impl Place<'_> {
    /// The rows of a cell.
    fn rows_of(&self, cell: usize) -> impl Iterator<Item = (usize, &Row)> + Clone {
        let rows = self.rows.iter().enumerate();
        rows.filter(move |(i, _)| in_cell(cell, *i))
    }

    fn is_barred(&self, cell: usize) -> bool {
        self.description.barred(self.roles(cell))
    }

    fn right(&self, cell: usize) -> bool {
        self.passes(cell, self.roles(cell))
    }

    /// Does the byte fit if the cell is barred, or not, whatever its roles are?
    fn fits(&self, cell: usize, barred: bool) -> bool {
        let roles = self.roles(cell);
        let known = || known_by_roles(self.description, self.label, &self.rows, cell, roles);
        let answer = match barred {
            true => Cell::Barred,
            false => Cell::Known(known()),
        };
        byte_fits(self.byte(cell), answer, self.closings)
    }
}

/// A cell is barred by its rows' own roles only.
fn own(case: &Case) -> bool {
    case.cells_differ(|place, cell| {
        let roles = place
            .rows_of(cell)
            .fold(0, |mask, (_, row)| mask | 1 << row.role);
        place.fits(cell, place.description.barred(roles))
    })
}

/// A cell is barred by the first record only.
fn first(case: &Case) -> bool {
    case.cells_differ(|place, cell| {
        let first = place.description.records_apart().first();
        let held = |role: &u8| place.roles(cell) >> role & 1 == 1;
        place.fits(cell, first.is_some_and(|record| record.iter().all(held)))
    })
}

/// A cell is barred by the roles of two rows, not by those of one.
fn alone(case: &Case) -> bool {
    case.cells_differ(|place, cell| {
        let has = |row: &Row, role: u8| place.description.has_ancestor(row.role, role as usize);
        let barred = place.description.records_apart().iter().any(|&[a, b]| {
            let with_a = place.rows_of(cell).filter(|(_, row)| has(row, a));
            let mut pairs = with_a.flat_map(|(i, _)| place.rows_of(cell).map(move |j| (i, j)));
            pairs.any(|(i, (j, row))| i != j && has(row, b))
        });
        place.fits(cell, barred)
    })
}

/// A barred cell may be open.
fn open(case: &Case) -> bool {
    case.cells_differ(|place, cell| place.byte(cell) == OPEN || place.right(cell))
}

/// A barred cell may cite a record whose label lies within what is known of it.
fn cited(case: &Case) -> bool {
    case.cells_differ(|place, cell| {
        let cites = place.byte(cell) < BARRED;
        place.right(cell) || cites && place.fits(cell, false)
    })
}

/// Any cell may have the mark of barred ones.
fn any(case: &Case) -> bool {
    case.cells_differ(|place, cell| place.byte(cell) == BARRED || place.right(cell))
}

/// In a barred cell a number that is no earlier record is 18.
fn number(case: &Case) -> bool {
    let Answer::Refused(Refusal { number: 16, record }) = case.asked.answer else {
        return false;
    };
    let list = case.list.filter(|list| list.description.apart.is_some());
    let Some(place) = list.and_then(|list| list.place(record as usize)) else {
        return false;
    };
    let passes = |cell: usize| {
        let byte = place.byte(cell);
        byte >= BARRED || (byte as usize) < place.record || place.is_barred(cell)
    };
    place.label.in_table(place.description.concepts.len()) && place.cells().all(passes)
}

/// With three pairs 254 is a mark, too.
fn three(case: &Case) -> bool {
    // Only a cite that is not earlier can show it.
    if case.asked.number() != 16 || pairs_of(case.asked.description) != 3 {
        return false;
    }
    let list = case.list.map(|list| &list.description);
    list.is_some_and(|description| {
        let mut four = description.clone();
        four.apart = Some(Vec::new());
        case.asked.under(&encode::description(&four)) != case.asked.answer
    })
}

/// With four pairs and no record 254 is no mark.
fn none(case: &Case) -> bool {
    let list = case.list.map(|list| &list.description);
    list.is_some_and(|description| {
        let mut three = description.clone();
        three.apart = None;
        let no_record = description.apart.as_ref().is_some_and(Vec::is_empty);
        no_record && case.asked.under(&encode::description(&three)) != case.asked.answer
    })
}

/// The tree takes barred cells for open ones.
fn split(case: &Case) -> bool {
    let Some(list) = case.list.filter(|list| list.description.apart.is_some()) else {
        return false;
    };
    list.tested().any(|place| {
        let opened = |&byte: &u8| if byte == BARRED { OPEN } else { byte };
        let wrong = Counting {
            cells: place.step.cells.iter().map(opened).collect(),
            ..place.step.clone()
        };
        place.cells().all(|cell| place.right(cell))
            && tree_closes(&wrong, &place.rows) != tree_closes(place.step, &place.rows)
    })
}
