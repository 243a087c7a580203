//! Closing lists by a small refutation search over steps 1 to 6.

use crate::make::trees;
use crate::paper::counting::{
    cell_roles, in_cell, known_by_roles, open_cells, row, Cell, Row, BARRED, OPEN,
};
use crate::paper::description::{Concept, Description};
use crate::paper::evidence::{Cite, Closing, Counting, Step, MOST_RECORDS};
use crate::paper::label::{opposite, Label, Literal};
use crate::random::Random;

/// How the search knows the answer for a cell: as the papers say, or with an error that a good
/// developer may make, so that its lists are such as a wrong checker would take.
#[derive(Clone, Copy, PartialEq, Eq)]
pub enum Known {
    AsSaid,
    /// A qualifier is denied also where the row's role is not known to hold.
    Denied,
    /// The l of "every R l" also where R is not known to hold.
    Reached,
    /// "Every T l" also where T is not known to hold.
    Carried,
    /// A barred cell is one like others.
    Shared,
    /// A cell is barred also where only one role of a record is known to hold.
    Half,
}

/// The errors that a search may have about cells of a description.
pub fn errors(description: &Description) -> &'static [Known] {
    let all = &[
        Known::Denied,
        Known::Reached,
        Known::Carried,
        Known::Shared,
        Known::Half,
    ];
    match description.apart {
        Some(_) => all,
        None => &all[..3],
    }
}

/// A list that closes the literals wanted, if a few tries find one; it is not tested here.
pub fn search(
    r: &mut Random,
    description: &Description,
    wanted: Label,
    known: Known,
    tries: usize,
) -> Option<Vec<Closing>> {
    for _ in 0..tries {
        let mut search = Search {
            known,
            keep_whole: r.one_in(4),
            r,
            description,
            closings: Vec::new(),
            fuel: 400,
        };
        let mut goal = wanted;
        if search.r.one_in(2) {
            goal = goal.with(0);
        }
        if let Some(last) = search.refute(goal, 0) {
            let mut closings = search.closings;
            closings.truncate(last as usize + 1);
            if r.one_in(4) && closings.len() <= MOST_RECORDS {
                return Some(closings);
            }
            let used = only_used(&closings);
            if used.len() <= MOST_RECORDS {
                return Some(used);
            }
        }
    }
    None
}

struct Search<'a> {
    r: &'a mut Random,
    description: &'a Description,
    closings: Vec<Closing>,
    fuel: usize,
    known: Known,
    /// Closings keep the whole label at hand and not only what they need.
    keep_whole: bool,
}

impl Search<'_> {
    /// A record whose label is within the given one.
    fn refute(&mut self, label: Label, depth: usize) -> Option<Cite> {
        self.fuel = self.fuel.checked_sub(1)?;
        if self.closings.len() >= 200 {
            return None;
        }
        if let Some(old) = self.closings.iter().position(|c| c.label.within(label)) {
            return Some(old as Cite);
        }
        if let Some(clash) = self.clash(label) {
            return Some(clash);
        }
        for rule in 0..self.description.rules.len() {
            let literal = self.description.rules[rule];
            if !label.has(literal) {
                return self.by_rule(label, rule as u8, literal, depth);
            }
        }
        for e in (0..self.description.concepts.len()).rev() {
            if let Concept::Both(a, b) = self.description.concepts[e] {
                if label.has(2 * e as Literal) && !(label.has(a) && label.has(b)) {
                    return self.by_both(label, e as u8, [a, b], depth);
                }
            }
        }
        if self.r.one_in(25) {
            let e = self.r.below(self.description.concepts.len()) as u8;
            return self.by_cases(label, e, depth);
        }
        for e in (0..self.description.concepts.len()).rev() {
            if let Concept::Both(a, b) = self.description.concepts[e] {
                let met = label.has(opposite(a)) || label.has(opposite(b));
                if label.has(2 * e as Literal + 1) && !met {
                    return self.by_not_both(label, e as u8, [a, b], depth);
                }
            }
        }
        self.by_counting(label, depth)
    }

    fn closing(&mut self, whole: Label, needed: Label, step: Step) -> Option<Cite> {
        let label = if self.keep_whole { whole } else { needed };
        self.closings.push(Closing { label, step });
        Some((self.closings.len() - 1) as Cite)
    }

    fn cited(&self, cite: Cite) -> Label {
        self.closings[cite as usize].label
    }

    /// Step 1.
    fn clash(&mut self, label: Label) -> Option<Cite> {
        let held = label.with(0);
        let l = (0..64)
            .map(|e| 2 * e)
            .find(|&l| held.has(l) && held.has(l + 1))?;
        let needed = Label::of(&[l, l + 1]);
        let needed = if l == 0 { needed.without(0) } else { needed };
        let l = l + self.r.below(2) as Literal;
        self.closing(label, needed, Step::Clash(l))
    }

    /// Step 4.
    fn by_rule(&mut self, label: Label, rule: u8, l: Literal, depth: usize) -> Option<Cite> {
        let cite = self.refute(label.with(l), depth)?;
        if self.cited(cite).within(label) {
            return Some(cite);
        }
        let needed = self.cited(cite).without(l);
        self.closing(label, needed, Step::Rule { rule, cite })
    }

    /// Step 2.
    fn by_both(&mut self, label: Label, entry: u8, of: [u8; 2], depth: usize) -> Option<Cite> {
        let cite = self.refute(label.with(of[0]).with(of[1]), depth)?;
        if self.cited(cite).within(label) {
            return Some(cite);
        }
        let needed = self.cited(cite).without(of[0]).without(of[1]);
        let needed = needed.with(2 * entry);
        self.closing(label, needed, Step::Both { entry, cite })
    }

    /// Two cites, within the label plus one literal each.
    fn two(&mut self, label: Label, plus: [u8; 2], depth: usize) -> Option<([Cite; 2], Label)> {
        let a = self.refute(label.with(plus[0]), depth)?;
        let b = self.refute(label.with(plus[1]), depth)?;
        let needed = self.cited(a).without(plus[0]);
        let needed = needed.join(self.cited(b).without(plus[1]));
        Some(([a, b], needed))
    }

    /// Step 3.
    fn by_not_both(&mut self, label: Label, entry: u8, of: [u8; 2], depth: usize) -> Option<Cite> {
        let plus = [opposite(of[0]), opposite(of[1])];
        let (cites, needed) = self.two(label, plus, depth)?;
        let needed = needed.with(2 * entry + 1);
        self.closing(label, needed, Step::NotBoth { entry, cites })
    }

    /// Step 5.
    fn by_cases(&mut self, label: Label, entry: u8, depth: usize) -> Option<Cite> {
        let (cites, needed) = self.two(label, [2 * entry, 2 * entry + 1], depth)?;
        self.closing(label, needed, Step::Cases { entry, cites })
    }

    /// Step 6, with all rows of the label or with some of them.
    fn by_counting(&mut self, label: Label, depth: usize) -> Option<Cite> {
        let literals = (0..2 * self.description.concepts.len()).map(|l| l as Literal);
        let all: Vec<Literal> = literals
            .filter(|&l| label.has(l) && row(self.description, l).is_some())
            .collect();
        if all.is_empty() || depth > 3 {
            return None;
        }
        for _ in 0..3 {
            let mut rows = all.clone();
            self.r.shuffle(&mut rows);
            let most = self.r.pick(&[2, 3, 4, 5, 6, 6]);
            rows.truncate(most);
            rows.sort();
            let found = self.counting(label, rows, depth);
            if found.is_some() {
                return found;
            }
        }
        None
    }

    /// The answer for a cell, with the search's own error if it has one.
    fn answer(&self, label: Label, rows: &[Row], cell: usize) -> Cell {
        let roles = cell_roles(self.description, rows, cell);
        let mut records = self.description.records_apart().iter().flatten();
        let barred = match self.known {
            Known::Shared => false,
            Known::Half => records.any(|role| roles >> role & 1 == 1),
            _ => self.description.barred(roles),
        };
        match barred {
            true => Cell::Barred,
            false => Cell::Known(self.known(label, rows, cell, roles)),
        }
    }

    /// The known label of a cell with these roles.
    fn known(&self, label: Label, rows: &[Row], cell: usize, roles: u16) -> Label {
        let mut known = known_by_roles(self.description, label, rows, cell, roles);
        if self.known == Known::Denied {
            let others = rows.iter().enumerate().filter(|(i, _)| !in_cell(cell, *i));
            let denied: Vec<Literal> = others.map(|(_, row)| opposite(row.qualifier)).collect();
            known = known.join(Label::of(&denied));
        }
        for (e, concept) in self.description.concepts.iter().enumerate() {
            let Concept::Every { role, literal } = *concept else {
                continue;
            };
            if !label.has(2 * e as Literal) {
                continue;
            }
            if self.known == Known::Reached {
                known = known.with(literal);
            }
            if self.known == Known::Carried {
                let below = self.description.transitive_below(role).into_iter();
                for every in below.filter_map(|t| self.description.every_entry(t, literal)) {
                    known = known.with(2 * every as Literal);
                }
            }
        }
        known
    }

    fn counting(&mut self, label: Label, literals: Vec<Literal>, depth: usize) -> Option<Cite> {
        let rows: Vec<_> = literals
            .iter()
            .filter_map(|&l| row(self.description, l))
            .collect();
        let mut cells = Vec::new();
        for cell in 1..1 << rows.len() {
            cells.push(match self.answer(label, &rows, cell) {
                Cell::Barred => BARRED,
                Cell::Known(known) => self.refute(known, depth + 1).unwrap_or(OPEN),
            });
        }
        // More records than a cell byte can cite: the list would be too long as well.
        if self.closings.len() > 200 {
            return None;
        }
        let tree = trees::search(self.r, &rows, &open_cells(&cells))?;
        let mut needed = Label::of(&literals);
        for (e, concept) in self.description.concepts.iter().enumerate() {
            if matches!(concept, Concept::Every { .. }) && label.has(2 * e as Literal) {
                needed = needed.with(2 * e as Literal);
            }
        }
        let step = Counting {
            rows: literals,
            cells,
            tree,
        };
        self.closing(label, needed, Step::Counting(step))
    }
}

/// Every cite of a step, to be changed in place. Marks of cells are none, here with three pairs too.
pub fn cites_of(step: &mut Step) -> Vec<&mut Cite> {
    match step {
        Step::Clash(_) => Vec::new(),
        Step::Both { cite, .. } | Step::Rule { cite, .. } => vec![cite],
        Step::NotBoth { cites, .. } | Step::Cases { cites, .. } => cites.iter_mut().collect(),
        Step::Counting(step) => step.cells.iter_mut().filter(|c| **c < BARRED).collect(),
    }
}

/// The records that the last one rests on, numbered anew.
fn only_used(closings: &[Closing]) -> Vec<Closing> {
    let mut closings = closings.to_vec();
    let mut used = vec![false; closings.len()];
    used[closings.len() - 1] = true;
    for i in (0..closings.len()).rev() {
        if used[i] {
            for cite in cites_of(&mut closings[i].step) {
                used[*cite as usize] = true;
            }
        }
    }
    let place = |i: usize| used[..i].iter().filter(|u| **u).count();
    let mut kept = Vec::new();
    for (i, closing) in closings.iter_mut().enumerate() {
        if used[i] {
            for cite in cites_of(&mut closing.step) {
                *cite = place(*cite as usize) as Cite;
            }
            kept.push(closing.clone());
        }
    }
    kept
}
