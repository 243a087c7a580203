//! The steps of a closing list, 16 to 20.

use super::counting::{byte_fits, cell_answer, row, tree_closes, Row, BARRED, OPEN};
use super::description::{Concept, Description};
use super::evidence::{Cite, Closing, Counting, Step};
use super::label::{opposite, Label, Literal};
use super::Refusal;

/// One record of a list, with what its tests ask about.
struct Place<'a> {
    description: &'a Description,
    closings: &'a [Closing],
    record: usize,
}

type Test<'a> = fn(&Place<'a>) -> bool;

/// Records rising, and within one the smallest number; then the end, which is to close the
/// literals wanted: the root, or literals of a claim.
pub fn weigh<'a>(
    description: &'a Description,
    wanted: Label,
    closings: &'a [Closing],
) -> Result<(), Refusal> {
    let tests: [(u8, Test<'a>); 4] = [
        (16, Place::cites),
        (17, Place::step),
        (18, Place::cells),
        (19, Place::tree),
    ];
    for record in 0..closings.len() {
        let place = Place {
            description,
            closings,
            record,
        };
        for (number, keeps) in tests {
            if !keeps(&place) {
                return Err(Refusal::at(number, record));
            }
        }
    }
    // 20: the last label holds at most literal 0 and the literals wanted.
    let last = closings.len() - 1;
    if !closings[last].label.within(wanted.with(0)) {
        return Err(Refusal::at(20, last));
    }
    Ok(())
}

impl Place<'_> {
    fn closing(&self) -> &Closing {
        &self.closings[self.record]
    }

    fn label(&self) -> Label {
        self.closing().label
    }

    fn earlier(&self, cite: Cite) -> bool {
        (cite as usize) < self.record
    }

    /// Does the cited label lie within the label named?
    fn cited_within(&self, cite: Cite, label: Label) -> bool {
        self.closings[cite as usize].label.within(label)
    }

    /// The literals of a "both" entry.
    fn both_of(&self, entry: u8) -> Option<(Literal, Literal)> {
        match self.description.concepts[entry as usize] {
            Concept::Both(a, b) => Some((a, b)),
            _ => None,
        }
    }

    /// Is it a mark of a cell? The one for barred cells is there with four pairs only.
    fn is_mark(&self, byte: u8) -> bool {
        byte == OPEN || byte == BARRED && self.description.apart.is_some()
    }

    /// 16: cites are earlier records; literals, the label's too, entries and rules are there.
    fn cites(&self) -> bool {
        let entries = self.description.concepts.len();
        let literal_ok = |l: Literal| (l as usize) < 2 * entries;
        let entry_ok = |e: u8| (e as usize) < entries;
        let rule_ok = |r: u8| (r as usize) < self.description.rules.len();
        let all_earlier = |cites: &[Cite]| cites.iter().all(|&c| self.earlier(c));
        let step_ok = match &self.closing().step {
            Step::Clash(l) => literal_ok(*l),
            Step::Both { entry, cite } => entry_ok(*entry) && self.earlier(*cite),
            Step::NotBoth { entry, cites } => entry_ok(*entry) && all_earlier(cites),
            Step::Rule { rule, cite } => rule_ok(*rule) && self.earlier(*cite),
            Step::Cases { entry, cites } => entry_ok(*entry) && all_earlier(cites),
            Step::Counting(step) => {
                step.rows.iter().all(|&l| literal_ok(l))
                    && step
                        .cells
                        .iter()
                        .all(|&c| self.is_mark(c) || self.earlier(c))
            }
        };
        self.label().in_table(entries) && step_ok
    }

    /// 17: steps 1 to 5 as said, and the rows of step 6 as said.
    fn step(&self) -> bool {
        match &self.closing().step {
            Step::Clash(l) => self.clash(*l),
            Step::Both { entry, cite } => self.both(*entry, *cite),
            Step::NotBoth { entry, cites } => self.not_both(*entry, *cites),
            Step::Rule { rule, cite } => self.rule(*rule, *cite),
            Step::Cases { entry, cites } => self.cases(*entry, *cites),
            Step::Counting(step) => self.rows_as_said(step),
        }
    }

    /// Step 1: l and its opposite are in L, where 0 counts as in L.
    fn clash(&self, l: Literal) -> bool {
        let label = self.label().with(0);
        label.has(l) && label.has(opposite(l))
    }

    /// Step 2: a "both" in L; the cite is within L plus its two literals.
    fn both(&self, entry: u8, cite: Cite) -> bool {
        let Some((a, b)) = self.both_of(entry) else {
            return false;
        };
        let label = self.label();
        label.has(2 * entry) && self.cited_within(cite, label.with(a).with(b))
    }

    /// Step 3: a "both" whose complement is in L; within L plus the opposite of the first, of
    /// the second.
    fn not_both(&self, entry: u8, cites: [Cite; 2]) -> bool {
        let Some((a, b)) = self.both_of(entry) else {
            return false;
        };
        let label = self.label();
        label.has(2 * entry + 1)
            && self.cited_within(cites[0], label.with(opposite(a)))
            && self.cited_within(cites[1], label.with(opposite(b)))
    }

    /// Step 4: within L plus that rule.
    fn rule(&self, rule: u8, cite: Cite) -> bool {
        let literal = self.description.rules[rule as usize];
        self.cited_within(cite, self.label().with(literal))
    }

    /// Step 5: within L plus 2e, L plus 2e+1.
    fn cases(&self, entry: u8, cites: [Cite; 2]) -> bool {
        self.cited_within(cites[0], self.label().with(2 * entry))
            && self.cited_within(cites[1], self.label().with(2 * entry + 1))
    }

    /// Step 6: the row literals are rows, from L, strictly rising.
    fn rows_as_said(&self, step: &Counting) -> bool {
        step.rows
            .iter()
            .all(|&l| self.label().has(l) && row(self.description, l).is_some())
            && step.rows.windows(2).all(|pair| pair[0] < pair[1])
    }

    /// The rows of a step that has passed 17.
    fn rows(&self, step: &Counting) -> Vec<Row> {
        let row_of = |&l: &Literal| row(self.description, l);
        step.rows.iter().filter_map(row_of).collect()
    }

    /// 18: the byte of each cell fits the answer for it.
    fn cells(&self) -> bool {
        let Step::Counting(step) = &self.closing().step else {
            return true;
        };
        let rows = self.rows(step);
        step.cells.iter().enumerate().all(|(i, &byte)| {
            let answer = cell_answer(self.description, self.label(), &rows, i + 1);
            byte_fits(byte, answer, self.closings)
        })
    }

    /// 19: the tree closes.
    fn tree(&self) -> bool {
        match &self.closing().step {
            Step::Counting(step) => tree_closes(step, &self.rows(step)),
            _ => true,
        }
    }
}
