//! Steps of three rows, by the implementation alone: which cells may cite a record that needs a
//! literal they can know by a role only. The cells are worked out by hand from the paper.

use compare::encode;
use compare::paper::counting::OPEN;
use compare::paper::description::{ancestors, Concept, Description, Role};
use compare::paper::evidence::{Closing, Counting, Step, Tree};
use compare::paper::label::{opposite, Label, Literal, Width};
use compare::paper::{check, Answer, Refusal};

const NAME: Literal = 2;
/// Every filler of role 1 has the name, and every filler of role 0.
const EVERY_1: Literal = 4;
const EVERY_0: Literal = 6;
const ROWS: [Literal; 3] = [8, 10, 12];
const ROOT: Literal = 18;

struct Trial {
    transitive: bool,
    /// The parents of roles 2, 3 and 4. Role 1 has parent 0.
    parents: [u16; 3],
    /// The roles of the rows, which are lower bounds 1, 2 and 3.
    roles: [usize; 3],
    /// The qualifier of all rows; a cell that knows its opposite, too, is empty.
    qualifier: Literal,
    /// The cells that know it.
    known: &'static [usize],
    /// A row all of whose cells know it, if there is one.
    shut: Option<usize>,
}

impl Trial {
    fn description(&self) -> Vec<u8> {
        let role = |transitive, parents| Role {
            transitive,
            parents,
        };
        let mut roles = vec![role(false, 0), role(self.transitive, 1)];
        roles.extend(self.parents.map(|parents| role(false, parents)));
        let every = |role| Concept::Every {
            role,
            literal: NAME,
        };
        let mut concepts = vec![Concept::Top, Concept::Name, every(1), every(0)];
        concepts.extend([0, 1, 2].map(|i| Concept::AtLeast {
            number: i as u16 + 1,
            role: self.roles[i],
            literal: self.qualifier,
        }));
        concepts.extend([(8, 10), (14, 12), (16, EVERY_0)].map(|(a, b)| Concept::Both(a, b)));
        encode::description(&Description {
            ancestors: ancestors(&roles),
            roles,
            concepts,
            root: ROOT,
            rules: Vec::new(),
            apart: None,
        })
    }

    /// The answer where those cells cite record 0 and the others are open.
    fn answer(&self, cited: &[usize]) -> Answer {
        let cell = |c: usize| if cited.contains(&c) { 0 } else { OPEN };
        let mut leaf = vec![0; 3];
        leaf[self.shut.unwrap_or(0)] = 1;
        let counting = Counting {
            rows: ROWS.to_vec(),
            cells: (1..=7).map(cell).collect(),
            tree: Tree::Leaf(leaf),
        };
        let clash = Label::of(&[self.qualifier, opposite(self.qualifier)]);
        let both = |entry, cite| Step::Both { entry, cite };
        let records = [
            (clash, Step::Clash(self.qualifier)),
            (Label::of(&[EVERY_0, 8, 10, 12]), Step::Counting(counting)),
            (Label::of(&[EVERY_0, 12, 14]), both(7, 1)),
            (Label::of(&[EVERY_0, 16]), both(8, 2)),
            (Label::of(&[ROOT]), both(9, 3)),
        ];
        let closings = records.map(|(label, step)| Closing { label, step });
        let list = encode::list(Width::Narrow, &closings);
        check(&self.description(), &list)
    }

    fn run(&self) {
        let refused = |number| Answer::Refused(Refusal { number, record: 1 });
        for c in 1..=7 {
            // One cell alone shuts no row.
            let number = if self.known.contains(&c) { 19 } else { 18 };
            assert_eq!(self.answer(&[c]), refused(number), "cell {c}");
            if number == 18 {
                assert_eq!(self.answer(&[self.known, &[c]].concat()), refused(18));
            }
        }
        let whole = match self.shut {
            Some(_) => Answer::Empty,
            None => refused(19),
        };
        assert_eq!(self.answer(self.known), whole);
    }
}

/// A row not in the cell has one of the cell's roles, and its qualifier is denied.
#[test]
fn denied() {
    let table: [([usize; 3], &[usize]); 5] = [
        ([2, 2, 2], &[1, 2, 3, 4, 5, 6]),
        ([2, 2, 3], &[1, 2, 5, 6]),
        ([2, 3, 2], &[1, 3, 4, 6]),
        ([3, 2, 2], &[2, 3, 4, 5]),
        ([2, 3, 4], &[]),
    ];
    for (roles, known) in table {
        let trial = Trial {
            transitive: false,
            parents: [0; 3],
            roles,
            qualifier: opposite(NAME),
            known,
            shut: None,
        };
        trial.run();
    }
}

/// "Every" of role 0 is in the label. By role 0 a cell knows the name, and by role 1, where that is
/// transitive, "every" of role 1.
#[test]
fn reached_and_carried() {
    // The rows that have that role among the ancestors of their own.
    let table: [([bool; 3], &[usize], Option<usize>); 6] = [
        ([true, false, true], &[1, 3, 4, 5, 6, 7], Some(0)),
        ([true, false, false], &[1, 3, 5, 7], Some(0)),
        ([false, true, false], &[2, 3, 6, 7], Some(1)),
        ([false, false, true], &[4, 5, 6, 7], Some(2)),
        ([true, true, true], &[1, 2, 3, 4, 5, 6, 7], Some(1)),
        ([false, false, false], &[], None),
    ];
    for (has, known, shut) in table {
        let reached = Trial {
            transitive: false,
            parents: has.map(|has| has as u16),
            roles: [2, 3, 4],
            qualifier: opposite(NAME),
            known,
            shut,
        };
        let carried = Trial {
            transitive: true,
            // Role 0 alone carries nothing on.
            parents: has.map(|has| if has { 2 } else { 1 }),
            qualifier: opposite(EVERY_1),
            ..reached
        };
        // Role 1 is not transitive: it carries nothing on, and no row is shut.
        let not_carried = Trial {
            transitive: false,
            known: &[],
            shut: None,
            ..carried
        };
        [reached, carried, not_carried].iter().for_each(Trial::run);
    }
}
