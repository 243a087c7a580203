//! The comparison of editors itself: an editor of this implementation stands in for the library,
//! without an error, with each that is counted, and with faults in what it does to bytes.

use compare::answers::code;
use compare::edits::{Edits, Panel, STATE};
use compare::make::edits;
use compare::paper::editor::{Editor, Operation};
use compare::paper::{check, Answer, Refusal};
use compare::random::Random;
use compare::slips::{Kept, Slip, SLIPS};
use std::cell::RefCell;

/// What a stand-in does to bytes that it should leave alone.
#[derive(Clone, Copy, PartialEq, Eq, Debug)]
enum Fault {
    /// A byte behind the state is changed.
    Behind,
    /// A refusal changes the state.
    Refused,
    /// A byte behind the description is changed.
    Past,
    /// A refusal changes the buffer.
    Spilt,
    /// A state that is too short is taken.
    Short,
    /// A refusal has a record.
    Record,
    /// A state that no operation has made gets an answer that there is not.
    Any,
    /// What is written out is refused by the checker.
    Check,
}

const FAULTS: [Fault; 8] = [
    Fault::Behind,
    Fault::Refused,
    Fault::Past,
    Fault::Spilt,
    Fault::Short,
    Fault::Record,
    Fault::Any,
    Fault::Check,
];

/// An editor whose states are numbers of those that it keeps.
struct StandIn {
    kept: RefCell<Vec<Kept>>,
    slip: Option<Slip>,
    fault: Option<Fault>,
}

impl StandIn {
    fn new(slip: Option<Slip>, fault: Option<Fault>) -> StandIn {
        let kept = RefCell::new(Vec::new());
        StandIn { kept, slip, fault }
    }

    fn has(&self, fault: Fault) -> bool {
        self.fault == Some(fault)
    }

    fn refused(&self, number: u8) -> u32 {
        let record = self.has(Fault::Record) as u8;
        code(Answer::Refused(Refusal { number, record }))
    }

    /// The editor of a state, if it is one.
    fn editor(&self, state: &[u8]) -> Option<Kept> {
        let number = u32::from_be_bytes([state[0], state[1], state[2], state[3]]);
        self.kept.borrow().get(number as usize).cloned()
    }

    /// Puts an editor into a state.
    fn keep(&self, state: &mut [u8], editor: Kept) {
        let mut kept = self.kept.borrow_mut();
        state[..4].copy_from_slice(&(kept.len() as u32).to_be_bytes());
        kept.push(editor);
    }

    /// The answer in a state that no operation has made.
    fn lost(&self) -> u32 {
        match self.has(Fault::Any) {
            true => code(Answer::Holds),
            false => self.refused(2),
        }
    }
}

impl Panel for StandIn {
    fn edit(&self, state: &mut [u8], operation: Operation) -> u32 {
        if state.len() < STATE {
            let taken = self.has(Fault::Short) && state.len() >= 4;
            return if taken { 7 << 16 } else { self.refused(22) };
        }
        let fresh = (operation == Operation::Start).then(|| Kept::new(self.slip));
        let Some(mut editor) = self.editor(state).or(fresh) else {
            return self.lost();
        };
        let answer = editor.apply(operation);
        if answer == Answer::Done {
            self.keep(state, editor);
            if self.has(Fault::Behind) && state.len() > STATE {
                state[STATE] ^= 1;
            }
            return code(answer);
        }
        if self.slip == Some(Slip::Leaves) && matches!(operation, Operation::Inclusion { .. }) {
            self.keep(state, editor);
        }
        if self.has(Fault::Refused) {
            state[STATE - 1] ^= 1;
        }
        let Answer::Refused(refusal) = answer else {
            panic!("{answer:?} to {operation}");
        };
        self.refused(refusal.number)
    }

    fn write(&self, state: &[u8], buffer: &mut [u8]) -> u32 {
        let editor = match state.len() < STATE {
            true => Err(self.refused(22)),
            false => self.editor(state).ok_or(self.lost()),
        };
        let output = editor.and_then(|editor| {
            let output = editor.output(buffer.len());
            output.map_err(|refusal| self.refused(refusal.number))
        });
        match output {
            Ok(bytes) => {
                buffer[..bytes.len()].copy_from_slice(&bytes);
                if self.has(Fault::Past) && bytes.len() < buffer.len() {
                    buffer[bytes.len()] ^= 1;
                }
                code(Answer::Written)
            }
            Err(answer) => {
                if self.has(Fault::Spilt) && !buffer.is_empty() {
                    buffer[0] ^= 1;
                }
                answer
            }
        }
    }

    fn check(&self, description: &[u8], evidence: &[u8]) -> u32 {
        match self.has(Fault::Check) {
            true => self.refused(5),
            false => code(check(description, evidence)),
        }
    }
}

fn run(scripts: usize, panel: &StandIn) -> Edits {
    let mut edits = Edits::default();
    for i in 0..scripts {
        // Each script has its own seed, so that a difference in one changes no other.
        edits.round(&mut Random::new(i as u64), panel);
        panel.kept.borrow_mut().clear();
    }
    edits
}

/// All answers and all errors come, and the one who is right is not found wrong.
#[test]
fn right() {
    let edits = run(2000, &StandIn::new(None, None));
    let mut rows = edits.tally.rows();
    rows.extend(edits.tally.slip_rows());
    for row in rows {
        let counts = row.counts.iter();
        let counts = counts.map(|n| format!(" {:>9}", n.map_or("-".into(), |n| n.to_string())));
        println!("{:16}{}", row.head, counts.collect::<String>());
        assert!(row.counts.iter().flatten().all(|&n| n > 0), "{}", row.head);
    }
    println!("{} operations", edits.tally.operations());
    assert_eq!(edits.differences, 0);
}

/// The editor that holds ancestors and simple holds what the paper says.
#[test]
fn held() {
    let mut r = Random::new(1);
    for _ in 0..300 {
        let (mut editor, mut kept) = (Editor::default(), Kept::new(None));
        for step in edits::random(&mut r).steps {
            editor.apply(step.operation);
            kept.apply(step.operation);
            assert_eq!(editor.held(), kept.held(), "{}", step.operation);
        }
    }
}

/// An editor with an error is found wrong in just the scripts that are counted for it.
#[test]
fn slips() {
    let counted = run(400, &StandIn::new(None, None)).tally.slips;
    for ((slip, name), counted) in SLIPS.into_iter().zip(counted) {
        let found = run(400, &StandIn::new(Some(slip), None)).differences;
        match slip {
            // The bytes of the state show it at once.
            Slip::Leaves => assert!(found >= counted && counted > 0, "{name}"),
            _ => assert!(
                found == counted && counted > 0,
                "{name}: {found}, {counted}"
            ),
        }
    }
}

#[test]
fn faults() {
    for fault in FAULTS {
        let edits = run(200, &StandIn::new(None, Some(fault)));
        assert!(edits.differences > 0, "{fault:?}");
    }
}
