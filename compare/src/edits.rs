//! Holds an editor's answers, states and written bytes against the paper's, script by script.

pub mod tally;

use crate::answers::{code, hex, told};
use crate::make::edits::{self, Script, Step};
use crate::paper::editor::{Editor, Operation};
use crate::paper::{Answer, Refusal};
use crate::random::Random;
use crate::slips::{Kept, SLIPS};
use tally::Tally;

/// The bytes of a state that are the editor's.
pub const STATE: usize = 453;

/// The bytes of the longest description with three pairs.
const LONGEST: usize = 461;

/// Bytes behind a state or around a buffer that are not the editor's.
const GUARD: usize = 80;

/// So many differences are printed.
const PRINTED: usize = 20;

const DONE: u32 = 7 << 16;
const WRITTEN: u32 = 3 << 16;

/// The functions compared: the library's, or those of an editor that stands in for it. Answers
/// have the form of the C interface.
pub trait Panel {
    /// Any operation but writing out.
    fn edit(&self, state: &mut [u8], operation: Operation) -> u32;
    fn write(&self, state: &[u8], buffer: &mut [u8]) -> u32;
    fn check(&self, description: &[u8], evidence: &[u8]) -> u32;
}

#[derive(Default)]
pub struct Edits {
    pub differences: usize,
    pub scripts: usize,
    pub tally: Tally,
    /// The bytes that the last script's state had in the end.
    left: Vec<u8>,
}

/// What one call gave.
struct Found {
    answer: u32,
    /// The state amid other bytes, before and after.
    old: Vec<u8>,
    new: Vec<u8>,
    /// The buffer amid guard zones, before and after.
    blank: Vec<u8>,
    buffer: Vec<u8>,
}

impl Edits {
    /// One script, then a few operations on a state that none has made.
    pub fn round(&mut self, r: &mut Random, panel: &impl Panel) {
        let script = edits::random(r);
        let mut run = Run::new(r, panel, &self.left);
        self.scripts += 1;
        let difference = run.script(&script, &mut self.tally);
        self.count_slips(&run);
        let difference = difference.or_else(|| run.any_state(r, &mut self.tally));
        if let Some(difference) = difference {
            self.differences += 1;
            if self.differences <= PRINTED {
                println!("DIFFERENCE in {difference}");
            }
        }
        self.left = run.state().to_vec();
    }

    fn count_slips<P: Panel>(&mut self, run: &Run<P>) {
        for (count, kept) in self.tally.slips.iter_mut().zip(&run.kept) {
            *count += kept.is_none() as usize;
        }
    }
}

/// A script under way.
struct Run<'a, P> {
    panel: &'a P,
    /// The state, not always at an even address, with bytes before and behind.
    zone: Vec<u8>,
    before: usize,
    /// What buffers are filled with, from one byte on.
    fill: u8,
    editor: Editor,
    /// Editors with an error, until an answer or a written byte tells them apart.
    kept: [Option<Kept>; SLIPS.len()],
    /// What was written out last.
    last: Option<Vec<u8>>,
}

impl<P: Panel> Run<'_, P> {
    /// Before the start the state has any bytes, or those of an old one.
    fn new<'a>(r: &mut Random, panel: &'a P, left: &[u8]) -> Run<'a, P> {
        let before = r.below(8);
        let fill = r.byte();
        let mut zone: Vec<u8> = (0..before + STATE + GUARD).map(|_| r.byte()).collect();
        if r.one_in(2) {
            zone[before..before + left.len()].copy_from_slice(left);
        }
        Run {
            panel,
            zone,
            before,
            fill,
            editor: Editor::default(),
            kept: SLIPS.map(|(slip, _)| Some(Kept::new(Some(slip)))),
            last: None,
        }
    }

    fn state(&self) -> &[u8] {
        &self.zone[self.before..self.before + STATE]
    }

    /// Tells the first difference.
    fn script(&mut self, script: &Script, tally: &mut Tally) -> Option<String> {
        for (i, step) in script.steps.iter().enumerate() {
            if let Some(difference) = self.step(step, tally) {
                let steps = script.steps[..=i].iter().map(told_step);
                let steps: Vec<String> = steps.collect();
                return Some(format!("{difference}\n  {}", steps.join(" ")));
            }
        }
        let last = self.last.as_ref();
        let given = script.whole.as_ref();
        (given.is_some() && given != last).then(|| {
            let bytes = given.map_or(String::new(), |bytes| hex(bytes));
            format!("editor: written out is not what was put in\n  {bytes}")
        })
    }

    fn step(&mut self, step: &Step, tally: &mut Tally) -> Option<String> {
        let Step { operation, lent } = *step;
        let short = lent < STATE;
        let (expected, output) = match operation {
            _ if short => (Answer::Refused(Refusal::whole(22)), None),
            Operation::Write(room) => match self.editor.output(room) {
                Ok(bytes) => (Answer::Written, Some(bytes)),
                Err(refusal) => (Answer::Refused(refusal), None),
            },
            _ => (self.editor.apply(operation), None),
        };
        match short {
            true => tally.count_short(operation),
            false => tally.count(operation, expected),
        }
        if !short {
            self.try_slips(operation, expected, output.as_ref());
        }
        let found = self.call(operation, lent);
        let difference = self.compare(&found, operation, code(expected), output.as_ref());
        if output.is_some() {
            self.last = output;
        }
        difference
    }

    fn try_slips(&mut self, operation: Operation, expected: Answer, output: Option<&Vec<u8>>) {
        for kept in &mut self.kept {
            let Some(editor) = kept else { continue };
            let answer = editor.apply(operation);
            let same = match (operation, output) {
                (Operation::Write(room), Some(_)) => editor.output(room).ok().as_ref() == output,
                _ => true,
            };
            if answer != expected || !same {
                *kept = None;
            }
        }
    }

    /// Calls the panel with so many bytes for the state, and a buffer for writing out.
    fn call(&mut self, operation: Operation, lent: usize) -> Found {
        let old = self.zone.clone();
        let room = match operation {
            Operation::Write(room) => room,
            _ => 0,
        };
        let pattern = |i: usize| (i as u8).wrapping_mul(37).wrapping_add(self.fill);
        let blank: Vec<u8> = (0..room + 2 * GUARD).map(pattern).collect();
        let mut buffer = blank.clone();
        let state = &mut self.zone[self.before..self.before + lent];
        let answer = match operation {
            Operation::Write(_) => {
                let middle = &mut buffer[GUARD..GUARD + room];
                self.panel.write(state, middle)
            }
            _ => self.panel.edit(state, operation),
        };
        self.fill = self.fill.wrapping_add(1);
        Found {
            answer,
            old,
            new: self.zone.clone(),
            blank,
            buffer,
        }
    }

    /// The answer, the state where it must not change, and every byte of the buffer.
    fn compare(
        &self,
        found: &Found,
        operation: Operation,
        expected: u32,
        output: Option<&Vec<u8>>,
    ) -> Option<String> {
        if found.answer != expected {
            let (expected, answer) = (told(expected), told(found.answer));
            return Some(format!("editor: paper {expected}, library {answer}"));
        }
        if let Some(difference) = self.kept_bytes(found, operation) {
            return Some(difference);
        }
        let mut ours = found.blank.clone();
        if let Some(bytes) = output {
            ours[GUARD..GUARD + bytes.len()].copy_from_slice(bytes);
        }
        if ours != found.buffer {
            let (ours, theirs) = (hex(&ours), hex(&found.buffer));
            return Some(format!("editor: the buffer, paper's first, with {GUARD} bytes around it\n  {ours}\n  {theirs}"));
        }
        output.and_then(|bytes| self.accepted(bytes))
    }

    /// What is written out is accepted, so that no evidence is refused as such.
    fn accepted(&self, bytes: &[u8]) -> Option<String> {
        let expected = code(Answer::Refused(Refusal::whole(9)));
        let answer = self.panel.check(bytes, &[]);
        (answer != expected).then(|| {
            let (expected, answer) = (told(expected), told(answer));
            format!("check without evidence: paper {expected}, library {answer}")
        })
    }

    /// No byte around a state changes, and none of it on a refusal or when it is written out.
    fn kept_bytes(&self, found: &Found, operation: Operation) -> Option<String> {
        let (old, new) = (&found.old, &found.new);
        let end = self.before + STATE;
        if old[..self.before] != new[..self.before] || old[end..] != new[end..] {
            return Some("editor: bytes around the state have changed".into());
        }
        let stays = found.answer != DONE || matches!(operation, Operation::Write(_));
        (stays && old != new).then(|| "editor: the state has changed".into())
    }

    /// Operations on a state that none has made: the little that holds of any.
    fn any_state(&mut self, r: &mut Random, tally: &mut Tally) -> Option<String> {
        self.spoil(r);
        for _ in 0..r.range(1, 4) {
            let operation = edits::operation(r);
            tally.count_any(operation);
            let found = self.call(operation, STATE + r.below(GUARD));
            if let Some(difference) = self.promised(&found, operation) {
                let state = hex(&found.old[self.before..self.before + STATE]);
                return Some(format!("{difference}\n  {operation} on any state: {state}"));
            }
        }
        None
    }

    /// Bytes of any kind, all the same, or a state with a few bytes changed.
    fn spoil(&mut self, r: &mut Random) {
        let state = &mut self.zone[self.before..self.before + STATE];
        match r.below(8) {
            0 => state.iter_mut().for_each(|byte| *byte = r.byte()),
            1 => state.fill(r.pick(&[0, 1, 16, 64, 255])),
            _ => {
                for _ in 0..r.range(1, 6) {
                    // The ends of a state are as likely as not to say how full it is.
                    let any = r.below(STATE);
                    let near = r.below(8);
                    let at = r.pick(&[any, any, near, STATE - 1 - near]);
                    let (flipped, other) = (state[at] ^ 1 << r.below(8), r.byte());
                    state[at] = r.pick(&[flipped, flipped, other, 255]);
                }
            }
        }
    }

    fn promised(&self, found: &Found, operation: Operation) -> Option<String> {
        let writes = matches!(operation, Operation::Write(_));
        let done = if writes { WRITTEN } else { DONE };
        let refused = found.answer & 255 == 0 && (1..=25).contains(&(found.answer >> 8));
        if found.answer != done && !refused {
            return Some(format!("editor: library {}", told(found.answer)));
        }
        if let Some(difference) = self.kept_bytes(found, operation) {
            return Some(difference);
        }
        let written = match refused {
            true => 0,
            false => LONGEST,
        };
        let free = GUARD..GUARD + written.min(found.buffer.len() - 2 * GUARD);
        let (blank, buffer) = (&found.blank, &found.buffer);
        let same =
            blank[..free.start] == buffer[..free.start] && blank[free.end..] == buffer[free.end..];
        (!same).then(|| "editor: bytes of the buffer have changed".into())
    }
}

/// A step as in the vectors, with the length of a state that is too short.
fn told_step(step: &Step) -> String {
    match step.lent < STATE {
        true => format!("({}: {})", step.lent, step.operation),
        false => step.operation.to_string(),
    }
}
