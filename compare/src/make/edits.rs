//! Scripts for the editor: operations that it takes and such as it refuses.

mod harms;
mod whole;

use crate::edits::STATE;
use crate::paper::description::Description;
use crate::paper::editor::{Editor, Operation};
use crate::paper::label::Literal;
use crate::paper::Answer;
use crate::random::Random;

/// An operation, and how many bytes are lent for the state.
#[derive(Clone, Copy)]
pub struct Step {
    pub operation: Operation,
    pub lent: usize,
}

/// A script begins with a start.
pub struct Script {
    pub steps: Vec<Step>,
    /// What the last writing out must give, if that is known without an editor.
    pub whole: Option<Vec<u8>>,
}

pub fn random(r: &mut Random) -> Script {
    let mut maker = Maker::new(r);
    let mut whole = None;
    match maker.r.below(20) {
        0..=8 => maker.loose(),
        9..=14 => maker.harmed(),
        15..=17 => maker.full(),
        _ => whole = Some(maker.replayed()),
    }
    if whole.is_none() && maker.r.one_in(3) {
        maker.survey();
    }
    maker.end();
    Script {
        steps: maker.steps,
        whole,
    }
}

/// An operation that has nothing to do with a state.
pub fn operation(r: &mut Random) -> Operation {
    let (a, b) = (r.pick(&EDGES), r.pick(&EDGES));
    match r.below(9) {
        0 => Operation::Role(r.pick(&[0, 1, 2])),
        1..=2 => Operation::Inclusion { role: a, parent: b },
        3..=5 => {
            let kind = r.pick(&[0, 1, 2, 3, 3, 4, 4, 5]);
            let second = if kind == 2 { b } else { 0 };
            let number = (kind == 4) as u8;
            Operation::Concept([kind, r.pick(&[0, 0, 1, a]), b, second, 0, number])
        }
        6 => Operation::Root(a),
        7 => Operation::Rule(a),
        _ => Operation::Write(r.pick(&[0, 21, 22, 100, 460, 461, 500])),
    }
}

/// Bytes at a limit, or next to one.
const EDGES: [u8; 16] = [
    0, 0, 1, 2, 3, 14, 15, 16, 17, 63, 64, 126, 127, 128, 129, 255,
];

struct Maker<'a> {
    r: &'a mut Random,
    /// What the steps have made.
    editor: Editor,
    steps: Vec<Step>,
}

impl Maker<'_> {
    fn new(r: &mut Random) -> Maker<'_> {
        let mut maker = Maker {
            r,
            editor: Editor::default(),
            steps: Vec::new(),
        };
        maker.push(Operation::Start);
        maker
    }

    /// A step, and before it now and then the same with a state too short; true if it is done.
    fn push(&mut self, operation: Operation) -> bool {
        if self.r.one_in(50) {
            let any = self.r.below(STATE);
            let lent = self.r.pick(&[0, 1, STATE - 1, STATE - 1, any]);
            self.steps.push(Step { operation, lent });
        }
        let lent = STATE + self.r.pick(&[0, 0, 0, 1, 8, 64]);
        self.steps.push(Step { operation, lent });
        self.editor.apply(operation) == Answer::Done
    }

    fn roles(&self) -> usize {
        self.editor.roles.len()
    }

    fn entries(&self) -> usize {
        self.editor.entries.len()
    }

    fn so_far(&self) -> Description {
        self.editor.so_far()
    }

    /// Operations of all kinds, in any order.
    fn loose(&mut self) {
        if !self.r.one_in(4) {
            // Otherwise much of the rest is refused.
            for _ in 0..self.r.range(1, 5) {
                self.role();
            }
            self.push(Operation::Concept([0; 6]));
        }
        for _ in 0..self.r.range(10, 35) {
            self.any();
        }
    }

    fn any(&mut self) {
        match self.r.below(100) {
            0..=1 => self.start(),
            2..=14 => self.role(),
            15..=39 => self.inclusion(),
            40..=74 => self.concept(),
            75..=82 => self.root(),
            83..=91 => self.rule(),
            _ => self.write(),
        }
    }

    /// A start, and now and then something of what is needed for writing out.
    fn start(&mut self) {
        self.push(Operation::Start);
        if self.r.one_in(2) {
            self.push(Operation::Role(0));
            self.push(Operation::Concept([0; 6]));
            self.write();
        }
    }

    fn role(&mut self) {
        let transitive = self.r.pick(&[0, 0, 0, 0, 1, 1, 1, 2, 255]);
        self.push(Operation::Role(transitive));
    }

    /// A role of the table, or the first ones past it.
    fn any_role(&mut self) -> u8 {
        let count = self.roles();
        match self.r.below(12) {
            0 => self.r.pick(&[count as u8, count as u8 + 1, 15, 16, 255]),
            _ => self.r.below(count.max(1)) as u8,
        }
    }

    fn inclusion(&mut self) {
        let (mut role, mut parent) = (self.any_role(), self.any_role());
        match self.r.below(8) {
            0 => parent = role,
            1 => {
                if let Some(old) = self.old_inclusion() {
                    (role, parent) = old;
                }
            }
            _ => {}
        }
        self.push(Operation::Inclusion { role, parent });
    }

    /// An inclusion that is there already.
    fn old_inclusion(&mut self) -> Option<(u8, u8)> {
        let mut found = Vec::new();
        for (role, [_, high, low]) in self.editor.roles.iter().enumerate() {
            let parents = u16::from_be_bytes([*high, *low]);
            let set = (0..16).filter(|j| parents >> j & 1 == 1);
            found.extend(set.map(|parent| (role as u8, parent)));
        }
        (!found.is_empty()).then(|| self.r.pick(&found))
    }

    /// A literal of few, so that entries with the same one are common.
    fn few(&mut self) -> Literal {
        let end = (2 * self.entries()).clamp(1, 4);
        self.r.below(end) as Literal
    }

    /// A literal of the table, most often, or next to its end.
    fn any_literal(&mut self) -> Literal {
        let end = 2 * self.entries();
        let near = end as Literal;
        match self.r.below(8) {
            0 => self.r.pick(&[near, near, near + 1, 128, 255]),
            1 => self
                .r
                .pick(&[near.saturating_sub(1), near.saturating_sub(2)]),
            _ => self.r.below(end.max(1)) as Literal,
        }
    }

    fn concept(&mut self) {
        if self.entries() == 0 && !self.r.one_in(5) {
            self.push(Operation::Concept([0; 6]));
            return;
        }
        match self.r.below(12) {
            0 => self.twin(),
            1 => self.spoiled(),
            2..=3 => self.whole_every(),
            _ => {
                let entry = self.entry();
                self.push(Operation::Concept(entry));
            }
        }
    }

    /// An entry whose fields are in order, or almost.
    fn entry(&mut self) -> [u8; 6] {
        let (role, literal) = (self.any_role(), self.few());
        match self.r.below(12) {
            0 => [0; 6],
            1..=2 => [1, 0, 0, 0, 0, 0],
            3..=4 => [2, 0, self.any_literal(), self.any_literal(), 0, 0],
            5..=7 => [3, role, literal, 0, 0, 0],
            _ => {
                let small = self.r.range(1, 3) as u16;
                let number = self.r.pick(&[small, small, small, 255, 256, 1000]);
                let [high, low] = number.to_be_bytes();
                [4, role, literal, 0, high, low]
            }
        }
    }

    /// An entry that is there already, or almost: a "both" with its literals turned, or another
    /// number.
    fn twin(&mut self) {
        let kinds = self.r.pick(&[2..=2, 2..=2, 3..=3, 4..=4, 0..=4]);
        let entries = self.editor.entries.iter().copied();
        let old: Vec<[u8; 6]> = entries.filter(|entry| kinds.contains(&entry[0])).collect();
        if old.is_empty() {
            return;
        }
        let mut entry = self.r.pick(&old);
        match entry[0] {
            2 if !self.r.one_in(4) => entry.swap(2, 3),
            4 if self.r.one_in(4) => entry[5] ^= 1,
            _ => {}
        }
        self.push(Operation::Concept(entry));
    }

    /// An entry with one field at a limit.
    fn spoiled(&mut self) {
        let mut entry = self.entry();
        let end = 2 * self.entries() as u8;
        let roles = self.roles() as u8;
        match self.r.below(6) {
            0 => entry[0] = self.r.pick(&[0, 1, 5, 255]),
            1 => entry[1] = self.r.pick(&[1, roles.wrapping_sub(1), roles, 16, 255]),
            2 => entry[2] = self.r.pick(&[1, end.wrapping_sub(1), end, 255]),
            3 => entry[3] = self.r.pick(&[1, end.wrapping_sub(1), end, 255]),
            _ => {
                if self.r.one_in(2) {
                    entry = [4, self.any_role(), self.few(), 0, 0, 0];
                }
                let number: u16 = self.r.pick(&[0, 1, 256, 1000, 1001, 1001, 1256, 65535]);
                entry[4..].copy_from_slice(&number.to_be_bytes());
            }
        }
        self.push(Operation::Concept(entry));
    }

    /// "Every" on a role, before or after it the ones that it asks for, or most of them.
    fn whole_every(&mut self) {
        if self.roles() == 0 {
            return;
        }
        let role = self.r.below(self.roles());
        let literal = self.few();
        let mut wanted = self.so_far().transitive_below(role);
        self.r.shuffle(&mut wanted);
        if self.r.one_in(4) {
            wanted.pop();
        }
        wanted.push(role);
        for role in wanted {
            self.push(Operation::Concept([3, role as u8, literal, 0, 0, 0]));
        }
    }

    /// A count or an "every" on each role: the answers show what is held of it.
    fn survey(&mut self) {
        let mut roles: Vec<u8> = (0..self.roles() as u8).collect();
        self.r.shuffle(&mut roles);
        let literal = self.few();
        for role in roles {
            let entry = match self.r.one_in(2) {
                true => [3, role, literal, 0, 0, 0],
                false => [4, role, literal, 0, 0, 9],
            };
            self.push(Operation::Concept(entry));
        }
    }

    fn root(&mut self) {
        let literal = self.any_literal();
        self.push(Operation::Root(literal));
    }

    fn rule(&mut self) {
        let literal = self.any_literal();
        self.push(Operation::Rule(literal));
    }

    /// A buffer of just the length that is needed, or next to it, or of any.
    fn write(&mut self) {
        let any = self.r.below(520);
        let room = match self.editor.bytes() {
            Some(bytes) => {
                let full = bytes.len();
                let more = full + self.r.range(2, 40);
                self.r
                    .pick(&[full - 1, full - 1, full, full + 1, more, 0, any])
            }
            None => self.r.pick(&[0, 11, 12, 21, 22, 461, any]),
        };
        self.push(Operation::Write(room));
    }

    /// Most scripts end with what was put in, written out.
    fn end(&mut self) {
        if self.editor.bytes().is_none() && !self.r.one_in(8) {
            self.complete();
        }
        self.write();
        if let Some(bytes) = self.editor.bytes() {
            let over = bytes.len() + self.r.range(1, 40);
            let room = self.r.pick(&[bytes.len(), bytes.len(), over, 461, 512]);
            self.push(Operation::Write(room));
        }
    }

    /// What is missing for writing out.
    fn complete(&mut self) {
        if self.roles() == 0 {
            self.push(Operation::Role(0));
        }
        if self.entries() == 0 {
            self.push(Operation::Concept([0; 6]));
        }
        if self.editor.root.is_none() {
            let root = self.r.below(2 * self.entries()) as Literal;
            self.push(Operation::Root(root));
        }
    }
}
