//! The editor: a description is put together item by item and written out.

use super::description::{
    ancestors, read_concepts, read_roles, Description, MOST_ENTRIES, MOST_ROLES, MOST_RULES,
};
use super::label::Literal;
use super::{Answer, Refusal};

/// What can be asked of the editor.
#[derive(Clone, Copy, PartialEq, Eq, Debug)]
pub enum Operation {
    Start,
    /// A role by its transitive byte.
    Role(u8),
    Inclusion {
        role: u8,
        parent: u8,
    },
    /// An entry as it is stored.
    Concept([u8; 6]),
    Root(Literal),
    Rule(Literal),
    /// Writing out into a buffer of so many bytes.
    Write(usize),
}

/// What was put in so far, each table in the order of putting in.
#[derive(Clone, PartialEq, Eq, Debug, Default)]
pub struct Editor {
    /// Records as they are stored.
    pub roles: Vec<[u8; 3]>,
    pub entries: Vec<[u8; 6]>,
    pub root: Option<Literal>,
    pub rules: Vec<Literal>,
}

/// What is held of a role.
#[derive(Clone, PartialEq, Eq, Debug)]
pub struct Held {
    pub transitive: bool,
    pub parents: u16,
    pub ancestors: u16,
    pub simple: bool,
}

impl Editor {
    /// The answer to an operation. On a refusal the editor stays as it was.
    pub fn apply(&mut self, operation: Operation) -> Answer {
        let answer = match operation {
            Operation::Write(room) => self.output(room).map(|_| Answer::Written),
            _ => self.tried(operation).map(|next| {
                *self = next;
                Answer::Done
            }),
        };
        answer.unwrap_or_else(Answer::Refused)
    }

    /// The editor with the item put in, if it may be.
    fn tried(&self, operation: Operation) -> Result<Editor, Refusal> {
        // 25, before any other test.
        if self.is_full(operation) {
            return Err(Refusal::whole(25));
        }
        let next = self.with(operation)?;
        next.tested()?;
        Ok(next)
    }

    /// 25: the table that the operation adds to is at its limit.
    fn is_full(&self, operation: Operation) -> bool {
        match operation {
            Operation::Role(_) => self.roles.len() >= MOST_ROLES,
            Operation::Concept(_) => self.entries.len() >= MOST_ENTRIES,
            Operation::Rule(_) => self.rules.len() >= MOST_RULES,
            _ => false,
        }
    }

    /// The editor with the item put in, tested or not.
    fn with(&self, operation: Operation) -> Result<Editor, Refusal> {
        let mut next = self.clone();
        match operation {
            Operation::Start => next = Editor::default(),
            Operation::Role(transitive) => next.roles.push([transitive, 0, 0]),
            Operation::Inclusion { role, parent } => next.include(role, parent)?,
            Operation::Concept(entry) => next.entries.push(entry),
            Operation::Root(literal) => next.root = Some(literal),
            Operation::Rule(literal) => next.rules.push(literal),
            Operation::Write(_) => {}
        }
        Ok(next)
    }

    /// One parent bit is set, the own bit too; a role or parent past the table is 3.
    fn include(&mut self, role: u8, parent: u8) -> Result<(), Refusal> {
        let count = self.roles.len();
        if role as usize >= count || parent as usize >= count {
            return Err(Refusal::whole(3));
        }
        let [_, high, low] = &mut self.roles[role as usize];
        match parent {
            0..=7 => *low |= 1 << parent,
            _ => *high |= 1 << (parent - 8),
        }
        Ok(())
    }

    /// 3 to 8, the tests of a description, on what there is of one.
    fn tested(&self) -> Result<Description, Refusal> {
        let roles = read_roles(&self.roles.concat()).ok_or(Refusal::whole(3))?;
        let concepts = read_concepts(&self.entries.concat(), roles.len());
        let description = Description {
            ancestors: ancestors(&roles),
            roles,
            concepts: concepts.ok_or(Refusal::whole(4))?,
            // No test here speaks of it if there is none.
            root: self.root.unwrap_or(0),
            rules: self.rules.clone(),
            apart: None,
        };
        description.test_entries()?;
        let mut question = self.root.iter().chain(&self.rules);
        match question.all(|&l| description.in_table(l)) {
            true => Ok(description),
            false => Err(Refusal::whole(8)),
        }
    }

    /// What is written out into a buffer of so many bytes.
    pub fn output(&self, room: usize) -> Result<Vec<u8>, Refusal> {
        // 2 until there is a role, entry 0 and a root; then 22.
        let bytes = self.bytes().ok_or(Refusal::whole(2))?;
        match bytes.len() <= room {
            true => Ok(bytes),
            false => Err(Refusal::whole(22)),
        }
    }

    /// The description of what was put in, with three pairs.
    pub fn bytes(&self) -> Option<Vec<u8>> {
        let root = self.root?;
        if self.roles.is_empty() || self.entries.is_empty() {
            return None;
        }
        let question = [&[root], &self.rules[..]].concat();
        let parts = [self.roles.concat(), self.entries.concat(), question];
        let mut bytes = Vec::new();
        let mut offset = 12;
        for part in &parts {
            bytes.extend((offset as u16).to_be_bytes());
            bytes.extend((part.len() as u16).to_be_bytes());
            offset += part.len();
        }
        bytes.extend(parts.concat());
        Some(bytes)
    }

    /// Writes out; bytes past the description stay, and all bytes on a refusal.
    pub fn write(&self, buffer: &mut [u8]) -> Answer {
        match self.output(buffer.len()) {
            Ok(bytes) => {
                buffer[..bytes.len()].copy_from_slice(&bytes);
                Answer::Written
            }
            Err(refusal) => Answer::Refused(refusal),
        }
    }

    /// The description so far: its root means nothing while none is set.
    pub fn so_far(&self) -> Description {
        self.tested().expect("an editor has passed the tests")
    }

    /// What is held of each role.
    pub fn held(&self) -> Vec<Held> {
        let tables = self.so_far();
        let held = |r: usize| Held {
            transitive: tables.roles[r].transitive,
            parents: tables.roles[r].parents,
            ancestors: tables.ancestors[r],
            simple: tables.simple(r),
        };
        (0..self.roles.len()).map(held).collect()
    }
}

impl std::fmt::Display for Operation {
    /// As in the vectors: S, R, I, C, Q, U or W with its numbers.
    fn fmt(&self, f: &mut std::fmt::Formatter) -> std::fmt::Result {
        match *self {
            Operation::Start => write!(f, "S"),
            Operation::Role(transitive) => write!(f, "R{transitive}"),
            Operation::Inclusion { role, parent } => write!(f, "I{role},{parent}"),
            Operation::Concept([kind, role, first, second, high, low]) => {
                let number = u16::from_be_bytes([high, low]);
                write!(f, "C{kind},{role},{first},{second},{number}")
            }
            Operation::Root(literal) => write!(f, "Q{literal}"),
            Operation::Rule(literal) => write!(f, "U{literal}"),
            Operation::Write(room) => write!(f, "W{room}"),
        }
    }
}
