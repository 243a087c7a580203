//! Errors of an editor that holds ancestors and simple with each role and corrects them.

use crate::encode;
use crate::paper::description::{
    read_concept, Concept, Description, Role, MOST_ENTRIES, MOST_ROLES, MOST_RULES,
};
use crate::paper::editor::{Held, Operation};
use crate::paper::label::Literal;
use crate::paper::{Answer, Refusal};

#[derive(Clone, Copy, PartialEq, Eq, Debug)]
pub enum Slip {
    /// Roles below the one that is included get no new ancestors.
    Below,
    /// The parent's own ancestors are not handed down.
    Above,
    /// Of the roles that are no longer simple only the parent is seen to.
    Third,
    /// A role ceases to be simple only if the one included is itself transitive.
    Blind,
    /// An inclusion is tested against the entries on its parent only.
    Near,
    /// 5 comes after 7.
    Turned,
    /// 25 comes last: for a role, an entry, a rule.
    LateRole,
    LateEntry,
    LateRule,
    /// A refused inclusion leaves its bit.
    Leaves,
    /// The own bit is not set.
    Own,
    /// An inclusion that is there already is taken out.
    Toggles,
    /// A parent past the table is let in if there could be such a role.
    Ahead,
    /// A parent above 7 sets the bit of the one 8 below it.
    High,
    /// "Both" with its literals turned is taken for a twin.
    Twin,
    /// "At least" with another number is taken for a twin.
    Number,
    /// An entry may speak of itself.
    Itself,
    /// 1,001 is let in as a number.
    More,
    /// The last rule comes first.
    Front,
    /// The root is kept from its first setting.
    Keeps,
    /// A start leaves the root.
    Stays,
    /// A start leaves the rules.
    Rules,
    /// 22 comes before 2.
    Short,
    /// A buffer of just the length is too short.
    Tight,
}

pub const SLIPS: [(Slip, &str); 24] = [
    (Slip::Below, "slip below"),
    (Slip::Above, "slip above"),
    (Slip::Third, "slip third"),
    (Slip::Blind, "slip blind"),
    (Slip::Near, "slip near"),
    (Slip::Turned, "slip turned"),
    (Slip::LateRole, "slip late role"),
    (Slip::LateEntry, "slip late entry"),
    (Slip::LateRule, "slip late rule"),
    (Slip::Leaves, "slip leaves"),
    (Slip::Own, "slip own"),
    (Slip::Toggles, "slip toggles"),
    (Slip::Ahead, "slip ahead"),
    (Slip::High, "slip high"),
    (Slip::Twin, "slip twin"),
    (Slip::Number, "slip number"),
    (Slip::Itself, "slip itself"),
    (Slip::More, "slip more"),
    (Slip::Front, "slip front"),
    (Slip::Keeps, "slip keeps"),
    (Slip::Stays, "slip stays"),
    (Slip::Rules, "slip rules"),
    (Slip::Short, "slip short"),
    (Slip::Tight, "slip tight"),
];

/// An editor with such an error, or with none.
#[derive(Clone)]
pub struct Kept {
    slip: Option<Slip>,
    roles: Vec<Held>,
    concepts: Vec<Concept>,
    root: Option<Literal>,
    rules: Vec<Literal>,
}

impl Kept {
    pub fn new(slip: Option<Slip>) -> Kept {
        Kept {
            slip,
            roles: Vec::new(),
            concepts: Vec::new(),
            root: None,
            rules: Vec::new(),
        }
    }

    pub fn apply(&mut self, operation: Operation) -> Answer {
        let done = match operation {
            Operation::Start => self.start(),
            Operation::Role(transitive) => self.role(transitive),
            Operation::Inclusion { role, parent } => self.inclusion(role as usize, parent as usize),
            Operation::Concept(entry) => self.concept(entry),
            Operation::Root(literal) => self.root(literal),
            Operation::Rule(literal) => self.rule(literal),
            Operation::Write(room) => {
                let answer = self.output(room).map(|_| Answer::Written);
                return answer.unwrap_or_else(Answer::Refused);
            }
        };
        match done {
            Ok(()) => Answer::Done,
            Err(number) => Answer::Refused(Refusal::whole(number)),
        }
    }

    pub fn held(&self) -> &[Held] {
        &self.roles
    }

    fn has(&self, slip: Slip) -> bool {
        self.slip == Some(slip)
    }

    fn start(&mut self) -> Result<(), u8> {
        let old = std::mem::replace(self, Kept::new(self.slip));
        if self.has(Slip::Stays) {
            self.root = old.root;
        }
        if self.has(Slip::Rules) {
            self.rules = old.rules;
        }
        Ok(())
    }

    /// 25 if the table is full, otherwise the number that the item breaks; with an error the
    /// other way round.
    fn room(&self, full: bool, late: Slip, broken: Option<u8>) -> Result<(), u8> {
        let full = full.then_some(25);
        let number = match self.has(late) {
            false => full.or(broken),
            true => broken.or(full),
        };
        number.map_or(Ok(()), Err)
    }

    fn role(&mut self, transitive: u8) -> Result<(), u8> {
        let count = self.roles.len();
        let broken = (transitive > 1).then_some(3);
        self.room(count >= MOST_ROLES, Slip::LateRole, broken)?;
        self.roles.push(Held {
            transitive: transitive == 1,
            parents: 0,
            ancestors: 1 << count,
            simple: transitive == 0,
        });
        Ok(())
    }

    fn inclusion(&mut self, role: usize, parent: usize) -> Result<(), u8> {
        let count = self.roles.len();
        let parents = if self.has(Slip::Ahead) { 16 } else { count };
        if role >= count || parent >= parents {
            return Err(3);
        }
        let old = self.roles.clone();
        self.set_bit(role, parent);
        if parent < count {
            self.hand_down(role, parent);
            self.correct_simple(role, parent);
        }
        let Some(number) = self.broken_by_inclusion(parent) else {
            return Ok(());
        };
        let left = self.roles[role].parents;
        self.roles = old;
        if self.has(Slip::Leaves) {
            self.roles[role].parents = left;
        }
        Err(number)
    }

    fn set_bit(&mut self, role: usize, parent: usize) {
        let bit = match self.has(Slip::High) {
            true => 1 << (parent % 8),
            false => 1 << parent,
        };
        if self.has(Slip::Toggles) {
            self.roles[role].parents ^= bit;
        } else if role != parent || !self.has(Slip::Own) {
            self.roles[role].parents |= bit;
        }
    }

    /// The ancestors that come with a parent.
    fn come(&self, parent: usize) -> u16 {
        match self.has(Slip::Above) {
            true => 1 << parent,
            false => self.roles[parent].ancestors,
        }
    }

    /// The role and all roles below it get the parent and its ancestors.
    fn hand_down(&mut self, role: usize, parent: usize) {
        let come = self.come(parent);
        let own_only = self.has(Slip::Below);
        for (r, held) in self.roles.iter_mut().enumerate() {
            if r == role || !own_only && held.ancestors >> role & 1 == 1 {
                held.ancestors |= come;
            }
        }
    }

    /// The parent and its ancestors are no longer simple if a transitive role is below.
    fn correct_simple(&mut self, role: usize, parent: usize) {
        let below = |held: &Held| held.transitive && held.ancestors >> role & 1 == 1;
        let harmed = match self.has(Slip::Blind) {
            true => self.roles[role].transitive,
            false => self.roles.iter().any(below),
        };
        let above = match self.has(Slip::Third) {
            true => 1 << parent,
            false => self.roles[parent].ancestors,
        };
        for (r, held) in self.roles.iter_mut().enumerate() {
            if harmed && above >> r & 1 == 1 {
                held.simple = false;
            }
        }
    }

    /// 5 or 7 over all entries.
    fn broken_by_inclusion(&self, parent: usize) -> Option<u8> {
        let near = |role: usize| !self.has(Slip::Near) || role == parent;
        let counted = self.concepts.iter().any(|c| match *c {
            Concept::AtLeast { role, .. } => near(role) && !self.roles[role].simple,
            _ => false,
        });
        let missing = self.concepts.iter().any(|c| match *c {
            Concept::Every { role, literal } => near(role) && self.misses(role, literal),
            _ => false,
        });
        match (counted, missing) {
            (true, true) if self.has(Slip::Turned) => Some(7),
            (true, _) => Some(5),
            (false, true) => Some(7),
            (false, false) => None,
        }
    }

    /// Has a transitive role below no "every" with that literal? The role's own is there.
    fn misses(&self, role: usize, literal: Literal) -> bool {
        let below = |t: &usize| {
            let held = &self.roles[*t];
            *t != role && held.transitive && held.ancestors >> role & 1 == 1
        };
        let mut below = (0..self.roles.len()).filter(below);
        below.any(|role| !self.concepts.contains(&Concept::Every { role, literal }))
    }

    fn concept(&mut self, entry: [u8; 6]) -> Result<(), u8> {
        let count = self.concepts.len();
        let read = self.read(count, entry);
        let broken = match &read {
            Some(concept) => self.broken_by_entry(concept),
            None => Some(4),
        };
        self.room(count >= MOST_ENTRIES, Slip::LateEntry, broken)?;
        self.concepts.extend(read);
        Ok(())
    }

    /// 4 of a new entry.
    fn read(&self, count: usize, mut entry: [u8; 6]) -> Option<Concept> {
        let itself = self.has(Slip::Itself) && count > 0;
        if self.has(Slip::More) && entry[4..] == 1001u16.to_be_bytes() {
            entry[4..].copy_from_slice(&1000u16.to_be_bytes());
        }
        read_concept(count + itself as usize, &entry, self.roles.len())
    }

    /// 5 to 7 of a new entry; the old ones stay as good as they were.
    fn broken_by_entry(&self, concept: &Concept) -> Option<u8> {
        match *concept {
            Concept::Top | Concept::Name => None,
            Concept::AtLeast { role, .. } if !self.roles[role].simple => Some(5),
            _ if self.has_twin(concept) => Some(6),
            Concept::Every { role, literal } if self.misses(role, literal) => Some(7),
            _ => None,
        }
    }

    fn has_twin(&self, concept: &Concept) -> bool {
        self.concepts.iter().any(|old| match (old, concept) {
            (Concept::Both(a, b), Concept::Both(c, d)) if self.has(Slip::Twin) => {
                (a, b) == (c, d) || (a, b) == (d, c)
            }
            _ => old == concept || self.has(Slip::Number) && same_count(old, concept),
        })
    }

    fn root(&mut self, literal: Literal) -> Result<(), u8> {
        if literal as usize >= 2 * self.concepts.len() {
            return Err(8);
        }
        let first = self.root.filter(|_| self.has(Slip::Keeps));
        self.root = Some(first.unwrap_or(literal));
        Ok(())
    }

    fn rule(&mut self, literal: Literal) -> Result<(), u8> {
        let broken = (literal as usize >= 2 * self.concepts.len()).then_some(8);
        self.room(self.rules.len() >= MOST_RULES, Slip::LateRule, broken)?;
        match self.has(Slip::Front) {
            true => self.rules.insert(0, literal),
            false => self.rules.push(literal),
        }
        Ok(())
    }

    pub fn output(&self, room: usize) -> Result<Vec<u8>, Refusal> {
        let bytes = self.bytes();
        let whole = !self.roles.is_empty() && !self.concepts.is_empty() && self.root.is_some();
        if !whole && (room >= bytes.len() || !self.has(Slip::Short)) {
            return Err(Refusal::whole(2));
        }
        match bytes.len() + self.has(Slip::Tight) as usize <= room {
            true => Ok(bytes),
            false => Err(Refusal::whole(22)),
        }
    }

    /// What there is of the description, with root 0 if there is none.
    fn bytes(&self) -> Vec<u8> {
        let role = |held: &Held| Role {
            transitive: held.transitive,
            parents: held.parents,
        };
        encode::description(&Description {
            roles: self.roles.iter().map(role).collect(),
            concepts: self.concepts.clone(),
            root: self.root.unwrap_or(0),
            rules: self.rules.clone(),
            apart: None,
            ancestors: Vec::new(),
        })
    }
}

/// "At least" on the same role and literal, whatever the number.
fn same_count(one: &Concept, other: &Concept) -> bool {
    let on = |concept: &Concept| match *concept {
        Concept::AtLeast { role, literal, .. } => Some((role, literal)),
        _ => None,
    };
    on(one).is_some() && on(one) == on(other)
}
