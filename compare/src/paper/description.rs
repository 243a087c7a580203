//! The description and its tests, 1 to 8 and 26.

use super::bytes::{number, parts};
use super::label::{Literal, Width};
use super::Refusal;

#[derive(Clone, PartialEq, Eq, Debug)]
pub struct Role {
    pub transitive: bool,
    /// Bit j: included in role j.
    pub parents: u16,
}

#[derive(Clone, PartialEq, Eq, Debug)]
pub enum Concept {
    Top,
    Name,
    Both(Literal, Literal),
    Every {
        role: usize,
        literal: Literal,
    },
    AtLeast {
        number: u16,
        role: usize,
        literal: Literal,
    },
}

#[derive(Clone, Debug)]
pub struct Description {
    pub roles: Vec<Role>,
    pub concepts: Vec<Concept>,
    pub root: Literal,
    pub rules: Vec<Literal>,
    /// Records of two roles that never share a filler. There is a difference between no record and
    /// no fourth pair for them: what the byte of a cell may be.
    pub apart: Option<Vec<[u8; 2]>>,
    /// For each role the mask of its ancestors, itself included.
    pub ancestors: Vec<u16>,
}

pub const MOST_ROLES: usize = 16;
pub const MOST_ENTRIES: usize = 64;
pub const MOST_RULES: usize = 16;
pub const MOST_APART: usize = 16;

/// The first offset, which is where the pairs end, of a description with four pairs.
const FOUR_PAIRS: u16 = 16;

/// A test of a whole description.
type Test = fn(&Description) -> bool;

impl Description {
    /// The description that some bytes are, once none of 1 to 8 and 26 refuses it.
    pub fn read(bytes: &[u8]) -> Result<Description, Refusal> {
        // 1: shorter than the pairs, or pairs off.
        let found = parts(bytes, 0, pairs_of(bytes)).ok_or(Refusal::whole(1))?;
        let (roles, concepts, question) = (found[0], found[1], found[2]);
        let apart = found.get(3).copied();

        // 2: length no multiple, or outside limits.
        let sized = records_in(roles, 3, 1, MOST_ROLES)
            && records_in(concepts, 6, 1, MOST_ENTRIES)
            && records_in(question, 1, 1, 1 + MOST_RULES)
            && apart.is_none_or(|part| records_in(part, 2, 0, MOST_APART));
        if !sized {
            return Err(Refusal::whole(2));
        }

        let roles = read_roles(roles).ok_or(Refusal::whole(3))?;
        let concepts = read_concepts(concepts, roles.len()).ok_or(Refusal::whole(4))?;
        let description = Description {
            ancestors: ancestors(&roles),
            roles,
            concepts,
            root: question[0],
            rules: question[1..].to_vec(),
            apart: apart.map(|part| part.chunks(2).map(|b| [b[0], b[1]]).collect()),
        };
        description.test()?;
        Ok(description)
    }

    /// Tests 5 to 8, then 26, each over the whole description.
    fn test(&self) -> Result<(), Refusal> {
        self.test_entries()?;
        self.test_all(&[
            (8, Description::question_in_table),
            (26, Description::keeps_simple_roles_apart),
        ])
    }

    /// Tests 5 to 7, which the question has no part in.
    pub(super) fn test_entries(&self) -> Result<(), Refusal> {
        self.test_all(&[
            (5, Description::counts_simple_roles),
            (6, Description::has_no_twin),
            (7, Description::has_each_every),
        ])
    }

    fn test_all(&self, tests: &[(u8, Test)]) -> Result<(), Refusal> {
        for (number, test) in tests {
            if !test(self) {
                return Err(Refusal::whole(*number));
            }
        }
        Ok(())
    }

    /// The width of labels in its evidence and of name masks in its lines.
    pub fn width(&self) -> Width {
        Width::of_table(self.concepts.len())
    }

    /// Is `ancestor` the role itself or reached from it through parents?
    pub fn has_ancestor(&self, role: usize, ancestor: usize) -> bool {
        self.ancestors[role] >> ancestor & 1 == 1
    }

    /// No transitive role has it as ancestor, itself included.
    pub fn simple(&self, role: usize) -> bool {
        (0..self.roles.len()).all(|t| !self.roles[t].transitive || !self.has_ancestor(t, role))
    }

    /// The transitive roles below a role, itself included if it is one.
    pub fn transitive_below(&self, role: usize) -> Vec<usize> {
        (0..self.roles.len())
            .filter(|&t| self.roles[t].transitive && self.has_ancestor(t, role))
            .collect()
    }

    /// The entry "every role literal"; by tests 6 and 7 there is one where it is asked for.
    pub fn every_entry(&self, role: usize, literal: Literal) -> Option<usize> {
        self.concepts
            .iter()
            .position(|c| *c == Concept::Every { role, literal })
    }

    /// 5: kind 4 stands on simple roles only.
    fn counts_simple_roles(&self) -> bool {
        self.concepts.iter().all(|c| match c {
            Concept::AtLeast { role, .. } => self.simple(*role),
            _ => true,
        })
    }

    /// 6: no entry of kinds 2 to 4 has all fields as an earlier entry.
    fn has_no_twin(&self) -> bool {
        self.concepts.iter().enumerate().all(|(e, c)| match c {
            Concept::Top | Concept::Name => true,
            _ => !self.concepts[..e].contains(c),
        })
    }

    /// 7: for "every R l" and T transitive with ancestor R there is "every T l", anywhere.
    fn has_each_every(&self) -> bool {
        self.concepts.iter().all(|c| match c {
            Concept::Every { role, literal } => self
                .transitive_below(*role)
                .iter()
                .all(|&t| self.every_entry(t, *literal).is_some()),
            _ => true,
        })
    }

    /// 8: root and rules are literals of the table.
    fn question_in_table(&self) -> bool {
        self.in_table(self.root) && self.rules.iter().all(|&l| self.in_table(l))
    }

    /// 26: each record has two roles of the table, not the same twice, and both simple.
    fn keeps_simple_roles_apart(&self) -> bool {
        let simple = |role: u8| (role as usize) < self.roles.len() && self.simple(role as usize);
        let kept = |&[a, b]: &[u8; 2]| simple(a) && simple(b) && a != b;
        self.records_apart().iter().all(kept)
    }

    /// The records of roles that never share a filler, if there are any.
    pub fn records_apart(&self) -> &[[u8; 2]] {
        self.apart.as_deref().unwrap_or(&[])
    }

    /// Does a mask hold both roles of a record? Then no pair of elements has all roles of the mask.
    pub fn barred(&self, mask: u16) -> bool {
        let held = |role: u8| mask >> role & 1 == 1;
        self.records_apart()
            .iter()
            .any(|&[a, b]| held(a) && held(b))
    }

    /// Is it a literal of an entry of the table?
    pub fn in_table(&self, l: Literal) -> bool {
        (l as usize) < 2 * self.concepts.len()
    }
}

/// How many pairs a description has: the first offset decides.
pub fn pairs_of(bytes: &[u8]) -> usize {
    match bytes.len() >= 2 && number(bytes, 0) == FOUR_PAIRS {
        false => 3,
        true => 4,
    }
}

/// `least` to `most` records of `size` bytes, and no byte more.
fn records_in(part: &[u8], size: usize, least: usize, most: usize) -> bool {
    part.len() % size == 0 && (least..=most).contains(&(part.len() / size))
}

/// 3: the transitive byte is 0 or 1, and no parent bit is past the last role.
pub(super) fn read_roles(part: &[u8]) -> Option<Vec<Role>> {
    let count = part.len() / 3;
    let role = |record: &[u8]| {
        let parents = number(record, 1);
        let past = (count..16).any(|j| parents >> j & 1 == 1);
        (record[0] <= 1 && !past).then_some(Role {
            transitive: record[0] == 1,
            parents,
        })
    };
    part.chunks(3).map(role).collect()
}

/// 4: every field of every entry is within its rule.
pub(super) fn read_concepts(part: &[u8], roles: usize) -> Option<Vec<Concept>> {
    part.chunks(6)
        .enumerate()
        .map(|(e, record)| read_concept(e, record, roles))
        .collect()
}

/// 4, for entry e: literals below 2e, roles of the table, unused fields 0.
pub fn read_concept(e: usize, record: &[u8], roles: usize) -> Option<Concept> {
    let (kind, role, first, second) = (record[0], record[1] as usize, record[2], record[3]);
    let number = number(record, 4);
    let earlier = |l: Literal| (l as usize) < 2 * e;
    // Top is entry 0 and no other; entry 0 is nothing else (reading 6).
    if (kind == 0) != (e == 0) {
        return None;
    }
    match kind {
        0 | 1 => {
            let unused = role == 0 && first == 0 && second == 0 && number == 0;
            let concept = if kind == 0 {
                Concept::Top
            } else {
                Concept::Name
            };
            unused.then_some(concept)
        }
        2 => {
            let fits = role == 0 && earlier(first) && earlier(second) && number == 0;
            fits.then_some(Concept::Both(first, second))
        }
        3 => {
            let fits = role < roles && earlier(first) && second == 0 && number == 0;
            fits.then_some(Concept::Every {
                role,
                literal: first,
            })
        }
        4 => {
            let fits = role < roles && earlier(first) && second == 0;
            (fits && (1..=1000).contains(&number)).then_some(Concept::AtLeast {
                number,
                role,
                literal: first,
            })
        }
        _ => None,
    }
}

/// For each role itself and all roles reached through parents.
pub fn ancestors(roles: &[Role]) -> Vec<u16> {
    let of = |start: usize| {
        let mut reached = 1u16 << start;
        loop {
            let parents = (0..roles.len())
                .filter(|&r| reached >> r & 1 == 1)
                .fold(0, |mask, r| mask | roles[r].parents);
            if parents & !reached == 0 {
                return reached;
            }
            reached |= parents;
        }
    };
    (0..roles.len()).map(of).collect()
}
