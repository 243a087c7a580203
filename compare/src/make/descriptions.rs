//! Random accepted descriptions.

mod apart;
mod roles;
mod shared;

use crate::encode;
use crate::paper::description::{ancestors, Concept, Description, MOST_ENTRIES, MOST_RULES};
use crate::paper::label::{opposite, Literal};
use crate::random::Random;

/// A description that none of 1 to 8 and 26 refuses.
pub fn random(r: &mut Random) -> Description {
    loop {
        let kind = Kind::random(r);
        let mut maker = Maker::new(r, kind);
        match maker.r.below(10) {
            _ if kind == Kind::Shared => maker.shared(),
            3..=8 if kind == Kind::Apart => maker.kept_apart(),
            0 => maker.exactly_two_of_three(),
            1..=2 => maker.loose(),
            _ => maker.counted(),
        }
        maker.fill();
        let description = maker.description;
        if Description::read(&encode::description(&description)).is_ok() {
            return description;
        }
    }
}

/// So many entries are enough for most roots with all that they speak of.
const ENOUGH: usize = 25;

/// What the roles are made for.
#[derive(Clone, Copy, PartialEq, Eq)]
enum Kind {
    Any,
    /// Rows whose roles have ancestors in common.
    Shared,
    /// Rows whose roles never share a filler; there is a fourth pair.
    Apart,
}

impl Kind {
    fn random(r: &mut Random) -> Kind {
        match r.below(20) {
            0..=3 => Kind::Shared,
            4..=8 => Kind::Apart,
            _ => Kind::Any,
        }
    }
}

/// How many entries there are.
struct Size {
    least: usize,
    most: usize,
    /// As many roles and rules as may be, too.
    largest: bool,
}

impl Size {
    /// More than 32 entries in a third of the descriptions; often a number next to a limit.
    fn random(r: &mut Random) -> Size {
        let largest = r.one_in(100);
        let any = r.range(33, MOST_ENTRIES);
        let (least, most) = match r.below(30) {
            _ if largest => (MOST_ENTRIES, MOST_ENTRIES),
            0..=2 => (33, 33),
            3..=5 => (MOST_ENTRIES, MOST_ENTRIES),
            6..=9 => (any, any),
            10..=11 => (32, 32),
            12 => (31, 31),
            _ => (1, r.range(8, 32)),
        };
        Size {
            least,
            most,
            largest,
        }
    }
}

struct Maker<'a> {
    r: &'a mut Random,
    description: Description,
    size: Size,
    /// So many fillers are still to come before or between the entries that matter.
    ahead: usize,
    /// Numbers near 255 and 1,000 instead of small ones.
    big: bool,
}

impl Maker<'_> {
    fn new(r: &mut Random, kind: Kind) -> Maker<'_> {
        let size = Size::random(r);
        let roles = match kind {
            Kind::Shared if !size.largest => shared::roles(r),
            Kind::Apart if !size.largest => apart::roles(r),
            _ => roles::random(r, size.largest),
        };
        // None, some or all of the entries that are left over come first: with all of 64, the
        // literals that matter are mostly above 63.
        let spare = size.least.saturating_sub(ENOUGH);
        let some = r.below(spare + 1);
        let ahead = r.pick(&[0, some, spare, spare]);
        let mut maker = Maker {
            description: Description {
                ancestors: ancestors(&roles),
                roles,
                concepts: vec![Concept::Top],
                root: 0,
                rules: Vec::new(),
                apart: None,
            },
            size,
            ahead: 0,
            big: r.one_in(10),
            r,
        };
        if kind == Kind::Apart {
            maker.description.apart = Some(apart::records(maker.r, &maker.description));
        }
        if maker.r.one_in(2) {
            maker.fill_to(1 + ahead);
        } else {
            maker.ahead = ahead;
        }
        maker
    }

    /// An entry that nothing need speak of, mostly a name.
    fn filler(&mut self) {
        let (a, b, role) = (self.literal(), self.literal(), self.role());
        let made = match self.r.below(8) {
            0 => self.both(a, b),
            1 => self.at_least(1, role, a),
            2 => self.every(role, a),
            _ => None,
        };
        if made.is_none() {
            self.entry(Concept::Name);
        }
    }

    fn fill_to(&mut self, entries: usize) {
        while self.description.concepts.len() < entries {
            self.filler();
        }
    }

    /// Some of the fillers that are to come.
    fn fillers_between(&mut self) {
        while self.ahead > 0 && self.r.one_in(2) {
            // No filler before a filler, which may be more entries than one.
            let ahead = std::mem::take(&mut self.ahead);
            let before = self.description.concepts.len();
            self.filler();
            let added = self.description.concepts.len() - before;
            self.ahead = ahead.saturating_sub(added.max(1));
        }
    }

    /// Fillers behind all entries, and rules that are true of everything or stand there already.
    fn fill(&mut self) {
        self.ahead = 0;
        self.fill_to(self.size.least);
        if self.r.one_in(10) {
            // Nothing but the question can speak of the last entry.
            let last = 2 * (self.description.concepts.len() - 1) as Literal;
            let last = self.either(last);
            match self.r.below(3) {
                0 if self.description.rules.len() < MOST_RULES => self.description.rules.push(last),
                _ => self.description.root = last,
            }
        }
        while self.size.largest && self.description.rules.len() < MOST_RULES {
            let old = self.description.rules.first().copied();
            let rule = self.r.pick(&[0, old.unwrap_or(0)]);
            self.description.rules.push(rule);
        }
    }

    /// The literal of an entry, an old one if there is such an entry (test 6).
    fn entry(&mut self, concept: Concept) -> Option<Literal> {
        self.fillers_between();
        let concepts = &mut self.description.concepts;
        let named = concept == Concept::Name;
        if let (false, Some(e)) = (named, concepts.iter().position(|c| *c == concept)) {
            return Some(2 * e as Literal);
        }
        if concepts.len() >= self.size.most {
            return None;
        }
        concepts.push(concept);
        Some(2 * (concepts.len() - 1) as Literal)
    }

    /// "Every R l", and before it the "every T l" that test 7 asks for.
    fn every(&mut self, role: usize, literal: Literal) -> Option<Literal> {
        let below = self.description.transitive_below(role);
        if self.description.concepts.len() + below.len() + 1 > self.size.most {
            return None;
        }
        for t in below {
            self.entry(Concept::Every { role: t, literal })?;
        }
        self.entry(Concept::Every { role, literal })
    }

    fn at_least(&mut self, number: usize, role: usize, literal: Literal) -> Option<Literal> {
        if !self.description.simple(role) {
            return None;
        }
        self.entry(Concept::AtLeast {
            number: number as u16,
            role,
            literal,
        })
    }

    fn both(&mut self, a: Literal, b: Literal) -> Option<Literal> {
        self.entry(Concept::Both(a, b))
    }

    /// The conjunction of some literals.
    fn all_of(&mut self, literals: &[Literal]) -> Option<Literal> {
        let (&first, rest) = literals.split_first()?;
        rest.iter().try_fold(first, |l, &next| self.both(l, next))
    }

    fn role(&mut self) -> usize {
        self.r.below(self.description.roles.len())
    }

    fn literal(&mut self) -> Literal {
        self.r.below(2 * self.description.concepts.len()) as Literal
    }

    fn either(&mut self, l: Literal) -> Literal {
        l ^ self.r.below(2) as Literal
    }

    fn some_number(&mut self) -> usize {
        if self.big {
            let near = self.r.pick(&[255, 512, 998]);
            return self.r.range(near, near + 2);
        }
        match self.r.below(25) {
            0 => self.r.pick(&[255, 256, 999, 1000]),
            1 => self.r.range(5, 40),
            _ => self.r.range(1, 4),
        }
    }

    /// A root that joins counts and "every"s over few qualifiers and few roles.
    fn counted(&mut self) {
        let mut pool: Vec<Literal> = Vec::new();
        for _ in 0..self.r.range(1, 3) {
            pool.extend(self.entry(Concept::Name));
        }
        if self.r.one_in(3) {
            let (a, b) = (self.r.pick(&pool), self.r.pick(&pool));
            let (a, b) = (self.either(a), self.either(b));
            pool.extend(self.both(a, b));
        }
        if self.r.one_in(4) {
            pool.push(0);
        }
        let mut joined = Vec::new();
        let mut wanted = self.r.range(1, 8);
        while wanted > 0 {
            wanted -= 1;
            let Some(l) = self.part(&pool) else { continue };
            joined.push(l);
            if self.r.one_in(8) {
                // Nested: a later part may speak of this one.
                pool.push(l);
            }
        }
        if self.r.one_in(3) {
            // A rule, mostly one that does not rule out everything.
            let (a, b) = (self.r.pick(&pool), self.r.pick(&pool));
            let (a, b) = (self.either(a), self.either(b));
            let rule = match self.r.below(4) {
                0 => Some(a),
                1 => self.part(&pool),
                _ => self.both(a, b).map(opposite),
            };
            self.description.rules.extend(rule);
        }
        self.r.shuffle(&mut joined);
        self.description.root = self.all_of(&joined).unwrap_or(0);
    }

    /// One conjunct: a count, its complement, an "every", a "some" or a plain literal.
    fn part(&mut self, pool: &[Literal]) -> Option<Literal> {
        let role = self.role();
        let qualifier = self.r.pick(pool);
        let qualifier = if self.r.one_in(4) {
            opposite(qualifier)
        } else {
            qualifier
        };
        match self.r.below(9) {
            0..=2 => {
                let number = self.some_number();
                self.at_least(number, role, qualifier)
            }
            3..=4 => {
                let number = self.some_number();
                self.at_least(number, role, qualifier).map(opposite)
            }
            5..=6 => self.every(role, qualifier),
            7 => self.every(role, qualifier).map(opposite),
            _ => Some(qualifier),
        }
    }

    /// Entries of any kind, with a root and rules of any kind.
    fn loose(&mut self) {
        while self.description.concepts.len() < self.size.most {
            let (a, b, role) = (self.literal(), self.literal(), self.role());
            let number = self.some_number();
            let made = match self.r.below(5) {
                0 => self.entry(Concept::Name),
                1 => self.both(a, b),
                2 => self.every(role, a),
                _ => self.at_least(number, role, a),
            };
            if made.is_none() && self.r.one_in(4) {
                break;
            }
        }
        let rules = if self.r.one_in(20) {
            MOST_RULES
        } else {
            self.r.below(4)
        };
        for _ in 0..rules {
            let rule = self.literal();
            self.description.rules.push(rule);
        }
        self.description.root = self.literal();
    }

    /// So many of A, of B and of C where each filler has exactly two of them: whole numbers
    /// may fail where halves do not.
    fn exactly_two_of_three(&mut self) {
        self.size.most = self.size.most.max(32);
        if self.two_of_three().is_none() {
            self.loose();
        }
    }

    fn two_of_three(&mut self) -> Option<()> {
        let role = (0..self.description.roles.len()).find(|&s| self.description.simple(s))?;
        let mut names = Vec::new();
        for _ in 0..3 {
            names.push(self.entry(Concept::Name)?);
        }
        let [a, b, c] = names[..] else { return None };
        let mut never = Vec::new();
        for (x, y) in [(a, b), (a, c), (b, c)] {
            never.push(self.both(opposite(x), opposite(y))?);
        }
        let pair = self.both(a, b)?;
        never.push(self.both(pair, c)?);
        let as_rules = self.r.one_in(2);
        let mut joined = Vec::new();
        for l in never {
            if as_rules {
                self.description.rules.push(opposite(l));
            } else {
                joined.push(self.every(role, opposite(l))?);
            }
        }
        for l in [a, b, c] {
            let number = self.r.range(1, 3);
            joined.push(self.at_least(number, role, l)?);
            joined.push(opposite(self.at_least(number + 1, role, l)?));
        }
        self.r.shuffle(&mut joined);
        if as_rules {
            // The root's own element keeps the rules too.
            joined.push(a);
        }
        self.description.root = self.all_of(&joined)?;
        Some(())
    }
}
