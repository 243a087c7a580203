//! Roles that never share a filler, and rows that can be met only by fillers of two such roles.

use super::shared::{self, Part};
use super::{roles, Maker};
use crate::paper::description::{Description, Role, MOST_APART};
use crate::paper::label::Literal;
use crate::random::Random;

pub(super) fn roles(r: &mut Random) -> Vec<Role> {
    match r.below(6) {
        0 => roles::random(r, false),
        1 => shared::roles(r),
        _ => layers(r),
    }
}

/// A role above, two or three in it, and up to three in those, so that cells owe a role of a record
/// to a row that has another. The numbers rise or fall.
fn layers(r: &mut Random) -> Vec<Role> {
    let (middle, below) = (r.range(2, 3), r.below(4));
    let mut parents = vec![0];
    for _ in 0..middle {
        parents.push(!r.one_in(8) as u16);
    }
    for _ in 0..below {
        // Now and then in two: such a role may have no pair at all.
        let second = if r.one_in(6) { r.range(1, middle) } else { 0 };
        parents.push(1 << r.range(1, middle) | 1 << second);
    }
    let role = |transitive: bool, parents: u16| Role {
        transitive,
        parents,
    };
    let mut roles: Vec<Role> = parents.into_iter().map(|mask| role(false, mask)).collect();
    if r.one_in(2) {
        // Above all of these one that is not simple, since it has a transitive role below it, too.
        let top = 1 << roles.len();
        roles[0].parents |= top;
        roles.extend([role(false, 0), role(true, top)]);
    }
    match r.one_in(2) {
        true => roles,
        false => turned(&roles),
    }
}

/// The same roles from the last to the first.
fn turned(roles: &[Role]) -> Vec<Role> {
    let last = roles.len() - 1;
    let turn = |parents: u16| {
        let held = (0..=last).filter(|j| parents >> j & 1 == 1);
        held.fold(0, |mask, j| mask | 1 << (last - j))
    };
    let role = |role: &Role| Role {
        transitive: role.transitive,
        parents: turn(role.parents),
    };
    roles.iter().rev().map(role).collect()
}

/// Records that 26 lets in: none, few or as many as may be. A record may stand there again, or
/// turned round.
pub(super) fn records(r: &mut Random, description: &Description) -> Vec<[u8; 2]> {
    let pairs = r.range(1, 3);
    let few: Vec<[u8; 2]> = (0..pairs).filter_map(|_| pair(r, description)).collect();
    if few.is_empty() {
        return few;
    }
    let one_more = few.len() + 1;
    let count = match r.below(20) {
        0..=2 => 0,
        3..=4 => MOST_APART,
        5..=6 => one_more,
        _ => few.len(),
    };
    let record = |i: usize| match (few[i % few.len()], r.one_in(2)) {
        ([a, b], true) => [b, a],
        (record, false) => record,
    };
    (0..count).map(record).collect()
}

/// Two simple roles, seldom such that one is in the other, or both have a role in common below.
fn pair(r: &mut Random, description: &Description) -> Option<[u8; 2]> {
    let roles = 0..description.roles.len();
    let simple: Vec<usize> = roles.filter(|&s| description.simple(s)).collect();
    if simple.len() < 2 {
        return None;
    }
    for _ in 0..20 {
        let (a, b) = (r.pick(&simple), r.pick(&simple));
        let below = |mask: &u16| mask >> a & 1 == 1 && mask >> b & 1 == 1;
        let empty = description.ancestors.iter().any(below);
        if a != b && (!empty || r.one_in(8)) {
            return Some([a as u8, b as u8]);
        }
    }
    None
}

impl Maker<'_> {
    /// A root with two rows whose roles never share a filler, and a third that leaves too few
    /// fillers for them, or just as many.
    pub(super) fn kept_apart(&mut self) {
        self.size.most = self.size.most.max(32);
        let Some(roles) = self.two_in_one() else {
            return self.counted();
        };
        if self.rows_apart(roles).is_none() {
            self.loose();
        }
    }

    fn rows_apart(&mut self, [one, other, above]: [usize; 3]) -> Option<()> {
        let pool = self.some_names()?;
        let l = self.qualifier(&pool);
        let (a, b) = (self.some_number().min(499), self.some_number().min(499));
        let most = a + b - self.r.pick(&[0, 1, 1, 1]);
        let parts = vec![
            Part::AtLeast(a, one, l),
            Part::AtLeast(b, other, l),
            Part::AtMost(most, above, l),
        ];
        self.with_others(parts, &pool)
    }

    fn qualifier(&mut self, pool: &[Literal]) -> Literal {
        match self.r.one_in(4) {
            true => 0,
            false => self.r.pick(pool),
        }
    }

    /// Two roles, each in a role of one record or that role, and one that can be counted above both.
    fn two_in_one(&mut self) -> Option<[usize; 3]> {
        let description = &self.description;
        let roles = || 0..description.roles.len();
        let simple: Vec<usize> = roles().filter(|&s| description.simple(s)).collect();
        let has = |role: usize, ancestor: u8| description.has_ancestor(role, ancestor as usize);
        let mut found = Vec::new();
        for &[a, b] in description.records_apart() {
            for &one in simple.iter().filter(|&&s| has(s, a)) {
                for &other in simple.iter().filter(|&&s| has(s, b)) {
                    let above = |u: &&usize| has(one, **u as u8) && has(other, **u as u8);
                    found.extend(simple.iter().filter(above).map(|&u| [one, other, u]));
                }
            }
        }
        (!found.is_empty()).then(|| self.r.pick(&found))
    }
}
