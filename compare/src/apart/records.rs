//! Errors in 26, and in 2 on the fourth part.

use super::{four_parts, number_of, Case, Lapse};
use crate::encode;
use crate::paper::description::{Description, MOST_APART, MOST_ROLES};

pub(super) const LAPSES: [Lapse; 12] = [
    ("2 odd", odd),
    ("2 long", long),
    ("2 late", part_late),
    ("26 past", past),
    ("26 same", same),
    ("26 simple", simple),
    ("26 itself", itself),
    ("26 first", first),
    ("26 under", under),
    ("26 again", again),
    ("26 early", early),
    ("26 late", late),
];

/// Roles and concepts that pass 1 to 7, and the records as they are stored.
pub(super) struct Tables {
    description: Description,
    records: Vec<[u8; 2]>,
}

impl Tables {
    pub(super) fn of(description: &[u8]) -> Option<Tables> {
        let mut parts = four_parts(description)?;
        let records = std::mem::take(&mut parts[3]);
        if records.len() % 2 != 0 || records.len() > 2 * MOST_APART {
            return None;
        }
        // A question and records that no test refuses.
        parts[2] = vec![0];
        Some(Tables {
            description: Description::read(&encode::join_parts(&parts)).ok()?,
            records: records.chunks(2).map(|b| [b[0], b[1]]).collect(),
        })
    }

    fn in_table(&self, role: u8) -> bool {
        (role as usize) < self.description.roles.len()
    }

    fn simple(&self, role: u8) -> bool {
        self.in_table(role) && self.description.simple(role as usize)
    }

    fn below(&self, role: u8, other: u8) -> bool {
        self.description.has_ancestor(role as usize, other as usize)
    }

    fn good(&self, [a, b]: [u8; 2]) -> bool {
        a != b && self.simple(a) && self.simple(b)
    }
}

impl Case<'_> {
    /// The number of the refusal once the fourth part has another length, if it is refused with 2.
    fn resized(&self, length: impl Fn(usize) -> usize) -> Option<u8> {
        let mut parts = four_parts(self.asked.description)?;
        let length = length(parts[3].len());
        parts[3].truncate(length);
        let description = encode::join_parts(&parts);
        let answer = (self.asked.number() == 2).then(|| self.asked.under(&description));
        answer.map(number_of)
    }

    /// Is it refused with 26 although all records pass another test?
    fn let_in(&self, passes: impl Fn(&Tables, [u8; 2]) -> bool) -> bool {
        let Some(tables) = self.tables.as_ref().filter(|_| self.asked.number() == 26) else {
            return false;
        };
        tables.records.iter().all(|&record| passes(tables, record))
    }

    /// Does it pass 26 although records, with those before them, fail another test?
    fn kept_out(&self, fails: impl Fn(&Tables, &[[u8; 2]], [u8; 2]) -> bool) -> bool {
        let number = self.asked.number();
        let Some(tables) = self.tables.as_ref().filter(|_| !matches!(number, 8 | 26)) else {
            return false;
        };
        let mut records = tables.records.iter().enumerate();
        records.any(|(i, &record)| fails(tables, &tables.records[..i], record))
    }
}

/// A byte left over behind the records is not seen.
fn odd(case: &Case) -> bool {
    case.resized(|length| length & !1).is_some_and(|n| n != 2)
}

/// More than 16 records are let in.
fn long(case: &Case) -> bool {
    let most = |length: usize| 2 * MOST_APART + length % 2;
    case.resized(most).is_some_and(|n| n != 2)
}

/// The length of the fourth part is tested after 8.
fn part_late(case: &Case) -> bool {
    let none = case.resized(|_| 0);
    none.is_some_and(|n| (3..=8).contains(&n))
}

/// A role past the table is let in if there could be such a role.
fn past(case: &Case) -> bool {
    case.let_in(|tables, [a, b]| {
        let passes = |role| match tables.in_table(role) {
            true => tables.simple(role),
            false => (role as usize) < MOST_ROLES,
        };
        a != b && passes(a) && passes(b)
    })
}

/// The same role twice is let in.
fn same(case: &Case) -> bool {
    case.let_in(|tables, [a, b]| tables.simple(a) && tables.simple(b))
}

/// A role that is not simple is let in.
fn simple(case: &Case) -> bool {
    case.let_in(|tables, [a, b]| a != b && tables.in_table(a) && tables.in_table(b))
}

/// A role that is not simple is let in unless it is itself transitive.
fn itself(case: &Case) -> bool {
    case.let_in(|tables, [a, b]| {
        let roles = &tables.description.roles;
        let passes = |role| tables.in_table(role) && !roles[role as usize].transitive;
        a != b && passes(a) && passes(b)
    })
}

/// Only the first record is tested.
fn first(case: &Case) -> bool {
    let tables = case.tables.as_ref();
    let first = tables.and_then(|tables| tables.records.first());
    case.let_in(|tables, record| Some(&record) != first || tables.good(record))
}

/// A role in the other is not let in.
fn under(case: &Case) -> bool {
    case.kept_out(|tables, _, [a, b]| tables.below(a, b) || tables.below(b, a))
}

/// A record that stands there already, or turned round, is not let in.
fn again(case: &Case) -> bool {
    case.kept_out(|_, before, [a, b]| before.contains(&[a, b]) || before.contains(&[b, a]))
}

/// 26 comes before 8.
fn early(case: &Case) -> bool {
    let Some(tables) = case.tables.as_ref().filter(|_| case.asked.number() == 8) else {
        return false;
    };
    !tables.records.iter().all(|&record| tables.good(record))
}

/// 26 comes after 9, 23 and 24.
fn late(case: &Case) -> bool {
    if case.asked.number() != 26 {
        return false;
    }
    let without = case.asked.with_records(|_, _| false);
    let number = without.map(|description| number_of(case.asked.under(&description)));
    matches!(number, Some(9 | 23 | 24))
}
