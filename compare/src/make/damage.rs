//! Damage to bytes of any kind, and to the parts of a description.

use crate::encode;
use crate::make::spoil_apart;
use crate::paper::description::{
    Concept, Description, Role, MOST_APART, MOST_ENTRIES, MOST_ROLES, MOST_RULES,
};
use crate::random::Random;

/// Bytes at a limit of the paper, or next to one.
const EDGES: [u8; 20] = [
    0, 1, 2, 3, 6, 7, 8, 9, 31, 32, 33, 63, 64, 65, 127, 128, 129, 253, 254, 255,
];

/// One byte, one bit, a cut, a lengthening, two bytes exchanged.
pub fn bytes(r: &mut Random, bytes: &[u8]) -> Vec<u8> {
    let mut bytes = bytes.to_vec();
    if bytes.is_empty() {
        return vec![r.byte()];
    }
    let at = r.below(bytes.len());
    match r.below(9) {
        0 => bytes[at] = r.byte(),
        1..=2 => bytes[at] ^= 1 << r.below(8),
        3 => bytes[at] = r.pick(&EDGES),
        4 => bytes[at] = bytes[at].wrapping_add(1),
        5 => bytes[at] = bytes[at].wrapping_sub(1),
        6 => bytes.truncate(at),
        7 => {
            // Now and then so many that a length cut to 8 or 16 bits would look right.
            let more = match r.below(40) {
                0 => 256,
                1 => 65_536,
                _ => r.range(1, 6),
            };
            bytes.extend((0..more).map(|_| r.pick(&EDGES)));
        }
        _ => {
            let other = r.below(bytes.len());
            bytes.swap(at, other);
        }
    }
    bytes
}

/// Wrong pairs: a directory of `count` pairs from byte `at` on is changed in one place.
pub fn pairs(r: &mut Random, bytes: &[u8], at: usize, count: usize) -> Vec<u8> {
    let mut bytes = bytes.to_vec();
    let field = at + 2 * r.below(2 * count);
    if field + 1 >= bytes.len() {
        return bytes;
    }
    match r.below(4) {
        0 => bytes[field + 1] = bytes[field + 1].wrapping_add(1),
        1 => bytes[field + 1] = bytes[field + 1].wrapping_sub(1),
        2 => bytes[field] ^= 1 << r.below(8),
        _ => {
            // Two pairs exchanged.
            let (a, b) = (r.below(count), r.below(count));
            for i in 0..4 {
                bytes.swap(at + 4 * a + i, at + 4 * b + i);
            }
        }
    }
    bytes
}

/// A description with one thing wrong, or with a number at its limit.
pub fn description(r: &mut Random, whole: &Description) -> Vec<u8> {
    let bytes = encode::description(whole);
    let mut parts = encode::description_parts(whole);
    match r.below(12) {
        0 => return self::bytes(r, &bytes),
        1 => return pairs(r, &bytes, 0, parts.len()),
        2 => return short(r, &bytes),
        3 => return spoil_apart::description(r, whole),
        _ => {}
    }
    match r.below(13) {
        0 => sizes(r, &mut parts),
        1..=2 => role(r, &mut parts[0], whole.roles.len()),
        3..=4 => entry(r, &mut parts[1], whole),
        5 => twin(r, &mut parts[1], whole),
        6..=9 => return missing_every(r, whole),
        10 => {
            // Most often this makes a counted role not simple, or asks for an "every".
            let at = 3 * r.below(whole.roles.len());
            parts[0][at] ^= 1;
        }
        11 => table(r, &mut parts[1]),
        _ => question(r, &mut parts[2], whole.concepts.len()),
    }
    encode::join_parts(&parts)
}

/// Cut anywhere, or within the pairs; or with the first offset that another number of pairs has.
fn short(r: &mut Random, bytes: &[u8]) -> Vec<u8> {
    let mut bytes = bytes.to_vec();
    let (any, near) = (r.below(bytes.len()), r.range(11, 17));
    match r.below(4) {
        0 => bytes[1] ^= 12 ^ 16,
        1 => bytes.truncate(near),
        _ => bytes.truncate(any),
    }
    bytes
}

/// Parts of other lengths: a byte off, none, as many records as may be, one more.
fn sizes(r: &mut Random, parts: &mut [Vec<u8>]) {
    let which = r.below(parts.len());
    let part = &mut parts[which];
    match r.below(6) {
        0 => part.clear(),
        1 => part.push(0),
        2 => {
            part.pop();
        }
        more => {
            let extra = more - 3;
            match which {
                0 => part.resize(3 * (MOST_ROLES - 1 + extra), 0),
                1 => entries(part, MOST_ENTRIES - 1 + extra),
                2 => part.resize(MOST_RULES + extra, 0),
                _ => spoil_apart::so_many(part, MOST_APART - 1 + extra),
            }
        }
    }
}

/// Another number of entries, next to where the width of labels changes or to the limit. The
/// evidence stays as it is, and so do the entries that are left.
fn table(r: &mut Random, part: &mut Vec<u8>) {
    let old = part.len() / 6;
    let near = r.pick(&[old - 1, old + 1]);
    entries(part, r.pick(&[near, 31, 32, 33, 63, MOST_ENTRIES, 65]));
}

/// So many entries: names are put behind the old ones, or the last ones are dropped.
fn entries(part: &mut Vec<u8>, count: usize) {
    part.truncate(6 * count);
    while part.len() < 6 * count {
        part.extend([1, 0, 0, 0, 0, 0]);
    }
}

fn role(r: &mut Random, part: &mut [u8], count: usize) {
    let at = 3 * r.below(count);
    match r.below(4) {
        0 => part[at] = r.pick(&[2, 3, 128, 254, 255]),
        1 => {
            // The first bit past the last role, if there is one.
            let bit = 1u16 << count.min(15);
            part[at + 1] |= bit.to_be_bytes()[0];
            part[at + 2] |= bit.to_be_bytes()[1];
        }
        _ => {
            let bit = r.below(count.min(15) + 1);
            part[at + 2 - bit / 8] ^= 1 << (bit % 8);
        }
    }
}

fn entry(r: &mut Random, part: &mut [u8], whole: &Description) {
    let mut e = r.below(whole.concepts.len());
    let counts = |e: &usize| matches!(whole.concepts[*e], Concept::AtLeast { .. });
    let counted: Vec<usize> = (0..whole.concepts.len()).filter(counts).collect();
    if !counted.is_empty() && r.one_in(3) {
        e = r.pick(&counted);
    }
    let fields = &mut part[6 * e..6 * e + 6];
    match r.below(8) {
        0 => fields[0] = r.pick(&[0, 1, 2, 3, 4, 5, 255]),
        1 => fields[1] = r.pick(&[0, 1, 15, 16, whole.roles.len() as u8]),
        2 => fields[2] = r.pick(&[0, 2 * e as u8, (2 * e as u8).wrapping_sub(1)]),
        3 => fields[3] = r.pick(&[0, 1, 2 * e as u8, (2 * e as u8).wrapping_sub(1)]),
        4..=5 => {
            let number: u16 = r.pick(&[0, 1, 2, 255, 256, 1000, 1001, 1001, 65535]);
            fields[4..].copy_from_slice(&number.to_be_bytes());
        }
        6 => fields[5] ^= 1,
        _ => fields[r.below(6)] = r.byte(),
    }
}

/// A second entry with all fields as an earlier one, where there is room.
fn twin(r: &mut Random, part: &mut Vec<u8>, whole: &Description) {
    let entries = whole.concepts.len();
    let start = r.below(entries);
    let kept = |e: &usize| !matches!(whole.concepts[*e], Concept::Top | Concept::Name);
    let e = (0..entries)
        .map(|i| (start + i) % entries)
        .find(kept)
        .unwrap_or(start);
    let fields = part[6 * e..6 * e + 6].to_vec();
    if entries < MOST_ENTRIES {
        part.extend(fields);
    } else {
        part.splice(6 * (entries - 1).., fields);
    }
}

/// An "every" whose literal is changed: most often some transitive role misses it then.
fn missing_every(r: &mut Random, whole: &Description) -> Vec<u8> {
    let mut whole = whole.clone();
    let mut places: Vec<usize> = (0..whole.concepts.len()).collect();
    r.shuffle(&mut places);
    for e in places {
        if let Concept::Every { role, literal } = whole.concepts[e] {
            if whole.roles[role].transitive || r.one_in(3) {
                let literal = if r.one_in(2) { literal ^ 1 } else { 0 };
                whole.concepts[e] = Concept::Every { role, literal };
                break;
            }
        }
    }
    match r.below(6) {
        0..=1 => {
            // A transitive role below all others.
            let last = whole.roles.len() - 1;
            whole.roles[last].transitive = true;
            whole.roles[last].parents = (1u32 << whole.roles.len()).wrapping_sub(1) as u16;
        }
        2..=3 => role_below(r, &mut whole),
        _ => {}
    }
    encode::description(&whole)
}

/// A new transitive role below one that an "every" speaks of and no count, nor one on a role above.
fn role_below(r: &mut Random, whole: &mut Description) {
    let above = |role: usize, other: usize| whole.ancestors[role] >> other & 1 == 1;
    let counts = |role: usize| {
        whole.concepts.iter().any(|c| match *c {
            Concept::AtLeast { role: other, .. } => above(role, other),
            _ => false,
        })
    };
    let places = whole.concepts.iter().filter_map(|c| match *c {
        Concept::Every { role, .. } if !counts(role) => Some(role),
        _ => None,
    });
    let places: Vec<usize> = places.collect();
    if !places.is_empty() && whole.roles.len() < MOST_ROLES {
        whole.roles.push(Role {
            transitive: true,
            parents: 1 << r.pick(&places),
        });
    }
}

/// An inclusion more or less, or another role in a count or an "every": cells have other roles.
pub fn roles(r: &mut Random, whole: &Description) -> Vec<u8> {
    let mut whole = whole.clone();
    let (one, other) = (r.below(whole.roles.len()), r.below(whole.roles.len()));
    let used = whole.concepts.iter_mut().filter_map(|c| match c {
        Concept::AtLeast { role, .. } | Concept::Every { role, .. } => Some(role),
        _ => None,
    });
    let mut used: Vec<&mut usize> = used.collect();
    if used.is_empty() || r.one_in(2) {
        whole.roles[one].parents ^= 1 << other;
    } else {
        let at = r.below(used.len());
        *used[at] = other;
    }
    encode::description(&whole)
}

fn question(r: &mut Random, part: &mut Vec<u8>, entries: usize) {
    let end = 2 * entries as u8;
    let literal = r.pick(&[end - 1, end, end, end + 1, 63, 64, 65, 127, 128, 255]);
    if r.one_in(2) {
        let at = r.below(part.len());
        part[at] = literal;
    } else {
        part.push(literal);
    }
}
