//! Four pairs, the length of the fourth part, and 26.

use crate::given::*;
use compare::encode;
use compare::paper::description::Role;
use compare::paper::{check, claim, read, Answer};

/// The answer to a single node that has nothing to meet, with that fourth part.
fn with_part(part: &[u8]) -> Answer {
    let mut parts = encode::description_parts(&counted([FIXED, STANDBY], 0, None));
    parts.push(part.to_vec());
    check(&encode::join_parts(&parts), &graph(&[0], &[]))
}

#[test]
fn lengths_of_the_part() {
    let [a, b] = KEPT[0];
    let many = [a, b].repeat(17);
    assert_eq!(with_part(&[]), Answer::Inhabited);
    assert_eq!(with_part(&many[..2]), Answer::Inhabited);
    assert_eq!(with_part(&many[..32]), Answer::Inhabited);
    for length in [1, 3, 31, 33, 34] {
        assert_eq!(with_part(&many[..length]), refused(2, 0));
    }
}

#[test]
fn records_let_in_or_not() {
    let (fixed, standby, below) = (FIXED as u8, STANDBY as u8, BELOW as u8);
    let (probe, transitive, above) = (PROBE as u8, TRANSITIVE as u8, ABOVE as u8);
    let good = [
        [fixed, standby],
        [standby, fixed],
        // One is in the other, or has a parent in common with it.
        [below, fixed],
        [probe, below],
        [IN_BOTH as u8, below],
    ];
    let bad = [
        [fixed, fixed],
        [transitive, fixed],
        // Not transitive itself, and not simple.
        [fixed, above],
        [above, transitive],
        [fixed, ROLES as u8],
        [15, fixed],
        [fixed, 16],
        [255, 255],
    ];
    for record in good {
        assert_eq!(with_part(&record), Answer::Inhabited);
        assert_eq!(
            with_part(&[record, record, good[0]].concat()),
            Answer::Inhabited
        );
        for other in bad {
            assert_eq!(with_part(&other), refused(26, 0));
            assert_eq!(with_part(&[record, other].concat()), refused(26, 0));
            assert_eq!(with_part(&[other, record].concat()), refused(26, 0));
        }
    }
}

#[test]
fn the_last_role() {
    let mut description = counted([FIXED, STANDBY], 0, Some(&[[15, 0]]));
    description.roles.resize(
        16,
        Role {
            transitive: false,
            parents: 0,
        },
    );
    let node = graph(&[0], &[]);
    let bytes = encode::description(&description);
    assert_eq!(check(&bytes, &node), Answer::Inhabited);
    description.apart = Some(vec![[16, 0]]);
    assert_eq!(
        check(&encode::description(&description), &node),
        refused(26, 0)
    );
    // A transitive role below the last one.
    description.apart = Some(vec![[15, 0]]);
    description.roles[TRANSITIVE].parents |= 1 << 15;
    assert_eq!(
        check(&encode::description(&description), &node),
        refused(26, 0)
    );
}

#[test]
fn twenty_six_has_its_place() {
    let bad = [[FIXED as u8, FIXED as u8]];
    let description = described(0, Some(&bad));
    assert_eq!(check(&description, &[]), refused(26, 0));
    assert_eq!(read(&description, &[]), refused(26, 0));
    assert_eq!(claim(&description, 12, 12, &[], &[]), refused(26, 0));
    let good = described(0, Some(&KEPT));
    assert_eq!(check(&good, &[]), refused(9, 0));
    assert_eq!(read(&good, &[]), refused(23, 0));
    assert_eq!(claim(&good, 12, 12, &[], &[]), refused(24, 0));
    // 8 comes before it, and so does any other number.
    assert_eq!(check(&described(12, Some(&bad)), &[]), refused(8, 0));
    let at_above = counted([FIXED, ABOVE], 0, Some(&bad));
    assert_eq!(check(&encode::description(&at_above), &[]), refused(5, 0));
    // 2 on the fourth part comes before 3.
    let mut parts = encode::description_parts(&counted([FIXED, STANDBY], 0, None));
    parts[0][0] = 2;
    parts.push(vec![1]);
    assert_eq!(check(&encode::join_parts(&parts), &[]), refused(2, 0));
    parts[3].clear();
    assert_eq!(check(&encode::join_parts(&parts), &[]), refused(3, 0));
}

#[test]
fn pairs() {
    // Pairs alone: whole they are four parts without a byte, or three, and 2 comes.
    let four = [0, 16, 0, 0].repeat(4);
    let three = [0, 12, 0, 0].repeat(3);
    assert_eq!(check(&four, &[]), refused(2, 0));
    assert_eq!(check(&three, &[]), refused(2, 0));
    for length in 0..16 {
        assert_eq!(check(&four[..length], &[]), refused(1, 0));
    }
    for length in 0..12 {
        assert_eq!(check(&three[..length], &[]), refused(1, 0));
    }
    // The first offset decides: any other than 16 is that of three pairs, and 12 alone is right.
    for apart in [Some(&KEPT[..]), None] {
        let description = described(0, apart);
        for offset in 0..=u8::MAX {
            let mut other = description.clone();
            other[1] = offset;
            let answer = match other == description {
                true => refused(9, 0),
                false => refused(1, 0),
            };
            assert_eq!(check(&other, &[]), answer);
        }
        let mut other = description.clone();
        other[0] = 1;
        assert_eq!(check(&other, &[]), refused(1, 0));
        // A byte too many or too few.
        assert_eq!(
            check(&[&description[..], &[0]].concat(), &[]),
            refused(1, 0)
        );
        assert_eq!(
            check(&description[..description.len() - 1], &[]),
            refused(1, 0)
        );
    }
}
