//! Edges, 13, the line that is written, and the reading of lines.

use crate::given::*;
use compare::paper::{check, read, write, Answer};

fn judged(apart: Option<&[[u8; 2]]>, masks: &[u16]) -> Answer {
    check(&described(EACH, apart), &graph(&HAS_EACH, masks))
}

fn judged_line(apart: Option<&[[u8; 2]]>, pairs: &[u16]) -> Answer {
    read(&described(EACH, apart), &line(2, pairs))
}

#[test]
fn edges() {
    for apart in [Some(&KEPT[..]), Some(&[]), None] {
        // Two edges to one node, with one of the roles each.
        let two = judged(apart, &[WITH_FIXED, WITH_STANDBY]);
        assert_eq!(two, Answer::Inhabited);
        // One edge that is both, among others or alone.
        let answer = match apart {
            Some([_]) => refused(13, 0),
            _ => Answer::Inhabited,
        };
        assert_eq!(judged(apart, &[WITH_ALL]), answer);
        assert_eq!(judged(apart, &[WITH_FIXED, WITH_STANDBY, WITH_ALL]), answer);
        // Without role 0 it is 13 anyhow.
        assert_eq!(judged(apart, &[1 << FIXED | 1 << STANDBY]), refused(13, 0));
    }
    // Any record counts, whichever way round.
    let [a, b] = KEPT[0];
    let other = [BELOW as u8, STANDBY as u8];
    assert_eq!(judged(Some(&[other]), &[WITH_ALL]), Answer::Inhabited);
    for records in [&[[b, a]][..], &[other, [a, b]], &[[b, a], other]] {
        assert_eq!(judged(Some(records), &[WITH_ALL]), refused(13, 0));
    }
    // A role in another that it never shares a filler with has no edge.
    assert_eq!(
        judged(Some(&[[a, PROBE as u8]]), &[WITH_FIXED]),
        refused(13, 0)
    );
}

#[test]
fn thirteen_has_its_place() {
    let judged = |label: &[u8]| check(&described(EACH, Some(&KEPT)), &graph(label, &[WITH_ALL]));
    // 11 and 12 come before it, 14 and 15 after it.
    assert_eq!(judged(&[0, ONE, OTHER]), refused(11, 0));
    assert_eq!(judged(&[0, ONE, EACH]), refused(12, 0));
    assert_eq!(judged(&[0, ONE, OTHER, TWO, EACH]), refused(13, 0));
}

#[test]
fn written_lines() {
    let mut buffer = [0xEE; 1 + 16 + 32];
    let one_edge = graph(&HAS_EACH, &[WITH_ALL]);
    let answer = write(&described(EACH, Some(&KEPT)), &one_edge, &mut buffer);
    assert_eq!((answer, buffer), (refused(13, 0), [0xEE; 49]));
    // Node 1 has a copy for each edge: elements 2 and 3.
    let two_edges = graph(&HAS_EACH, &[WITH_FIXED, WITH_STANDBY]);
    let row = [0, 0, WITH_FIXED, WITH_STANDBY];
    let expected = line(4, &[row, row, [0; 4], [0; 4]].concat());
    for apart in [Some(&KEPT[..]), Some(&[]), None] {
        let description = described(EACH, apart);
        let answer = write(&description, &two_edges, &mut buffer);
        assert_eq!((answer, &buffer[..]), (Answer::Written, &expected[..]));
        assert_eq!(read(&description, &expected), Answer::Holds);
    }
}

#[test]
fn lines_read() {
    for apart in [Some(&KEPT[..]), Some(&[]), None] {
        let both = match apart {
            Some([_]) => Answer::Fails,
            _ => Answer::Holds,
        };
        assert_eq!(
            judged_line(apart, &[WITH_FIXED, WITH_STANDBY, 0, 0]),
            Answer::Holds
        );
        // On one pair; also where the root does not need it, and from an element to itself.
        assert_eq!(judged_line(apart, &[0, WITH_ALL, 0, 0]), both);
        assert_eq!(
            judged_line(apart, &[WITH_FIXED, WITH_STANDBY, 0, WITH_ALL]),
            both
        );
        assert_eq!(
            judged_line(apart, &[WITH_FIXED, WITH_STANDBY, WITH_ALL, 0]),
            both
        );
        // Without role 0 the inclusions do not hold; past the table it is no line.
        assert_eq!(
            judged_line(apart, &[0, 1 << FIXED | 1 << STANDBY, 0, 0]),
            Answer::Fails
        );
        assert_eq!(
            judged_line(apart, &[0, WITH_ALL | 1 << ROLES, 0, 0]),
            refused(23, 0)
        );
    }
}

/// Any record counts, whichever way round.
#[test]
fn lines_read_with_other_records() {
    let [a, b] = KEPT[0];
    let other = [BELOW as u8, STANDBY as u8];
    assert_eq!(
        judged_line(Some(&[other]), &[0, WITH_ALL, 0, 0]),
        Answer::Holds
    );
    for records in [&[[b, a]][..], &[other, [a, b]]] {
        assert_eq!(
            judged_line(Some(records), &[0, WITH_ALL, 0, 0]),
            Answer::Fails
        );
    }
}
