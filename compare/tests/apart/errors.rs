//! Each error that the comparison counts shows in an input that is made for it, and none where a
//! checker with it would be right.

use crate::given::*;
use compare::apart::{names, shown, Asked, Input};
use compare::encode;
use compare::paper::counting::{BARRED, OPEN};

/// The errors that show in an input.
fn told(description: &[u8], input: Input) -> Vec<&'static str> {
    let asked = Asked::new(description, input);
    let shown = shown(&asked, asked.list().as_ref());
    let shown = names().zip(shown).filter(|(_, shows)| *shows);
    shown.map(|(name, _)| name).collect()
}

const A: u8 = FIXED as u8;
const B: u8 = STANDBY as u8;
const OTHER_RECORD: [u8; 2] = [BELOW as u8, B];

/// With a fourth part of these bytes, and a node that has nothing to meet.
fn of_part(part: &[u8]) -> Vec<&'static str> {
    let mut parts = encode::description_parts(&counted([FIXED, STANDBY], 0, None));
    parts.push(part.to_vec());
    told(&encode::join_parts(&parts), Input::Check(&graph(&[0], &[])))
}

#[test]
fn of_records() {
    let many = [A, B].repeat(17);
    assert_eq!(of_part(&many[..3]), ["2 odd"]);
    assert_eq!(of_part(&many), ["2 long"]);
    assert_eq!(of_part(&[A, ROLES as u8]), ["26 past"]);
    assert_eq!(of_part(&[A, 16]), [""; 0]);
    assert_eq!(of_part(&[A, A]), ["26 same"]);
    assert_eq!(of_part(&[A, TRANSITIVE as u8]), ["26 simple"]);
    assert_eq!(of_part(&[A, ABOVE as u8]), ["26 simple", "26 itself"]);
    assert_eq!(of_part(&[A, B, A, A]), ["26 same", "26 first"]);
    assert_eq!(of_part(&[A, A, A, B]), ["26 same"]);
    assert_eq!(of_part(&[A, PROBE as u8]), ["26 under"]);
    assert_eq!(of_part(&[A, B, B, A]), ["26 again"]);
    assert_eq!(of_part(&[A, B]), [""; 0]);
}

#[test]
fn of_order() {
    let mut parts = encode::description_parts(&counted([FIXED, STANDBY], 12, None));
    parts.push(vec![A]);
    let odd = encode::join_parts(&parts);
    assert_eq!(told(&odd, Input::Check(&[])), ["2 odd", "2 late"]);
    let bad = [[A, A]];
    let early = described(12, Some(&bad));
    assert_eq!(told(&early, Input::Check(&[])), ["26 early"]);
    let late = described(0, Some(&bad));
    let claim = Input::Claim {
        c: 12,
        d: 0,
        first: &graph(&[0], &[]),
        second: &[],
    };
    for input in [Input::Check(&[]), Input::Read(&[]), claim] {
        assert_eq!(told(&late, input), ["26 same", "26 late"]);
    }
}

#[test]
fn of_edges() {
    let both = graph(&HAS_EACH, &[WITH_ALL]);
    let of = |records: &[[u8; 2]]| told(&described(EACH, Some(records)), Input::Check(&both));
    assert_eq!(of(&[[A, B]]), ["edge both"]);
    assert_eq!(of(&[[B, A]]), ["edge both", "edge turned"]);
    assert_eq!(of(&[OTHER_RECORD, [A, B]]), ["edge both", "edge first"]);
    assert_eq!(of(&[]), [""; 0]);
    let description = described(EACH, Some(&KEPT));
    let written = told(&description, Input::Write(&both, 100));
    assert_eq!(written, ["edge both", "edge written"]);
    let two = graph(&HAS_EACH, &[WITH_FIXED, WITH_STANDBY]);
    assert_eq!(told(&description, Input::Check(&two)), ["edge joined"]);
    // The second piece of a claim.
    let list = list_to(2, CELLS);
    let claim = |second| Input::Claim {
        c: EACH,
        d: TWO,
        first: &list,
        second,
    };
    assert!(told(&description, claim(&both)).contains(&"edge both"));
    assert!(told(&description, claim(&two)).contains(&"edge joined"));
}

#[test]
fn of_lines() {
    let of = |records: &[[u8; 2]], pairs: [u16; 4]| {
        let description = described(EACH, Some(records));
        told(&description, Input::Read(&line(2, &pairs)))
    };
    let both = [0, WITH_ALL, 0, 0];
    assert_eq!(of(&KEPT, both), ["line both", "line form"]);
    let two = of(&[OTHER_RECORD, [A, B]], both);
    assert_eq!(two, ["line both", "line first", "line form"]);
    // It fails without the record, too: the inclusions do not hold.
    let alone = 1 << FIXED | 1 << STANDBY;
    assert_eq!(of(&KEPT, [0, alone, 0, 0]), ["line form"]);
    assert_eq!(of(&KEPT, [0, WITH_FIXED, 0, 0]), [""; 0]);
}

#[test]
fn of_cells() {
    let of = |apart: Option<&[[u8; 2]]>, cells: [u8; 7]| {
        told(&described(ROOT, apart), Input::Check(&list(cells)))
    };
    // A tree that took barred cells for open ones would not close.
    assert_eq!(of(Some(&KEPT), CELLS), ["cell split"]);
    let second = of(Some(&[OTHER_RECORD, [A, B]]), CELLS);
    assert_eq!(second, ["cell first", "cell split"]);
    assert_eq!(of(Some(&KEPT), with(3, OPEN)), ["cell open"]);
    assert_eq!(of(Some(&KEPT), with(3, 0)), ["cell cited"]);
    // Record 0 would not do there even if the cell were not barred.
    assert_eq!(of(Some(&KEPT), with(7, 0)), [""; 0]);
    assert_eq!(of(Some(&KEPT), with(1, BARRED)), ["cell any"]);
    assert_eq!(of(Some(&KEPT), with(3, 1)), ["cell number"]);
    assert_eq!(of(Some(&KEPT), with(1, 1)), [""; 0]);
    assert_eq!(of(None, CELLS), ["cell three"]);
    assert_eq!(of(None, [0, 0, 0, OPEN, OPEN, OPEN, OPEN]), [""; 0]);
    assert_eq!(of(Some(&[]), CELLS), ["cell none"]);

    let below = counted([BELOW, STANDBY], ROOT, Some(&KEPT));
    let below = told(&encode::description(&below), Input::Check(&list(CELLS)));
    assert_eq!(below, ["cell own", "cell split"]);
    let in_both = counted([IN_BOTH, STANDBY], ONE, Some(&KEPT));
    let one_row = list_of_one_row(BARRED);
    let alone = told(&encode::description(&in_both), Input::Check(&one_row));
    assert_eq!(alone, ["cell own", "cell alone", "cell split"]);
}
