//! Cells that are barred by their roles, 16, 18 and 19.

use crate::given::*;
use compare::encode;
use compare::paper::counting::{BARRED, OPEN};
use compare::paper::evidence::Tree;
use compare::paper::label::{Literal, Width};
use compare::paper::{check, claim, Answer};

fn judged(apart: Option<&[[u8; 2]]>, cells: [u8; 7]) -> Answer {
    check(&described(ROOT, apart), &list(cells))
}

#[test]
fn barred_cells_have_their_mark() {
    assert_eq!(judged(Some(&KEPT), CELLS), Answer::Empty);
    for cell in [3, 7] {
        // An earlier record, be it one that would do for cell 3, and the open mark.
        assert_eq!(judged(Some(&KEPT), with(cell, 0)), refused(18, 1));
        assert_eq!(judged(Some(&KEPT), with(cell, OPEN)), refused(18, 1));
        // No earlier record is 16 there as elsewhere.
        for byte in [1, 2, 3, 4, 63, 64, 253] {
            assert_eq!(judged(Some(&KEPT), with(cell, byte)), refused(16, 1));
        }
    }
}

#[test]
fn other_cells_have_not() {
    for cell in [1, 2, 4, 5, 6] {
        assert_eq!(judged(Some(&KEPT), with(cell, BARRED)), refused(18, 1));
    }
    // Cells 1 and 2 may be open as well; then they hold fillers that no upper row counts.
    assert_eq!(judged(Some(&KEPT), with(1, OPEN)), refused(19, 1));
    assert_eq!(judged(Some(&KEPT), with(4, 0)), refused(18, 1));
}

#[test]
fn without_records() {
    // With four pairs the mark is one, with three it is no earlier record.
    assert_eq!(judged(Some(&[]), CELLS), refused(18, 1));
    assert_eq!(judged(None, CELLS), refused(16, 1));
    for apart in [Some(&[][..]), None] {
        // Cell 3 knows that its fillers are not anything, cell 7 is open, and one filler is enough.
        assert_eq!(
            judged(apart, [0, 0, 0, OPEN, OPEN, OPEN, OPEN]),
            refused(19, 1)
        );
        assert_eq!(
            judged(apart, [0, 0, 0, OPEN, OPEN, OPEN, 0]),
            refused(18, 1)
        );
    }
    // Even where 16 and 18 would come in other cells, too.
    assert_eq!(
        judged(None, [0, 0, BARRED, 0, OPEN, OPEN, OPEN]),
        refused(16, 1)
    );
    assert_eq!(
        judged(Some(&[]), [0, 0, BARRED, 1, OPEN, OPEN, OPEN]),
        refused(16, 1)
    );
}

#[test]
fn any_record_bars() {
    let [a, b] = KEPT[0];
    let other = [BELOW as u8, STANDBY as u8];
    let many: Vec<[u8; 2]> = vec![[b, a]; 16];
    for records in [&[[b, a]][..], &[[a, b], [b, a]], &[other, [a, b]], &many] {
        assert_eq!(judged(Some(records), CELLS), Answer::Empty);
    }
    // A record on another role: the rows of cells 3 and 7 do not have it.
    assert_eq!(judged(Some(&[other]), CELLS), refused(18, 1));
    // One on role 0 bars the cells of that row, too.
    let wide = [[PROBE as u8, a]];
    assert_eq!(judged(Some(&wide), CELLS), refused(18, 1));
    let cells = [BARRED, 0, BARRED, OPEN, BARRED, OPEN, BARRED];
    assert_eq!(judged(Some(&wide), cells), Answer::Empty);
}

#[test]
fn ancestors_bar() {
    let of = |roles, records: &[[u8; 2]]| {
        let description = counted(roles, ROOT, Some(records));
        check(&encode::description(&description), &list(CELLS))
    };
    assert_eq!(of([BELOW, STANDBY], &KEPT), Answer::Empty);
    assert_eq!(of([STANDBY, BELOW], &KEPT), Answer::Empty);
    // The record is on the role below, which the fixed ones need not have.
    assert_eq!(
        of([FIXED, STANDBY], &[[BELOW as u8, STANDBY as u8]]),
        refused(18, 1)
    );
    // The row itself has both roles by its ancestors: cells 1 and 5 are barred as well.
    assert_eq!(of([IN_BOTH, PROBE], &KEPT), refused(18, 1));
}

/// The answer to "at least one of that role", ruled out by a cell with that byte.
fn one_row(role: usize, byte: u8, records: &[[u8; 2]]) -> Answer {
    let description = counted([role, STANDBY], ONE, Some(records));
    check(&encode::description(&description), &list_of_one_row(byte))
}

#[test]
fn one_row_bars_its_cell() {
    assert_eq!(one_row(IN_BOTH, BARRED, &KEPT), Answer::Empty);
    assert_eq!(one_row(IN_BOTH, OPEN, &KEPT), refused(18, 0));
    assert_eq!(one_row(IN_BOTH, 0, &KEPT), refused(16, 0));
    assert_eq!(one_row(BELOW, BARRED, &KEPT), refused(18, 0));
    assert_eq!(one_row(BELOW, OPEN, &KEPT), refused(19, 0));
    // One role of the record in the other: it has no fillers at all.
    assert_eq!(
        one_row(BELOW, BARRED, &[[BELOW as u8, PROBE as u8]]),
        Answer::Empty
    );
    assert_eq!(
        one_row(FIXED, BARRED, &[[BELOW as u8, PROBE as u8]]),
        refused(18, 0)
    );
}

#[test]
fn barred_cells_are_not_split() {
    let tree = |cell| {
        let leaf = || Box::new(Tree::Leaf([&LEAF[..], &[0]].concat()));
        Tree::Split {
            cell,
            value: 0,
            at_most: leaf(),
            at_least: leaf(),
        }
    };
    for cell in 1..=7 {
        let list = encode::list(Width::Narrow, &closings(CELLS, tree(cell)));
        let answer = match cell {
            4..=6 => Answer::Empty,
            _ => refused(19, 1),
        };
        assert_eq!(check(&described(ROOT, Some(&KEPT)), &list), answer);
    }
}

#[test]
fn claims_by_lists() {
    let judge = |apart, c: Literal, d: Literal, first: &[u8], second: &[u8]| {
        claim(&described(0, apart), c, d, first, second)
    };
    let two_edges = graph(&HAS_EACH, &[WITH_FIXED, WITH_STANDBY]);
    // Who has one of each has two, and there is such a one.
    let (two, empty) = (list_to(2, CELLS), []);
    assert_eq!(
        judge(Some(&KEPT), EACH, TWO, &two, &two_edges),
        Answer::Holds
    );
    assert_eq!(judge(None, EACH, TWO, &two, &two_edges), refused(16, 1));
    assert_eq!(
        judge(Some(&[]), EACH, TWO, &two, &two_edges),
        refused(18, 1)
    );
    // The graph is the second piece, and its one edge has both roles.
    let one_edge = graph(&HAS_EACH, &[WITH_ALL]);
    assert_eq!(
        judge(Some(&KEPT), EACH, TWO, &two, &one_edge),
        refused(13, 0)
    );
    for apart in [Some(&KEPT[..]), Some(&[]), None] {
        let exception = graph(&[0, ONE, OTHER, NOT_TWO, EACH], &[WITH_ALL]);
        let answer = match apart {
            Some([_]) => refused(13, 0),
            _ => Answer::Fails,
        };
        assert_eq!(judge(apart, EACH, TWO, &exception, &empty), answer);
    }
    let nothing = judge(Some(&KEPT), ROOT, 0, &list(CELLS), &empty);
    assert_eq!(nothing, Answer::HoldsOfNothing);
}
