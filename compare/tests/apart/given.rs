//! The description that the trials are about, with a graph and a list for it.

use compare::encode;
use compare::paper::counting::{BARRED, OPEN};
use compare::paper::description::{ancestors, Concept, Description, Role};
use compare::paper::evidence::{Closing, Counting, Edge, Node, Step, Tree};
use compare::paper::label::{Label, Literal, Width};
use compare::paper::{Answer, Refusal};

pub const PROBE: usize = 0;
/// Both are in role 0.
pub const FIXED: usize = 1;
pub const STANDBY: usize = 2;
/// In the fixed ones.
pub const BELOW: usize = 3;
/// In the fixed ones and in the standby ones.
pub const IN_BOTH: usize = 4;
/// Below the next one, which is not transitive and not simple, either.
pub const TRANSITIVE: usize = 5;
pub const ABOVE: usize = 6;
pub const ROLES: usize = 7;

/// At least one filler of each of two roles, at least two of role 0.
pub const ONE: Literal = 2;
pub const OTHER: Literal = 4;
pub const TWO: Literal = 6;
pub const NOT_TWO: Literal = 7;
/// One of each; one of each and not two.
pub const EACH: Literal = 8;
pub const ROOT: Literal = 10;

pub const KEPT: [[u8; 2]; 1] = [[FIXED as u8, STANDBY as u8]];

pub fn refused(number: u8, record: u8) -> Answer {
    Answer::Refused(Refusal { number, record })
}

/// The description with those two roles counted; `apart` is nothing with three pairs.
pub fn counted(counted: [usize; 2], root: Literal, apart: Option<&[[u8; 2]]>) -> Description {
    let role = |transitive, parents| Role {
        transitive,
        parents,
    };
    let roles = vec![
        role(false, 0),
        role(false, 1 << PROBE),
        role(false, 1 << PROBE),
        role(false, 1 << FIXED),
        role(false, 1 << FIXED | 1 << STANDBY),
        role(true, 1 << ABOVE),
        role(false, 0),
    ];
    let at_least = |number, role| Concept::AtLeast {
        number,
        role,
        literal: 0,
    };
    let concepts = vec![
        Concept::Top,
        at_least(1, counted[0]),
        at_least(1, counted[1]),
        at_least(2, PROBE),
        Concept::Both(ONE, OTHER),
        Concept::Both(EACH, NOT_TWO),
    ];
    Description {
        ancestors: ancestors(&roles),
        roles,
        concepts,
        root,
        rules: Vec::new(),
        apart: apart.map(<[[u8; 2]]>::to_vec),
    }
}

/// The description with fixed and standby probes counted.
pub fn described(root: Literal, apart: Option<&[[u8; 2]]>) -> Vec<u8> {
    encode::description(&counted([FIXED, STANDBY], root, apart))
}

/// The cells of rows "one", "other" and "not two", in this order. The rows of cells 1 and 2 leave
/// out the third, which has a role of theirs, so that a filler there would not be anything. In 3
/// and 7 are the first two rows together.
pub const CELLS: [u8; 7] = [0, 0, BARRED, OPEN, OPEN, OPEN, BARRED];

/// One of each asks for two fillers where one may be: 1 + 1 - 1 is above zero.
pub const LEAF: [u8; 3] = [1, 1, 1];

/// Nothing is not anything; nothing has the three rows; so nothing has each and not two, nor the root.
pub fn closings(cells: [u8; 7], tree: Tree) -> Vec<Closing> {
    let counting = Counting {
        rows: vec![ONE, OTHER, NOT_TWO],
        cells: cells.to_vec(),
        tree,
    };
    let both = |entry, cite| Step::Both { entry, cite };
    let records = [
        (Label::of(&[1]), Step::Clash(1)),
        (Label::of(&[ONE, OTHER, NOT_TWO]), Step::Counting(counting)),
        (Label::of(&[EACH, NOT_TWO]), both(4, 1)),
        (Label::of(&[ROOT]), both(5, 2)),
    ];
    records.map(|(label, step)| Closing { label, step }).into()
}

/// That list, up to a record.
pub fn list_to(last: usize, cells: [u8; 7]) -> Vec<u8> {
    let closings = closings(cells, Tree::Leaf(LEAF.to_vec()));
    encode::list(Width::Narrow, &closings[..=last])
}

pub fn list(cells: [u8; 7]) -> Vec<u8> {
    list_to(3, cells)
}

/// Nothing has the row "one", whose cell has that byte.
pub fn list_of_one_row(byte: u8) -> Vec<u8> {
    let counting = Counting {
        rows: vec![ONE],
        cells: vec![byte],
        tree: Tree::Leaf(vec![1]),
    };
    let closing = Closing {
        label: Label::of(&[ONE]),
        step: Step::Counting(counting),
    };
    encode::list(Width::Narrow, &[closing])
}

/// The cells with another byte in one of them.
pub fn with(cell: usize, byte: u8) -> [u8; 7] {
    let mut cells = CELLS;
    cells[cell - 1] = byte;
    cells
}

pub const WITH_FIXED: u16 = 1 << PROBE | 1 << FIXED;
pub const WITH_STANDBY: u16 = 1 << PROBE | 1 << STANDBY;
pub const WITH_ALL: u16 = WITH_FIXED | WITH_STANDBY;

/// A node with that label, and with an edge of count 1 to the other node for each mask.
pub fn graph(label: &[Literal], masks: &[u16]) -> Vec<u8> {
    let edge = |&mask: &u16| Edge {
        target: 1,
        mask,
        count: 1,
    };
    let node = |label: &[Literal], masks: &[u16]| Node {
        label: Label::of(label),
        edges: masks.iter().map(edge).collect(),
    };
    encode::graph(Width::Narrow, &[node(label, masks), node(&[0], &[])])
}

/// The label of a node with one of each.
pub const HAS_EACH: [Literal; 4] = [0, ONE, OTHER, EACH];

/// A line without names: the masks of its pairs, row by row.
pub fn line(d: usize, pairs: &[u16]) -> Vec<u8> {
    let mut bytes = vec![d as u8];
    bytes.extend(vec![0; 4 * d]);
    bytes.extend(pairs.iter().flat_map(|mask| mask.to_be_bytes()));
    bytes
}
