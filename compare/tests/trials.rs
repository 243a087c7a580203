//! The paper's trial descriptions P1 to P10, claims about that of P3 to P7, cells of two rows, and
//! tables at both sides of 32 and of 64 entries, by the implementation alone.

use compare::encode;
use compare::paper::counting::OPEN;
use compare::paper::description::{ancestors, Concept, Description, Role};
use compare::paper::evidence::{Closing, Counting, Edge, Node, Step, Tree};
use compare::paper::label::{Label, Literal, Width};
use compare::paper::{check, claim, read, write, Answer, Refusal};

const P1: [u8; 22] = [
    0, 0x0C, 0, 3, 0, 0x0F, 0, 6, 0, 0x15, 0, 1, 0, 0, 0, 0, 0, 0, 0, 0, 0, 0,
];

fn refused(number: u8, record: u8) -> Answer {
    Answer::Refused(Refusal { number, record })
}

fn described(roles: Vec<Role>, concepts: Vec<Concept>, root: u8) -> Vec<u8> {
    encode::description(&Description {
        ancestors: ancestors(&roles),
        roles,
        concepts,
        root,
        rules: Vec::new(),
        apart: None,
    })
}

fn role(transitive: bool, parents: u16) -> Role {
    Role {
        transitive,
        parents,
    }
}

fn at_least(number: u16, role: usize) -> Concept {
    Concept::AtLeast {
        number,
        role,
        literal: 0,
    }
}

/// The description of P3 to P7.
fn counted(root: u8) -> Vec<u8> {
    let concepts = vec![
        Concept::Top,
        at_least(2, 0),
        at_least(3, 0),
        Concept::Both(2, 5),
        Concept::Both(3, 4),
    ];
    described(vec![role(false, 0)], concepts, root)
}

fn two_nodes(count: u16) -> Vec<u8> {
    fillers(&[0, 2, 5, 6], count)
}

/// A node with that label and so many fillers.
fn fillers(label: &[Literal], count: u16) -> Vec<u8> {
    let edge = Edge {
        target: 1,
        mask: 1,
        count,
    };
    encode::graph(
        Width::Narrow,
        &[
            Node {
                label: Label::of(label),
                edges: vec![edge],
            },
            Node {
                label: Label::of(&[0]),
                edges: Vec::new(),
            },
        ],
    )
}

fn closing(leaf: [u8; 2]) -> Vec<u8> {
    encode::list(Width::Narrow, &closings(leaf))
}

fn closings(leaf: [u8; 2]) -> [Closing; 3] {
    let counting = Counting {
        rows: vec![3, 4],
        cells: vec![0, 0, OPEN],
        tree: Tree::Leaf(leaf.to_vec()),
    };
    let records = [
        (Label::of(&[1]), Step::Clash(1)),
        (Label::of(&[3, 4]), Step::Counting(counting)),
        (Label::of(&[8]), Step::Both { entry: 4, cite: 1 }),
    ];
    records.map(|(label, step)| Closing { label, step })
}

#[test]
fn p1_p2_p10() {
    let graph = [1, 1, 0, 6, 0, 8, 0, 0, 0, 0, 0, 0, 0, 1];
    assert_eq!(check(&P1, &graph), Answer::Inhabited);
    assert_eq!(check(&P1, &[]), refused(9, 0));
    let mut p2 = P1;
    p2[21] = 1;
    let list = encode::list(
        Width::Narrow,
        &[Closing {
            label: Label::of(&[1]),
            step: Step::Clash(1),
        }],
    );
    assert_eq!(check(&p2, &list), Answer::Empty);
}

#[test]
fn p3_p4_p5() {
    assert_eq!(check(&counted(6), &two_nodes(2)), Answer::Inhabited);
    assert_eq!(check(&counted(6), &two_nodes(1)), refused(15, 0));
    assert_eq!(check(&counted(6), &two_nodes(3)), refused(15, 0));
    let mut line = [0xEE; 50];
    let answer = write(&counted(6), &two_nodes(2), &mut line);
    assert_eq!(answer, Answer::Written);
    let mut expected = [0; 50];
    expected[0] = 4;
    for (x, y) in [(0, 2), (0, 3), (1, 2), (1, 3)] {
        expected[1 + 16 + 2 * (4 * x + y) + 1] = 1;
    }
    expected[49] = 0xEE;
    assert_eq!(line, expected);
    assert_eq!(read(&counted(6), &line[..49]), Answer::Holds);
    let mut short = [0xEE; 48];
    let answer = write(&counted(6), &two_nodes(2), &mut short);
    assert_eq!((answer, short), (refused(22, 0), [0xEE; 48]));
}

#[test]
fn p6_p7() {
    assert_eq!(check(&counted(8), &closing([1, 1])), Answer::Empty);
    assert_eq!(check(&counted(8), &closing([1, 0])), refused(19, 1));
}

/// The answer on a list for: nothing has at most 1 filler of role 0 with the name and at least 3 of
/// the second role with it.
/// A cell that is shut has the name by its own row and lacks it by the other row.
fn two_rows(second: usize, parents: u16, cells: [u8; 3]) -> Answer {
    let named = |number, role| Concept::AtLeast {
        number,
        role,
        literal: 2,
    };
    let concepts = vec![
        Concept::Top,
        Concept::Name,
        named(2, 0),
        named(3, second),
        Concept::Both(5, 6),
    ];
    let roles = vec![role(false, 0), role(false, parents)];
    let counting = Counting {
        rows: vec![5, 6],
        cells: cells.to_vec(),
        tree: Tree::Leaf(vec![1, 1]),
    };
    let records = [
        (Label::of(&[2, 3]), Step::Clash(2)),
        (Label::of(&[5, 6]), Step::Counting(counting)),
        (Label::of(&[8]), Step::Both { entry: 4, cite: 1 }),
    ];
    let closings = records.map(|(label, step)| Closing { label, step });
    let list = encode::list(Width::Narrow, &closings);
    check(&described(roles, concepts, 8), &list)
}

#[test]
fn cells_of_two_rows() {
    // Both rows have role 0: each denies its qualifier in the cell of the other.
    assert_eq!(two_rows(0, 0, [OPEN, 0, OPEN]), Answer::Empty);
    assert_eq!(two_rows(0, 0, [0, 0, OPEN]), Answer::Empty);
    assert_eq!(two_rows(0, 0, [0, OPEN, OPEN]), refused(19, 1));
    assert_eq!(two_rows(0, 0, [OPEN, 0, 0]), refused(18, 1));
    // Row 1 has role 1, which is not included in role 0, or is.
    assert_eq!(two_rows(1, 0, [OPEN, 0, OPEN]), refused(18, 1));
    assert_eq!(two_rows(1, 1, [OPEN, 0, OPEN]), Answer::Empty);
    // Cell 1, of row 0 alone, has not role 1 even so.
    assert_eq!(two_rows(1, 1, [0, 0, OPEN]), refused(18, 1));
}

#[test]
fn p8_p9() {
    let roles = vec![role(true, 2), role(false, 0)];
    let every = Concept::Every {
        role: 1,
        literal: 0,
    };
    let p8 = described(roles.clone(), vec![Concept::Top, every], 0);
    assert_eq!(check(&p8, &[]), refused(7, 0));
    let p9 = described(roles, vec![Concept::Top, at_least(1, 1)], 0);
    assert_eq!(check(&p9, &[]), refused(5, 0));
}

/// Nothing has at least 3 fillers and not at least 2.
fn three_are_two(leaf: [u8; 2]) -> Vec<u8> {
    encode::list(Width::Narrow, &closings(leaf)[..2])
}

#[test]
fn claims_answered() {
    // The root is not used, whatever it is.
    for root in 0..10 {
        let description = counted(root);
        let judge = |c, d, first: &[u8], second: &[u8]| claim(&description, c, d, first, second);
        let three = fillers(&[0, 4], 3);
        let holds = judge(4, 2, &three_are_two([1, 1]), &three);
        assert_eq!(holds, Answer::Holds);
        assert_eq!(judge(2, 4, &two_nodes(2), &[]), Answer::Fails);
        for d in 0..10 {
            let nothing = judge(8, d, &closing([1, 1]), &[]);
            assert_eq!(nothing, Answer::HoldsOfNothing);
        }
        // Every C is C, once there is a C; "every C is not C" then fails.
        let clash = Closing {
            label: Label::of(&[0, 4, 5]),
            step: Step::Clash(5),
        };
        assert_eq!(
            judge(4, 4, &encode::list(Width::Narrow, &[clash]), &three),
            Answer::Holds
        );
        assert_eq!(judge(4, 5, &three, &[]), Answer::Fails);
    }
}

#[test]
fn claims_without_their_literals() {
    let judge = |c, d, first: &[u8], second: &[u8]| claim(&counted(0), c, d, first, second);
    let (list, three, two) = (
        three_are_two([1, 1]),
        fillers(&[0, 4], 3),
        fillers(&[0, 2], 2),
    );
    // The list needs "not D", which HOLDS OF NOTHING does not allow.
    assert_eq!(judge(4, 2, &list, &[]), refused(20, 1));
    assert_eq!(judge(4, 3, &list, &three), refused(20, 1));
    assert_eq!(judge(8, 2, &list, &three), refused(20, 1));
    // A graph of something else, and one that leaves D open.
    assert_eq!(judge(4, 2, &list, &two), refused(11, 0));
    assert_eq!(judge(2, 4, &two, &[]), refused(11, 0));
    assert_eq!(judge(4, 2, &three, &[]), refused(11, 0));
}

#[test]
fn claims_refused_in_order() {
    let judge = |c, d, first: &[u8], second: &[u8]| claim(&counted(0), c, d, first, second);
    let (list, three) = (three_are_two([1, 1]), fillers(&[0, 4], 3));
    assert_eq!(claim(&counted(10), 10, 2, &[], &[]), refused(8, 0));
    // C or D past the table comes before 9, unfit kinds after it.
    for past in [10, 11, 63, 64, 255] {
        assert_eq!(judge(past, 2, &[], &[]), refused(24, 0));
        assert_eq!(judge(4, past, &list, &three), refused(24, 0));
    }
    for (first, second) in [(&three, &list), (&list, &list), (&three, &three)] {
        assert_eq!(judge(4, 2, first, second), refused(24, 0));
        assert_eq!(judge(4, 2, first, &second[..1]), refused(9, 0));
    }
    assert_eq!(judge(4, 2, &[], &three), refused(9, 0));
    assert_eq!(judge(4, 2, &[], &[]), refused(9, 0));
    // The first piece whole before the second, whose record 1 is cut here.
    let mut cut = three.clone();
    cut.pop();
    let length = 2 + 4 * 2 - 1;
    cut[length] -= 1;
    assert_eq!(judge(4, 2, &three_are_two([1, 0]), &cut), refused(19, 1));
    assert_eq!(judge(4, 3, &list, &cut), refused(20, 1));
    assert_eq!(judge(4, 2, &list, &cut), refused(10, 1));
}

/// Top and names, so many entries in all.
fn named(entries: usize, root: Literal) -> Vec<u8> {
    let mut concepts = vec![Concept::Name; entries];
    concepts[0] = Concept::Top;
    described(vec![role(false, 0)], concepts, root)
}

/// A graph of one node without edges.
fn single(width: Width, label: &[Literal]) -> Vec<u8> {
    let label = Label::of(label);
    let edges = Vec::new();
    encode::graph(width, &[Node { label, edges }])
}

#[test]
fn widths_of_graphs() {
    for entries in [1, 31, 32, 33, 34, 63, 64] {
        let last = 2 * entries as Literal - 2;
        let description = named(entries, last);
        let width = match entries {
            ..=32 => Width::Narrow,
            _ => Width::Wide,
        };
        let right = single(width, &[0, last]);
        assert_eq!(check(&description, &right), Answer::Inhabited);
        assert_eq!(
            claim(&description, last, last + 1, &right, &[]),
            Answer::Fails
        );
        let other = single(width.other(), &[0, last]);
        assert_eq!(check(&description, &other), refused(10, 0));
        assert_eq!(
            claim(&description, last, last + 1, &other, &[]),
            refused(10, 0)
        );
        // The first literal past the table, where a label has a bit for it.
        if last + 2 < 8 * width.label() as Literal {
            let past = single(width, &[0, last, last + 2]);
            assert_eq!(check(&description, &past), refused(11, 0));
        }
        assert_eq!(check(&named(entries, last + 2), &right), refused(8, 0));
        assert_eq!(
            claim(&description, 0, last + 2, &right, &[]),
            refused(24, 0)
        );
    }
    assert_eq!(
        check(&named(65, 0), &single(Width::Wide, &[0])),
        refused(2, 0)
    );
}

#[test]
fn widths_of_lines() {
    // The name entries 31, 32 and 63, the last ones of their tables.
    let masks: [(usize, &[u8]); 3] = [
        (32, &[0x80, 0, 0, 0]),
        (33, &[0, 0, 0, 1, 0, 0, 0, 0]),
        (64, &[0x80, 0, 0, 0, 0, 0, 0, 0]),
    ];
    for (entries, mask) in masks {
        let last = 2 * entries as Literal - 2;
        let description = named(entries, last);
        let graph = single(Width::of_table(entries), &[0, last]);
        let line = [&[1], mask, &[0, 0]].concat();
        let mut buffer = vec![0xEE; line.len()];
        let answer = write(&description, &graph, &mut buffer[1..]);
        assert_eq!((answer, buffer[1]), (refused(22, 0), 0xEE));
        let answer = write(&description, &graph, &mut buffer);
        assert_eq!((answer, &buffer), (Answer::Written, &line));
        assert_eq!(read(&description, &line), Answer::Holds);
        assert_eq!(read(&named(entries, last + 1), &line), Answer::Fails);
        // One entry less, and the bit is for none; a byte less, and the masks are too short.
        assert_eq!(read(&named(entries - 1, 0), &line), refused(23, 0));
        assert_eq!(read(&description, &line[..line.len() - 1]), refused(23, 0));
    }
}

#[test]
fn widths_of_lists() {
    let mut concepts = vec![Concept::Name; 64];
    concepts[0] = Concept::Top;
    concepts[63] = Concept::Both(124, 125);
    let description = described(vec![role(false, 0)], concepts, 126);
    let records = [
        (Label::of(&[124, 125]), Step::Clash(124)),
        (Label::of(&[126]), Step::Both { entry: 63, cite: 0 }),
    ];
    let closings = records.map(|(label, step)| Closing { label, step });
    let list = |width| encode::list(width, &closings);
    assert_eq!(check(&description, &list(Width::Wide)), Answer::Empty);
    assert_eq!(check(&description, &list(Width::Narrow)), refused(10, 0));
}

/// A counting step with an 8-byte label has a form with a 16-byte label, too, and is judged by it:
/// its bytes from 06 on are the literals below 64 then, and its multipliers are a clash.
#[test]
fn lists_with_both_forms() {
    let list = |front: u8, l: u8| {
        let cells = [0xFF, 0xFF, 0xFF];
        let record = [
            &[front, 0, 0, 0, 0, 0, 0, 0, 6, 2, 2, 4],
            &cells[..],
            &[0, 1, l],
        ]
        .concat();
        encode::bundle(2, &[record])
    };
    let description = named(33, 0);
    assert_eq!(check(&description, &list(0, 24)), refused(20, 0));
    assert_eq!(check(&description, &list(0, 0)), refused(17, 0));
    assert_eq!(check(&description, &list(0, 66)), refused(16, 0));
    assert_eq!(check(&description, &list(0x80, 24)), refused(16, 0));
    assert_eq!(check(&named(32, 0), &list(0, 24)), refused(17, 0));
}
