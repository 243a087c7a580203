//! The editor of this implementation alone: each clause on both sides, worked out by hand, and the
//! scripts of `crates/editor_vectors/data`.

use compare::paper::editor::{Editor, Held, Operation};
use compare::paper::{Answer, Refusal};
use std::path::Path;

/// An operation as the scripts have it.
fn operation(word: &str) -> Operation {
    let numbers = word[1..].split(',').filter(|n| !n.is_empty());
    let numbers: Vec<usize> = numbers.map(|n| n.parse().expect("a number")).collect();
    let byte = |i: usize| u8::try_from(numbers[i]).expect("a byte");
    match (&word[..1], numbers.len()) {
        ("S", 0) => Operation::Start,
        ("R", 1) => Operation::Role(byte(0)),
        ("I", 2) => Operation::Inclusion {
            role: byte(0),
            parent: byte(1),
        },
        ("C", 5) => {
            let [high, low] = u16::try_from(numbers[4]).expect("16 bits").to_be_bytes();
            Operation::Concept([byte(0), byte(1), byte(2), byte(3), high, low])
        }
        ("Q", 1) => Operation::Root(byte(0)),
        ("U", 1) => Operation::Rule(byte(0)),
        ("W", 1) => Operation::Write(numbers[0]),
        _ => panic!("{word} is no operation"),
    }
}

/// The answer to an operation as the scripts have it: 0 or a number, and bytes written.
fn answer(editor: &mut Editor, operation: Operation) -> String {
    let old = editor.clone();
    let Operation::Write(room) = operation else {
        return match editor.apply(operation) {
            Answer::Done => "0".into(),
            Answer::Refused(Refusal { number, record: 0 }) => {
                assert_eq!(*editor, old, "{operation} is refused");
                number.to_string()
            }
            other => panic!("{other:?} to {operation}"),
        };
    };
    let pattern: Vec<u8> = (0..room).map(|i| (i * 7 + 3) as u8).collect();
    let mut buffer = pattern.clone();
    match editor.write(&mut buffer) {
        Answer::Written => {
            let length = editor.bytes().expect("a description").len();
            assert_eq!(buffer[length..], pattern[length..], "behind the bytes");
            let hex = buffer[..length].iter().map(|b| format!("{b:02x}"));
            format!("0:{}", hex.collect::<String>())
        }
        Answer::Refused(Refusal { number, record: 0 }) => {
            assert_eq!(buffer, pattern, "a refusal leaves all bytes");
            number.to_string()
        }
        other => panic!("{other:?} to {operation}"),
    }
}

fn run(script: &str) -> (Editor, String) {
    let mut editor = Editor::default();
    let words = script.split(' ').map(operation);
    let answers: Vec<String> = words.map(|word| answer(&mut editor, word)).collect();
    (editor, answers.join(" "))
}

/// Scripts in which each operation that is refused has its number; `T` stands for top.
fn hold(scripts: &[&str]) {
    for script in scripts {
        let mut editor = Editor::default();
        for word in script.replace('T', "C0,0,0,0,0").split(' ') {
            let (word, expected) = word.split_once('=').unwrap_or((word, "0"));
            let found = answer(&mut editor, operation(word));
            assert_eq!(found, expected, "{word} in {script}");
        }
    }
}

/// Each of the scripts after the same start.
fn hold_after(start: &str, scripts: &[&str]) {
    for script in scripts {
        hold(&[&format!("{start}{script}")]);
    }
}

/// The 16th role is the last; 25 comes before 3.
#[test]
fn roles() {
    hold(&["R0 R1 R2=3 R255=3 R0"]);
    let scripts = [
        "R2=3 R1 R0=25 R1=25",
        "R0 R2=25 R255=25",
        "R1 R0=25 S R0 R2=3",
    ];
    hold_after(&"R0 ".repeat(15), &scripts);
    hold_after(&"R1 ".repeat(15), &scripts);
}

/// Each operand at the last role and past it; 3 comes before 5 and 7.
#[test]
fn operands() {
    hold(&[
        "I0,0=3 R0 I0,0 I0,1=3 I1,0=3",
        "R0 R0 I1,0 I0,1 I2,0=3 I0,2=3 I2,2=3",
        "R0 R0 I0,8=3 I8,0=3 I16,0=3 I0,16=3 I255,0=3 I0,255=3",
        "R1 R0 T C4,1,0,0,1 I0,2=3 I2,1=3 I0,1=5",
        "R1 R0 T C3,1,0,0,0 I0,2=3 I2,1=3 I0,1=7",
    ]);
    // A full table takes inclusions all the same.
    let inclusions = "I15,0 I0,15 I15,15 I15,16=3 I16,15=3 I8,7";
    let roles = "R0 ".repeat(16);
    hold_after(&roles, &[inclusions]);
    let (editor, _) = run(&format!("{roles}{}", inclusions.replace("=3", "")));
    let parents = [(15, [0x80, 0x01]), (0, [0x80, 0x00]), (8, [0x00, 0x80])];
    for (role, bits) in parents {
        assert_eq!(editor.roles[role][1..], bits, "role {role}");
    }
}

/// The own bit is set like any other, and a bit that is set stays.
#[test]
fn own_bit() {
    let bytes = "0:000c0003000f000600150001000001000000000000";
    let (_, found) = run("R0 C0,0,0,0,0 Q0 I0,0 W22 I0,0 W22");
    assert_eq!(found, format!("0 0 0 0 {bytes}00 0 {bytes}00"));
    hold(&["R1 T C3,0,0,0,0 I0,0 C3,0,1,0,0 C4,0,0,0,1=5"]);
}

/// An inclusion that harms the parent itself.
#[test]
fn harm() {
    hold(&[
        // 5 alone: role 1 is counted, and role 0 is transitive or not.
        "R1 R0 T C4,1,0,0,1 I0,1=5 I1,0",
        "R0 R0 T C4,1,0,0,1 I0,1 I1,0",
        // 7 alone, until the "every" is there, with the same literal.
        "R1 R0 T C3,1,0,0,0 I0,1=7",
        "R1 R0 T C3,1,0,0,0 C3,0,1,0,0 I0,1=7",
        "R1 R0 T C3,1,0,0,0 I0,1=7 C3,0,0,0,0 I0,1",
        // Both: 5, also where 7 is of another role than 5.
        "R1 R0 T C4,1,0,0,1 C3,1,0,0,0 I0,1=5",
        "R1 R0 T C3,1,0,0,0 C4,1,0,0,1 I0,1=5",
        "R1 R0 R0 T C3,1,0,0,0 C4,2,0,0,1 I1,2 I0,1=5",
        "R1 R0 T C4,1,0,0,1 C3,1,0,0,0 C3,0,0,0,0 I0,1=5",
        // Two transitive roles that include each other.
        "R1 R1 T C3,0,0,0,0 I1,0=7 I0,1",
        "R1 R1 T C3,0,0,0,0 C3,1,0,0,0 I1,0 I0,1",
    ]);
}

/// Role 0 is transitive and below role 1, role 2 is below role 3: role 1 is put under role 2, and
/// the harm is to role 3, by role 0.
#[test]
fn third_role() {
    hold(&[
        "R1 R0 R0 R0 T C4,3,0,0,1 I0,1 I2,3 I1,2=5",
        "R1 R0 R0 R0 T C3,3,0,0,0 I0,1 I2,3 I1,2=7",
        "R1 R0 R0 R0 T C3,3,0,0,0 C4,3,0,0,1 I0,1 I2,3 I1,2=5",
        "R0 R0 R0 R0 T C3,3,0,0,0 C4,3,0,0,1 I0,1 I2,3 I1,2",
        "R1 R0 R0 R0 T C3,3,0,0,0 C3,0,0,0,0 I0,1 I2,3 I1,2",
        // Refused, it changes nothing: role 2 may still be counted.
        "R1 R0 R0 R0 T C4,3,0,0,1 I0,1 I2,3 I1,2=5 C4,2,0,0,1 I1,2=5",
        // Done, it is seen in roles 1, 2 and 3.
        "R1 R0 R0 R0 T I0,1 I2,3 I1,2 C4,3,0,0,1=5 C4,2,0,0,1=5 C4,1,0,0,1=5",
        "R1 R0 R0 R0 T I0,1 I2,3 I1,2 C3,3,0,0,0=7 C3,0,0,0,0 C3,3,0,0,0",
        // Not in a role that is in neither chain.
        "R1 R0 R0 R0 R0 T I0,1 I2,3 I1,2 C4,4,0,0,1 C3,4,0,0,0 I4,3",
    ]);
    let (editor, _) = run("R1 R0 R0 R0 I0,1 I2,3 I1,2");
    let held = |transitive, parents, ancestors, simple| Held {
        transitive,
        parents,
        ancestors,
        simple,
    };
    let expected = [
        held(true, 0b0010, 0b1111, false),
        held(false, 0b0100, 0b1110, false),
        held(false, 0b1000, 0b1100, false),
        held(false, 0b0000, 0b1000, false),
    ];
    assert_eq!(editor.held(), expected);
}

#[test]
fn entries() {
    hold(&[
        // Top is entry 0 and no other.
        "C1,0,0,0,0=4 T T=4 C1,0,0,0,0 C5,0,0,0,0=4",
        // Roles of the table; without one there are no kinds 3 and 4.
        "T C3,0,0,0,0=4 C4,0,0,0,1=4 R0 C3,0,0,0,0 C4,0,0,0,1 C3,1,0,0,0=4 C4,1,0,0,1=4",
        // Literals 2e-1 and 2e of entry e = 1, then 2.
        "T C2,0,2,0,0=4 C2,0,0,2,0=4 C2,0,1,1,0 C2,0,3,3,0",
        "R0 T C3,0,2,0,0=4 C3,0,1,0,0 C4,0,4,0,1=4 C4,0,3,0,1",
        // Numbers 0, 1, 1,000 and 1,001.
        "R0 T C4,0,0,0,0=4 C4,0,0,0,1 C4,0,0,0,1000 C4,0,0,0,1001=4 C4,0,0,0,65535=4",
        // Unused fields.
        "R0 T C1,1,0,0,0=4 C1,0,1,0,0=4 C1,0,0,1,0=4 C1,0,0,0,1=4 C1,0,0,0,256=4",
        "R0 R0 T C2,1,0,0,0=4 C2,0,0,0,1=4 C3,0,0,1,0=4 C3,0,0,0,1=4 C4,0,0,1,1=4",
        "C0,1,0,0,0=4 C0,0,1,0,0=4 C0,0,0,1,0=4 C0,0,0,0,1=4 T",
        // Twins: all fields the same. A turned "both" and another number are none, nor are names.
        "T C2,0,0,1,0 C2,0,0,1,0=6 C2,0,1,0,0 C2,0,1,0,0=6",
        "R0 T C3,0,0,0,0 C3,0,0,0,0=6 C3,0,1,0,0 C4,0,0,0,1 C4,0,0,0,1=6 C4,0,0,0,2",
        "T C1,0,0,0,0 C1,0,0,0,0",
        // 4 before 5.
        "R1 R0 T C4,0,0,0,0=4 C4,0,0,0,1=5 C4,1,0,0,1 C4,0,2,0,1=5",
        // A missing "every".
        "R1 R0 I0,1 T C3,1,0,0,0=7 C3,0,0,0,0 C3,1,0,0,0 C3,1,1,0,0=7",
    ]);
}

/// The 64th entry is the last; 25 comes before 4 to 7.
#[test]
fn full_entries() {
    let scripts = [
        "C9,0,0,0,0=4 C1,0,0,0,0 C1,0,0,0,0=25 T=25",
        "C4,0,0,0,1=5 C1,0,0,0,0 C9,0,0,0,0=25 C3,0,0,0,0=25 C4,0,0,0,1=25",
        "C2,0,125,125,0 C2,0,125,125,0=25 C2,0,128,0,0=25",
        "C2,0,126,0,0=4 C4,1,125,0,1 I0,1=5 I1,0 Q127 Q128=8 U127 U128=8",
    ];
    let names = "C1,0,0,0,0 ".repeat(61);
    hold_after(&format!("R1 R0 T C3,0,0,0,0 {names}"), &scripts);
}

#[test]
fn question() {
    hold(&[
        "Q0=8 U0=8 T Q0 Q1 Q2=8 U0 U1 U2=8",
        // Rules before the root, and without a role.
        "T U1 U0 Q0",
    ]);
    // The last root counts, a refused one does not; rules stand in the order of adding.
    let (editor, _) = run("R0 C0,0,0,0,0 C1,0,0,0,0 U3 Q0 U1 Q2 Q4 U255 U3");
    assert_eq!(editor.root, Some(2));
    assert_eq!(editor.rules, [3, 1, 3]);
    let bytes = editor.bytes().expect("a description");
    assert_eq!(bytes[bytes.len() - 4..], [2, 3, 1, 3]);
    // The 16th rule is the last; 25 comes before 8. The root has no such limit.
    let start = format!("T {}", "U0 ".repeat(15));
    hold_after(
        &start,
        &["U2=8 U1 U1=25 U2=25", "U0 U255=25 Q0 Q1 Q2=8 S T U0"],
    );
}

/// 2 until there is a role, entry 0 and a root; then 22; then the smallest description.
#[test]
fn writing_out() {
    let smallest = "000c0003000f0006001500010000000000000000000";
    let (_, found) = run("R0 C0,0,0,0,0 W0 W22 Q1 W0 W21 W22 W23 W500");
    assert_eq!(
        found,
        format!("0 0 2 2 0 22 22 0:{smallest}1 0:{smallest}1 0:{smallest}1")
    );
    hold(&[
        "W0=2 W500=2 R0 W500=2 S W500=2",
        "T Q0 U0 W0=2 W500=2",
        "R0 R1 I0,1 W0=2 W500=2",
        "R0 T Q0 S Q0=8 R0 T W500=2",
    ]);
}

/// The longest description.
#[test]
fn longest() {
    let (roles, names) = ("R1 ".repeat(16), "C1,0,0,0,0 ".repeat(63));
    let rules = "U127 ".repeat(16);
    let (editor, _) = run(&format!("{roles}C0,0,0,0,0 {names}{rules}Q126"));
    let mut buffer = [0xEE; 462];
    assert_eq!(
        editor.write(&mut buffer[..460]),
        Answer::Refused(Refusal::whole(22))
    );
    assert_eq!(buffer, [0xEE; 462]);
    assert_eq!(editor.write(&mut buffer), Answer::Written);
    assert_eq!(buffer[..12], [0, 12, 0, 48, 0, 60, 1, 128, 1, 188, 0, 17]);
    assert_eq!(buffer[443..], [&[0, 126], &[127; 16][..], &[0xEE]].concat());
}

/// Transitive, parents, ancestors and simple of each role, as the scripts have them.
fn told(held: &[Held]) -> String {
    let told = held.iter().map(|h| {
        let (transitive, simple) = (h.transitive as u8, h.simple as u8);
        format!("{transitive},{},{},{simple}", h.parents, h.ancestors)
    });
    let told: Vec<String> = told.collect();
    match told.is_empty() {
        true => "-".into(),
        false => told.join(";"),
    }
}

#[test]
fn vectors() {
    let file = Path::new(env!("CARGO_MANIFEST_DIR")).join("../crates/editor_vectors/data/scripts");
    let text = std::fs::read_to_string(file).expect("the scripts");
    let mut rows = 0;
    for line in text.lines().filter(|line| !line.starts_with('#')) {
        let row: Vec<&str> = line.split('\t').collect();
        let [limit, script, answers, roles] = row[..] else {
            panic!("fields of {line}");
        };
        assert_eq!(limit, "64");
        let (editor, found) = run(script);
        assert_eq!(found, answers, "{script}");
        assert_eq!(told(&editor.held()), roles, "{script}");
        rows += 1;
    }
    assert_eq!(rows, 500);
}
