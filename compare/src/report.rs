//! The table of answers, and whether each came often enough.

use crate::compare::{Comparison, Kind, Told, KINDS, NUMBERS, TOLD};
use compare::answers::WORDS;
use compare::apart;
use compare::edits::tally::{self, LEAST, OPERATIONS};
use compare::edits::Edits;
use compare::walks::WALKS;

/// Each refusal must come as often, and each word, wherever it can come.
const LEAST_REFUSALS: usize = 200;
const LEAST_WORDS: usize = 1000;

type Counts = [[Option<usize>; KINDS.len()]; TOLD.len()];

/// An answer, with how often each kind of input had it; nothing where it cannot.
struct Row {
    answer: String,
    counts: Counts,
    least: usize,
}

/// Prints both tables; true if each answer came often enough and none was another than expected.
pub fn report(c: &Comparison, edits: &Edits) -> bool {
    let rare = answers(c) | editor(edits);
    let inputs = c.inputs() + edits.scripts;
    let differences = c.differences + edits.differences;
    println!("{inputs} inputs, {differences} differences");
    !rare && differences == 0
}

/// The answers to questions, lines and claims; true if one came too seldom.
fn answers(c: &Comparison) -> bool {
    let rows = words(c).chain(refusals(c)).chain(walks(c)).chain(lapses(c));
    let rows: Vec<Row> = rows.collect();
    let rare = rows.iter().any(Row::too_seldom);
    let kinds = ["plain", "one piece", "two pieces"].map(String::from);
    let told = ["up to 32", "from 33", "four pairs"].map(|told| [told, "", ""].map(String::from));
    print_row("entries", &told.concat());
    print_row("", &[kinds.clone(), kinds.clone(), kinds].concat());
    for row in rows {
        row.print();
    }
    if rare {
        println!("Some answer came too seldom ({LEAST_WORDS} for a word, {LEAST_REFUSALS} for a refusal or an error).");
    }
    rare
}

/// The answers of the editor, and the errors that scripts show; true if one came too seldom.
fn editor(edits: &Edits) -> bool {
    let (scripts, operations) = (edits.scripts, edits.tally.operations());
    println!("\n{scripts} scripts, {operations} operations");
    let tables = [edits.tally.rows(), edits.tally.slip_rows()];
    let heads = [&OPERATIONS.map(String::from)[..], &["scripts".into()]];
    for (rows, head) in tables.iter().zip(heads) {
        print_row("", head);
        for row in rows {
            print_row(&row.head, &row.counts.iter().map(shown).collect::<Vec<_>>());
        }
    }
    let rare = tables.iter().flatten().any(tally::Row::too_seldom);
    if rare {
        println!("Some answer of the editor or some slip came too seldom ({LEAST}).");
    }
    rare
}

fn words(c: &Comparison) -> impl Iterator<Item = Row> + '_ {
    let words = WORDS.iter().enumerate();
    let words = words.filter(|(_, name)| KINDS.iter().any(|&kind| has_word(kind, name)));
    words.map(|(word, name)| Row {
        answer: name.to_string(),
        counts: table(|kind, told| has_word(kind, name).then(|| c.tally(kind, told).words[word])),
        least: LEAST_WORDS,
    })
}

fn refusals(c: &Comparison) -> impl Iterator<Item = Row> + '_ {
    // 25 is the editor's.
    (1..NUMBERS)
        .filter(|&number| number != 25)
        .map(|number| Row {
            answer: format!("refusal {number:2}"),
            counts: table(|kind, told| {
                has_refusal(kind, number).then(|| c.tally(kind, told).refusals[number])
            }),
            least: LEAST_REFUSALS,
        })
}

/// Answers that a wrong walk over cells would have changed; any kind of input can have them.
fn walks(c: &Comparison) -> impl Iterator<Item = Row> + '_ {
    WALKS.iter().enumerate().map(|(walk, (_, name))| Row {
        answer: name.to_string(),
        counts: table(|kind, told| Some(c.tally(kind, told).walks[walk])),
        least: LEAST_REFUSALS,
    })
}

/// Answers that an error about roles that never share a filler would have changed.
fn lapses(c: &Comparison) -> impl Iterator<Item = Row> + '_ {
    apart::names().enumerate().map(|(lapse, name)| Row {
        answer: name.to_string(),
        counts: table(|kind, told| {
            has_lapse(kind, told, name).then(|| c.tally(kind, told).lapses[lapse])
        }),
        least: LEAST_REFUSALS,
    })
}

fn table(count: impl Fn(Kind, Told) -> Option<usize>) -> Counts {
    TOLD.map(|told| KINDS.map(|kind| count(kind, told)))
}

fn print_row(head: &str, fields: &[String]) {
    let fields: String = fields.iter().map(|f| format!(" {f:>10}")).collect();
    println!("{head:16}{fields}");
}

fn shown(count: &Option<usize>) -> String {
    count.map_or("-".into(), |n| n.to_string())
}

/// Can inputs of this kind have that word for an answer?
fn has_word(kind: Kind, word: &str) -> bool {
    match kind {
        Kind::Plain => !["HOLDS OF NOTHING", "DONE"].contains(&word),
        Kind::OnePiece => ["REFUSED", "FAILS", "HOLDS OF NOTHING"].contains(&word),
        Kind::TwoPieces => ["REFUSED", "HOLDS"].contains(&word),
    }
}

/// Can they be refused with that number?
fn has_refusal(kind: Kind, number: usize) -> bool {
    match kind {
        _ if number == 26 => true,
        Kind::Plain => number <= 23,
        Kind::OnePiece | Kind::TwoPieces => number <= 20 || number == 24,
    }
}

/// Can that error show in them?
fn has_lapse(kind: Kind, told: Told, name: &str) -> bool {
    match name {
        "edge written" | "line both" | "line first" | "line form" => kind == Kind::Plain,
        // An error with three pairs.
        "cell three" => told != Told::FourPairs,
        _ => true,
    }
}

impl Row {
    fn too_seldom(&self) -> bool {
        let counts = self.counts.iter().flatten();
        counts.flatten().any(|&n| n < self.least)
    }

    fn print(&self) {
        let counts: Vec<String> = self.counts.concat().iter().map(shown).collect();
        print_row(&self.answer, &counts);
    }
}
