//! Holds the library's answers against the paper's and counts them.

use crate::library;
use compare::answers::{self, code, hex, WORDS};
use compare::apart::{self, Asked, Input, LAPSES};
use compare::make::spoil_claim::Given;
use compare::paper;
use compare::paper::description::pairs_of;
use compare::paper::label::Width;
use compare::walks::{self, WALKS};

/// Bytes before and after a buffer that the writer must leave alone.
const GUARD: usize = 64;

/// What an input is: a question or a line, or a claim with one piece of evidence or two.
#[derive(Clone, Copy, PartialEq, Eq)]
pub enum Kind {
    Plain,
    OnePiece,
    TwoPieces,
}

pub const KINDS: [Kind; 3] = [Kind::Plain, Kind::OnePiece, Kind::TwoPieces];

/// What is told of a description: the width by the length of its table, right or wrong, and, at
/// either width, that it has four pairs.
#[derive(Clone, Copy, PartialEq, Eq)]
pub enum Told {
    Narrow,
    Wide,
    FourPairs,
}

pub const TOLD: [Told; 3] = [Told::Narrow, Told::Wide, Told::FourPairs];

/// The numbers of refusals, and 0.
pub const NUMBERS: usize = 27;

/// The answers to inputs of one kind with descriptions of which the same is told.
#[derive(Default)]
pub struct Tally {
    /// How often each word came.
    pub words: [usize; WORDS.len()],
    /// How often each refusal number came.
    pub refusals: [usize; NUMBERS],
    /// How often a wrong walk over cells would have changed the answer.
    pub walks: [usize; WALKS.len()],
    /// How often an error about roles that never share a filler would have.
    pub lapses: [usize; LAPSES],
}

impl Tally {
    pub fn inputs(&self) -> usize {
        self.words.iter().sum()
    }
}

#[derive(Default)]
pub struct Comparison {
    pub differences: usize,
    tallies: [[Tally; TOLD.len()]; KINDS.len()],
}

impl Comparison {
    pub fn tally(&self, kind: Kind, told: Told) -> &Tally {
        &self.tallies[kind as usize][told as usize]
    }

    pub fn inputs(&self) -> usize {
        let widths = [Told::Narrow, Told::Wide];
        let both = |kind| widths.map(|told| self.tally(kind, told).inputs());
        KINDS.iter().flat_map(|&kind| both(kind)).sum()
    }

    pub fn check(&mut self, description: &[u8], evidence: &[u8]) {
        let asked = Asked::new(description, Input::Check(evidence));
        let expected = self.expected(Kind::Plain, &asked);
        let (d, e) = (self.placed(description), self.placed(evidence));
        let found = library::check(d.bytes(), e.bytes());
        if !self.same(expected, found) {
            tell("check", expected, found, &[description, evidence]);
        }
    }

    pub fn read(&mut self, description: &[u8], line: &[u8]) {
        let asked = Asked::new(description, Input::Read(line));
        let expected = self.expected(Kind::Plain, &asked);
        let (d, l) = (self.placed(description), self.placed(line));
        let found = library::read(d.bytes(), l.bytes());
        if !self.same(expected, found) {
            tell("read", expected, found, &[description, line]);
        }
    }

    pub fn claim(&mut self, given: &Given) {
        let (c, d) = (given.c, given.d);
        let slices: [&[u8]; 3] = [&given.description, &given.first, &given.second];
        let [description, first, second] = slices;
        let kind = match second.is_empty() {
            true => Kind::OnePiece,
            false => Kind::TwoPieces,
        };
        let input = Input::Claim {
            c,
            d,
            first,
            second,
        };
        let expected = self.expected(kind, &Asked::new(description, input));
        let placed = slices.map(|slice| self.placed(slice));
        let [in_description, in_first, in_second] = placed.each_ref().map(Placed::bytes);
        let found = library::claim(in_description, c, d, in_first, in_second);
        if !self.same(expected, found) {
            println!("C {c}, D {d}:");
            tell("claim", expected, found, &slices);
        }
    }

    /// Both write into a buffer of `room` bytes amid guard zones; all bytes are compared.
    pub fn write(&mut self, description: &[u8], evidence: &[u8], room: usize, fill: u8) {
        let pattern = |i: usize| (i as u8).wrapping_mul(37).wrapping_add(fill);
        let mut ours: Vec<u8> = (0..room + 2 * GUARD).map(pattern).collect();
        let mut theirs = ours.clone();
        let middle = GUARD..GUARD + room;
        let asked = Asked {
            description,
            input: Input::Write(evidence, room),
            answer: paper::write(description, evidence, &mut ours[middle.clone()]),
        };
        let expected = self.expected(Kind::Plain, &asked);
        let (d, e) = (self.placed(description), self.placed(evidence));
        let found = library::write(d.bytes(), e.bytes(), &mut theirs[middle]);
        let same = self.same(expected, found);
        if same && ours == theirs {
            return;
        }
        if same {
            self.differences += 1;
            println!("The bytes differ, paper's first, guard zones of {GUARD} bytes included:");
            println!("{}\n{}", hex(&ours), hex(&theirs));
        }
        println!("A buffer of {room} bytes, filled from {fill} on by 37:");
        tell("write", expected, found, &[description, evidence]);
    }

    /// A copy of a slice at a place that changes from input to input.
    fn placed(&self, slice: &[u8]) -> Placed {
        let before = self.inputs() % 8;
        let mut zone = vec![0xA5; before + slice.len() + 8];
        zone[before..before + slice.len()].copy_from_slice(slice);
        Placed {
            zone,
            before,
            length: slice.len(),
        }
    }

    /// The paper's answer, counted with the errors that would have given another.
    fn expected(&mut self, kind: Kind, asked: &Asked) -> u32 {
        let expected = code(asked.answer);
        let list = asked.list();
        let walks = list.as_ref().map_or([false; WALKS.len()], walks::shown);
        let lapses = apart::shown(asked, list.as_ref());
        for told in told(asked.description) {
            let tally = &mut self.tallies[kind as usize][told as usize];
            tally.words[(expected >> 16) as usize] += 1;
            if expected < 65536 {
                tally.refusals[(expected >> 8) as usize] += 1;
            }
            add(&mut tally.walks, &walks);
            add(&mut tally.lapses, &lapses);
        }
        expected
    }

    /// Are the answers the same? If not, they count as a difference.
    fn same(&mut self, expected: u32, found: u32) -> bool {
        let same = expected == found;
        self.differences += !same as usize;
        same
    }
}

fn add(counts: &mut [usize], shown: &[bool]) {
    for (count, shown) in counts.iter_mut().zip(shown) {
        *count += *shown as usize;
    }
}

/// What is told of a description.
fn told(description: &[u8]) -> Vec<Told> {
    let entries = match description {
        [_, _, _, _, _, _, high, low, ..] => u16::from_be_bytes([*high, *low]) as usize / 6,
        _ => 0,
    };
    let mut told = vec![match Width::of_table(entries) {
        Width::Narrow => Told::Narrow,
        Width::Wide => Told::Wide,
    }];
    if pairs_of(description) == 4 {
        told.push(Told::FourPairs);
    }
    told
}

/// A slice amid bytes that do not belong to it, not always at an even address.
struct Placed {
    zone: Vec<u8>,
    before: usize,
    length: usize,
}

impl Placed {
    fn bytes(&self) -> &[u8] {
        &self.zone[self.before..self.before + self.length]
    }
}

fn tell(function: &str, expected: u32, found: u32, slices: &[&[u8]]) {
    let (expected, found) = (answers::told(expected), answers::told(found));
    println!("DIFFERENCE in {function}: paper {expected}, library {found}");
    for slice in slices {
        println!("  {}", hex(slice));
    }
}
