//! The checker's C interface.

use compare::edits::Panel;
use compare::paper::editor::Operation;

extern "C" {
    fn shq_check(
        description: *const u8,
        description_length: usize,
        evidence: *const u8,
        evidence_length: usize,
    ) -> u32;
    fn shq_write(
        description: *const u8,
        description_length: usize,
        evidence: *const u8,
        evidence_length: usize,
        buffer: *mut u8,
        buffer_length: usize,
    ) -> u32;
    fn shq_read(
        description: *const u8,
        description_length: usize,
        line: *const u8,
        line_length: usize,
    ) -> u32;
    fn shq_claim(
        description: *const u8,
        description_length: usize,
        c: u8,
        d: u8,
        first: *const u8,
        first_length: usize,
        second: *const u8,
        second_length: usize,
    ) -> u32;
    fn shq_edit_start(state: *mut u8, state_length: usize) -> u32;
    fn shq_edit_role(state: *mut u8, state_length: usize, transitive: u8) -> u32;
    fn shq_edit_inclusion(state: *mut u8, state_length: usize, role: u8, parent: u8) -> u32;
    fn shq_edit_concept(
        state: *mut u8,
        state_length: usize,
        kind: u8,
        role: u8,
        first: u8,
        second: u8,
        number: u16,
    ) -> u32;
    fn shq_edit_root(state: *mut u8, state_length: usize, literal: u8) -> u32;
    fn shq_edit_rule(state: *mut u8, state_length: usize, literal: u8) -> u32;
    fn shq_edit_write(
        state: *const u8,
        state_length: usize,
        buffer: *mut u8,
        buffer_length: usize,
    ) -> u32;
}

pub fn check(description: &[u8], evidence: &[u8]) -> u32 {
    // SAFETY: both slices are lent for the call and only read.
    unsafe {
        shq_check(
            description.as_ptr(),
            description.len(),
            evidence.as_ptr(),
            evidence.len(),
        )
    }
}

pub fn write(description: &[u8], evidence: &[u8], buffer: &mut [u8]) -> u32 {
    // SAFETY: the buffer is lent for writing, and no other slice shares its bytes.
    unsafe {
        shq_write(
            description.as_ptr(),
            description.len(),
            evidence.as_ptr(),
            evidence.len(),
            buffer.as_mut_ptr(),
            buffer.len(),
        )
    }
}

pub fn read(description: &[u8], line: &[u8]) -> u32 {
    // SAFETY: both slices are lent for the call and only read.
    unsafe {
        shq_read(
            description.as_ptr(),
            description.len(),
            line.as_ptr(),
            line.len(),
        )
    }
}

pub fn claim(description: &[u8], c: u8, d: u8, first: &[u8], second: &[u8]) -> u32 {
    // SAFETY: the three slices are lent for the call and only read.
    unsafe {
        shq_claim(
            description.as_ptr(),
            description.len(),
            c,
            d,
            first.as_ptr(),
            first.len(),
            second.as_ptr(),
            second.len(),
        )
    }
}

/// The editor's functions, with the checker's.
pub struct Library;

impl Panel for Library {
    fn edit(&self, state: &mut [u8], operation: Operation) -> u32 {
        let (at, length) = (state.as_mut_ptr(), state.len());
        // SAFETY: the state is lent for the call, for reading and writing.
        unsafe {
            match operation {
                Operation::Start => shq_edit_start(at, length),
                Operation::Role(transitive) => shq_edit_role(at, length, transitive),
                Operation::Inclusion { role, parent } => {
                    shq_edit_inclusion(at, length, role, parent)
                }
                Operation::Concept([kind, role, first, second, high, low]) => {
                    let number = u16::from_be_bytes([high, low]);
                    shq_edit_concept(at, length, kind, role, first, second, number)
                }
                Operation::Root(literal) => shq_edit_root(at, length, literal),
                Operation::Rule(literal) => shq_edit_rule(at, length, literal),
                // It has a buffer, too.
                Operation::Write(_) => unreachable!("writing out is not an edit"),
            }
        }
    }

    fn write(&self, state: &[u8], buffer: &mut [u8]) -> u32 {
        // SAFETY: the buffer is lent for writing, and the state does not share its bytes.
        unsafe {
            shq_edit_write(
                state.as_ptr(),
                state.len(),
                buffer.as_mut_ptr(),
                buffer.len(),
            )
        }
    }

    fn check(&self, description: &[u8], evidence: &[u8]) -> u32 {
        check(description, evidence)
    }
}
