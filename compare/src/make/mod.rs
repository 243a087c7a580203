//! Makers of inputs: accepted descriptions, evidence found by small searches, lines, claims, damage
//! to each of them, and scripts for the editor.

pub mod cells;
pub mod claims;
pub mod damage;
pub mod descriptions;
pub mod edits;
pub mod graphs;
pub mod lines;
pub mod refutations;
pub mod spoil_apart;
pub mod spoil_claim;
pub mod spoil_graph;
pub mod spoil_list;
pub mod swell;
pub mod trees;
pub mod widths;
