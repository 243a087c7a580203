//! Roles that never share a filler, by the implementation alone: each clause on both sides, worked
//! out by hand, and that the errors which the comparison counts are told from what is right.

mod descriptions;
mod errors;
mod given;
mod graphs;
mod lists;
