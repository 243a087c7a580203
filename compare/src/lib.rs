//! The paper on SHQ line descriptions and the requests for claims, for sixty-four concepts, for an
//! editor and for roles that never share a filler, implemented a second time and apart from the
//! checker, with makers of inputs on which the two are compared.

pub mod answers;
pub mod apart;
pub mod edits;
pub mod encode;
pub mod make;
pub mod paper;
pub mod random;
pub mod slips;
pub mod steps;
pub mod walks;
