//! Inputs for the tests: boards, lists and damaged texts, all made from a seed.

pub mod boards;
pub mod damage;
pub mod known;
pub mod large;
pub mod lists;
pub mod near;
pub mod random;
pub mod tight;
pub mod write;
