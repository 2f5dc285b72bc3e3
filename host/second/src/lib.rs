//! The paper's rules a second time, written from its text and in another way than the product.
//!
//! It shares nothing with the verified code but the paper: lines are split off before they are looked at, a number is
//! well formed when it prints as it was written, columns are summed anew each time, jobs are finished one task at a
//! time instead of one tick at a time. It takes no care to be fast.

pub mod board;
pub mod check;
pub mod list;
pub mod print;
pub mod run;
pub mod text;

/// Code, place and detail, as the paper's table of answers has them.
pub type Answer = (u32, u32, u32);

/// Accepted, or run finished.
pub const DONE: Answer = (0, 0, 0);
