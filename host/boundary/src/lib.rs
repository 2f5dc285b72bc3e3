//! The verified library as Rust sees it: the one place that declares its functions, and a safe wrapper of each.
//!
//! A Rattle slice passes as a pointer and a length, a lent number as a pointer. The wrappers need nothing of their
//! callers: a Rust slice is always readable, a lent one is its borrower's alone.

/// The exported functions; `include/batkhreli.h` says the same to C.
pub mod raw {
    extern "C" {
        pub fn batkhreli_check(board: *const u8, length: usize, place: *mut u32, detail: *mut u32) -> u32;

        pub fn batkhreli_slacks(
            board: *const u8,
            length: usize,
            slacks: *mut u64,
            slacks_length: usize,
            place: *mut u32,
            detail: *mut u32,
        ) -> u32;

        pub fn batkhreli_run(
            text: *const u8,
            length: usize,
            places: *mut u32,
            places_length: usize,
            place: *mut u32,
            detail: *mut u32,
        ) -> u32;

        pub fn batkhreli_table(
            text: *const u8,
            length: usize,
            tick: u32,
            seats: *mut u32,
            place: *mut u32,
            detail: *mut u32,
        ) -> u32;
    }
}

/// Code, place and detail.
pub type Answer = (u32, u32, u32);

/// What place and detail hold before a call, so that one which is not written is seen.
const UNWRITTEN: u32 = 0xDEAD_BEEF;

/// Calls with room for place and detail.
fn answered(call: impl FnOnce(*mut u32, *mut u32) -> u32) -> Answer {
    let (mut place, mut detail) = (UNWRITTEN, UNWRITTEN);
    let code = call(&mut place, &mut detail);
    (code, place, detail)
}

/// Checks a board's text.
pub fn check(board: &[u8]) -> Answer {
    answered(|place, detail| unsafe { raw::batkhreli_check(board.as_ptr(), board.len(), place, detail) })
}

/// Checks a board's text; an accepted board's slacks are written if there is a place for each.
pub fn slacks(board: &[u8], slacks: &mut [u64]) -> Answer {
    let (lent, count) = (slacks.as_mut_ptr(), slacks.len());
    answered(|place, detail| unsafe { raw::batkhreli_slacks(board.as_ptr(), board.len(), lent, count, place, detail) })
}

/// Runs a board and a list, one text, and writes the responses.
pub fn run(text: &[u8], places: &mut [u32]) -> Answer {
    let (lent, count) = (places.as_mut_ptr(), places.len());
    answered(|place, detail| unsafe { raw::batkhreli_run(text.as_ptr(), text.len(), lent, count, place, detail) })
}

/// Runs a board and a list, one text, up to a tick, and writes who sits on which processor in it.
pub fn table(text: &[u8], tick: u32, seats: &mut [u32; 8]) -> Answer {
    let lent = seats.as_mut_ptr();
    answered(|place, detail| unsafe { raw::batkhreli_table(text.as_ptr(), text.len(), tick, lent, place, detail) })
}
