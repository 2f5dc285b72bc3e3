//! The C entry called with guard words around everything that it is lent.

use boundary::{raw, Answer};

const WORDS: usize = 4;
const GUARD_32: u32 = 0xA5A5_5A5A;
const GUARD_64: u64 = 0xA5A5_5A5A_0F0F_F0F0;

/// Room for place and detail, with guard words before, between and behind.
fn answered(call: impl FnOnce(*mut u32, *mut u32) -> u32) -> Result<Answer, String> {
    let mut room = [GUARD_32; 7];
    let start = room.as_mut_ptr();
    // SAFETY: both places lie inside the room.
    let code = unsafe { call(start.add(2), start.add(4)) };
    if [0, 1, 3, 5, 6].iter().any(|&word| room[word] != GUARD_32) {
        return Err(format!("a word beside place or detail was written: {room:x?}"));
    }
    Ok((code, room[2], room[4]))
}

pub fn check(board: &[u8]) -> Result<Answer, String> {
    answered(|place, detail| unsafe { raw::batkhreli_check(board.as_ptr(), board.len(), place, detail) })
}

/// The answer, and what the lent slacks hold afterwards.
pub fn slacks(board: &[u8], before: &[u64]) -> Result<(Answer, Vec<u64>), String> {
    let mut room = vec![GUARD_64; before.len() + 2 * WORDS];
    room[WORDS..WORDS + before.len()].copy_from_slice(before);
    let lent = room[WORDS..].as_mut_ptr();
    let answer = answered(|place, detail| unsafe {
        raw::batkhreli_slacks(board.as_ptr(), board.len(), lent, before.len(), place, detail)
    })?;
    Ok((answer, unguarded(room, GUARD_64)?))
}

/// The answer, and what the lent response places hold afterwards.
pub fn run(text: &[u8], before: &[u32]) -> Result<(Answer, Vec<u32>), String> {
    let mut room = vec![GUARD_32; before.len() + 2 * WORDS];
    room[WORDS..WORDS + before.len()].copy_from_slice(before);
    let lent = room[WORDS..].as_mut_ptr();
    let answer = answered(|place, detail| unsafe {
        raw::batkhreli_run(text.as_ptr(), text.len(), lent, before.len(), place, detail)
    })?;
    Ok((answer, unguarded(room, GUARD_32)?))
}

/// The answer, and what the eight seats hold afterwards.
pub fn table(text: &[u8], tick: u32, before: &[u32; 8]) -> Result<(Answer, Vec<u32>), String> {
    let mut room = vec![GUARD_32; before.len() + 2 * WORDS];
    room[WORDS..WORDS + before.len()].copy_from_slice(before);
    let lent = room[WORDS..].as_mut_ptr();
    let answer = answered(|place, detail| unsafe {
        raw::batkhreli_table(text.as_ptr(), text.len(), tick, lent, place, detail)
    })?;
    Ok((answer, unguarded(room, GUARD_32)?))
}

/// What stands between the guard words, if they are whole.
fn unguarded<N: PartialEq + Copy>(room: Vec<N>, guard: N) -> Result<Vec<N>, String> {
    let end = room.len() - WORDS;
    if room[..WORDS].iter().chain(&room[end..]).any(|&word| word != guard) {
        return Err("a word beside the lent places was written".into());
    }
    Ok(room[WORDS..end].to_vec())
}
