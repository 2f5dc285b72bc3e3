//! Damaged texts.

use crate::random::Random;

/// Numbers at and just past the ends of every range, and forms of a number that are not allowed.
const NUMBERS: [&str; 36] = [
    "0",
    "1",
    "2",
    "3",
    "7",
    "8",
    "9",
    "10",
    "95",
    "96",
    "97",
    "99",
    "100",
    "101",
    "999",
    "1000",
    "1001",
    "99999",
    "100000",
    "100001",
    "999999",
    "1000000",
    "1000001",
    "9999999",
    "10000000",
    "4294967295",
    "4294967296",
    "18446744073709551616",
    "00",
    "01",
    "08",
    "0000001",
    "+1",
    "-1",
    "1.0",
    "",
];

/// Bytes that readers get wrong.
const BYTES: [u8; 16] =
    [b'\r', 0, b' ', b'\t', b'=', b'\n', b'0', b'9', b'/', b':', 0x7F, 0x80, 0xC3, 0xFF, b'S', 0x0B];

/// Damages a text in one to three ways.
pub fn damage(random: &mut Random, text: &[u8]) -> Vec<u8> {
    let mut damaged = text.to_vec();
    for _ in 0..*random.pick(&[1, 1, 1, 2, 3]) {
        once(random, &mut damaged);
    }
    damaged
}

fn once(random: &mut Random, text: &mut Vec<u8>) {
    let count = text.len();
    let place = random.index(count.max(1));
    match random.within(0, 15) {
        0 if count > 0 => text[place] ^= 1 << random.index(8),
        1 if count > 0 => text[place] = random.bits() as u8,
        2 if count > 0 => text[place] = *random.pick(&BYTES),
        3 => text.truncate(place),
        4 => text.truncate(count.saturating_sub(1)),
        5 if count > 0 => drop(text.remove(place)),
        6 => text.insert(place, *random.pick(&BYTES)),
        7 => text.push(*random.pick(&BYTES)),
        8 => swap_lines(random, text),
        9 => double_line(random, text),
        10 => drop_line(random, text),
        11 if random.once_in(12) => pad(random, text),
        12 => carriage_return(random, text),
        _ => put_number(random, text),
    }
}

/// The lines of a text, each with its LF.
fn lines(text: &[u8]) -> Vec<Vec<u8>> {
    text.split_inclusive(|&byte| byte == b'\n').map(<[u8]>::to_vec).collect()
}

fn swap_lines(random: &mut Random, text: &mut Vec<u8>) {
    let mut all = lines(text);
    if all.len() > 1 {
        let first = random.index(all.len() - 1);
        let second = if random.once_in(2) { first + 1 } else { random.index(all.len()) };
        all.swap(first, second);
        *text = all.concat();
    }
}

fn double_line(random: &mut Random, text: &mut Vec<u8>) {
    let mut all = lines(text);
    if !all.is_empty() {
        let place = random.index(all.len());
        all.insert(place, all[place].clone());
        *text = all.concat();
    }
}

fn drop_line(random: &mut Random, text: &mut Vec<u8>) {
    let mut all = lines(text);
    if !all.is_empty() {
        all.remove(random.index(all.len()));
        *text = all.concat();
    }
}

/// Lengthens a text to 65,535, 65,536 or 65,537 bytes, or to a little more.
fn pad(random: &mut Random, text: &mut Vec<u8>) {
    let byte = *random.pick(&[b'\n', b'0', b' ', 0]);
    let length = *random.pick(&[65_535, 65_536, 65_536, 65_537, 65_537, 70_000]);
    if random.once_in(2) {
        text.resize(length, byte);
    } else {
        // The same length by a number that never ends.
        let place = text.iter().position(|&b| b == b'\n').unwrap_or(text.len());
        let more = length.saturating_sub(text.len());
        text.splice(place..place, std::iter::repeat_n(b'1', more));
    }
}

fn carriage_return(random: &mut Random, text: &mut Vec<u8>) {
    let ends: Vec<usize> = (0..text.len()).filter(|&place| text[place] == b'\n').collect();
    if !ends.is_empty() {
        text.insert(*random.pick(&ends), b'\r');
    }
}

/// Puts another number behind the key of a line.
fn put_number(random: &mut Random, text: &mut Vec<u8>) {
    let mut all = lines(text);
    if all.is_empty() {
        return;
    }
    let place = random.index(all.len());
    if let Some(sign) = all[place].iter().position(|&byte| byte == b'=') {
        all[place].truncate(sign + 1);
        if random.once_in(3) {
            all[place].extend(random.spread(0, 20_000_000).to_string().bytes());
        } else {
            all[place].extend(random.pick(&NUMBERS).bytes());
        }
        all[place].push(b'\n');
        *text = all.concat();
    }
}
