//! Lines of the form key, `=`, number, LF.

use crate::Answer;
use std::ops::RangeInclusive;

/// The longest input that is looked at.
pub const LONGEST: usize = 65_536;

/// A text cut into its lines, of which some are used up.
pub struct Lines<'a> {
    lines: Vec<&'a [u8]>,
    used: usize,
}

impl<'a> Lines<'a> {
    /// Cuts a text behind each LF. What follows the last LF, if anything does, is a line too, though never a good one.
    pub fn of(text: &'a [u8]) -> Result<Self, Answer> {
        if text.len() > LONGEST {
            return Err((1, 0, 0));
        }
        let lines = text.split_inclusive(|&byte| byte == b'\n').collect();
        Ok(Lines { lines, used: 0 })
    }

    /// The number on the next line. A missing line is malformed under the number it would have.
    pub fn number(&mut self, key: &str, range: RangeInclusive<u32>) -> Result<u32, Answer> {
        let line = self.lines.get(self.used);
        self.used += 1;
        let number = line.and_then(|line| well_formed(line, key)).ok_or((1, self.used as u32, 0))?;
        if range.contains(&number) {
            Ok(number)
        } else {
            Err((2, self.used as u32, 0))
        }
    }

    /// Nothing may follow the last line.
    pub fn end(self) -> Result<(), Answer> {
        if self.lines.len() > self.used {
            return Err((1, self.used as u32 + 1, 0));
        }
        Ok(())
    }
}

/// The number of a line that is as it should be, whatever the number's range.
fn well_formed(line: &[u8], key: &str) -> Option<u32> {
    let line = std::str::from_utf8(line).ok()?;
    let (found, digits) = line.strip_suffix('\n')?.split_once('=')?;
    let number: u32 = digits.parse().ok()?;
    // Printing it again finds a leading zero, and a sign, which `parse` would let pass.
    let printed = number.to_string();
    (found == key && digits == printed && printed.len() <= 7).then_some(number)
}
