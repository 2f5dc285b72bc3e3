//! A cursor over the bytes of a text.

use crate::Answer;

pub struct Text<'a> {
    rest: &'a [u8],
    line: u32,
}

impl<'a> Text<'a> {
    pub fn new(text: &'a [u8]) -> Result<Text<'a>, Answer> {
        if text.len() > 65_536 {
            return Err((1, 0, 0));
        }
        Ok(Text { rest: text, line: 0 })
    }

    /// The number on the next line, which begins with `key` (the `=` included).
    pub fn number(&mut self, key: &[u8], low: u32, high: u32) -> Result<u32, Answer> {
        self.line += 1;
        let number = self.well_formed(key).ok_or((1, self.line, 0))?;
        if number < low || number > high {
            return Err((2, self.line, 0));
        }
        Ok(number)
    }

    fn well_formed(&mut self, key: &[u8]) -> Option<u32> {
        let digits = self.rest.strip_prefix(key)?;
        let mut number = 0;
        let mut count = 0;
        while count < 7 && digits.get(count).is_some_and(u8::is_ascii_digit) {
            number = number * 10 + u32::from(digits[count] - b'0');
            count += 1;
        }
        if count == 0 || (count > 1 && digits[0] == b'0') {
            return None;
        }
        self.rest = digits[count..].strip_prefix(b"\n")?;
        Some(number)
    }

    pub fn end(&self) -> Result<(), Answer> {
        if self.rest.is_empty() {
            Ok(())
        } else {
            Err((1, self.line + 1, 0))
        }
    }
}
