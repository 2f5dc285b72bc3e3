//! Counts tests and says how each went.

use std::time::Instant;

pub struct Report {
    passed: u32,
    failed: u32,
    begun: Instant,
}

impl Report {
    pub fn new() -> Report {
        Report { passed: 0, failed: 0, begun: Instant::now() }
    }

    /// Takes in a test: what it did, or what went wrong.
    pub fn take(&mut self, name: &str, result: Result<String, String>) {
        let seconds = self.begun.elapsed().as_secs_f64();
        match result {
            Ok(did) => {
                self.passed += 1;
                println!("{seconds:6.1} s  ok    {name}: {did}");
            }
            Err(wrong) => {
                self.failed += 1;
                println!("{seconds:6.1} s  FAIL  {name}: {wrong}");
            }
        }
    }

    /// The last line, and a failure of the program if any test failed.
    pub fn end(self) {
        println!("gate: {} passed, {} failed", self.passed, self.failed);
        std::process::exit(i32::from(self.failed > 0));
    }
}

/// Equality, with both sides told.
pub fn same<T: PartialEq + std::fmt::Debug>(what: &str, found: T, wanted: T) -> Result<(), String> {
    if found == wanted {
        return Ok(());
    }
    Err(format!("{what}: found {found:?}, wanted {wanted:?}"))
}

/// A text as one can paste it, cut where it is long.
pub fn shown(text: &[u8]) -> String {
    let whole = text.escape_ascii().to_string();
    match whole.char_indices().nth(3_000) {
        Some((end, _)) => format!("{} bytes, beginning with \"{}\"", text.len(), &whole[..end]),
        None => format!("\"{whole}\""),
    }
}
