//! The text that is drawn, as `tables` writes it.

pub struct Release {
    pub at: u32,
    pub task: u32,
    pub response: u32,
}

#[derive(Default)]
pub struct Run {
    pub name: String,
    pub speeds: Vec<u32>,
    pub releases: Vec<Release>,
    /// For each tick the task on each of eight places, 0 for none.
    pub ticks: Vec<Vec<u32>>,
}

impl Run {
    pub fn tasks(&self) -> u32 {
        self.releases.iter().map(|release| release.task).max().unwrap_or(0)
    }
}

/// The runs of a text.
pub fn all(text: &str) -> Result<Vec<Run>, String> {
    let mut runs: Vec<Run> = Vec::new();
    for line in text.lines() {
        let (word, rest) = line.split_once(' ').unwrap_or((line, ""));
        if word == "run" {
            runs.push(Run { name: rest.to_string(), ..Run::default() });
            continue;
        }
        let run = runs.last_mut().ok_or("a line before the first run")?;
        let numbers = numbers(rest)?;
        match (word, numbers.as_slice()) {
            ("speeds", _) => run.speeds = numbers,
            ("release", &[at, task, response]) => run.releases.push(Release { at, task, response }),
            ("tick", table) if table.len() == 8 => run.ticks.push(numbers),
            _ => return Err(format!("no such line: {line}")),
        }
    }
    Ok(runs)
}

fn numbers(text: &str) -> Result<Vec<u32>, String> {
    text.split_whitespace().map(|word| word.parse().map_err(|_| format!("no number: {word}"))).collect()
}
