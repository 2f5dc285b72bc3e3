//! The sample texts in `boards/`: each program prints exactly what is stored beside its text.

use crate::feed::prints;
use crate::report::{same, Report};
use std::fs;

pub fn test(report: &mut Report) {
    match names() {
        Ok(names) => {
            for name in names {
                report.take(&format!("boards/{name}"), one(&name));
            }
        }
        Err(wrong) => report.take("boards/", Err(wrong)),
    }
}

/// The texts, those for the check ending in `.board`, those for the run in `.run`.
fn names() -> Result<Vec<String>, String> {
    let entries = fs::read_dir("boards").map_err(|error| format!("boards/: {error}"))?;
    let mut names: Vec<String> = entries
        .filter_map(|entry| entry.ok()?.file_name().into_string().ok())
        .filter(|name| name.ends_with(".board") || name.ends_with(".run"))
        .collect();
    names.sort();
    if names.is_empty() {
        return Err("no sample text".into());
    }
    Ok(names)
}

fn one(name: &str) -> Result<String, String> {
    let read = |path: String| fs::read(&path).map_err(|error| format!("{path}: {error}"));
    let text = read(format!("boards/{name}"))?;
    let stored = String::from_utf8_lossy(&read(format!("boards/{name}.answer"))?).into_owned();
    let run = name.ends_with(".run");
    let again = if run { second::print::run_prints(&text) } else { second::print::check_prints(&text) };
    same("second implementation", &again, &stored)?;
    same("program", &prints(run, &text)?, &stored)?;
    Ok(stored.lines().take(3).collect::<Vec<_>>().join(" "))
}
