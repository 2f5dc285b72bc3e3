//! The two programs, run as a planner would: a text on standard input, all that is printed compared.

use crate::feed::{fed, prints, CHECK, RUN};
use crate::report::{same, shown, Report};
use inputs::known::{a, b, board, list, p7, p8};
use inputs::random::Random;
use inputs::write::{board_text, run_text};
use second::list::List;
use std::fs::File;
use std::io::{Seek, Write};
use std::process::Command;
use std::time::Duration;

pub fn test(report: &mut Report) {
    report.take("board A prints as the paper shows", board_a());
    report.take("programs on the paper's cases", papers_cases());
    report.take("programs on long runs", long_runs());
    report.take("programs on random texts", random_texts());
    report.take("a huge input", huge());
    report.take("an empty input", empty());
    report.take("a long input is not read to its end", not_to_the_end());
    report.take("a closed standard input", closed());
    report.take("an unreadable standard input", unreadable());
    report.take("a full standard output", unwritable());
    report.take("an input in pieces", pieces());
}

fn board_a() -> Result<String, String> {
    let wanted = "answer=0\nplace=0\ndetail=0\nslack=1\nslack=3\nslack=8\n";
    same("boardcheck", prints(false, board_text(&a()).as_bytes())?, wanted.to_string())?;
    Ok("the whole output".into())
}

/// P7, P8, P9 and P11, with what they must print written out.
fn papers_cases() -> Result<String, String> {
    let short = List { ticks: 10, ..p7() };
    let tight = board(&[1], &[[3, 2, 2, 1, 0, 1, 1]]);
    let overrun = list(3, &[(0, 1, 0), (2, 1, 0)]);
    let finished = "answer=0\nplace=0\ndetail=0\n";
    let responses = |numbers: [u32; 4]| finished.to_string() + &numbers.map(|n| format!("response={n}\n")).concat();
    let cases = [
        (b(), p7(), responses([7, 11, 2, 1])),
        (b(), p8(), responses([7, 7, 7, 10])),
        (b(), short, responses([7, 0, 2, 1])),
        (tight, overrun, "answer=9\nplace=2\ndetail=2\n".to_string()),
    ];
    for (board, list, wanted) in cases {
        same("boardrun", prints(true, run_text(&board, &list).as_bytes())?, wanted)?;
    }
    Ok("P7, P8, P9, P11".into())
}

/// The runs at the edges: no ticks, releases at the end and after it, a thousand releases, a million ticks, several jobs
/// of a task, an overrun late in the list.
fn long_runs() -> Result<String, String> {
    let quick = board(&[7, 2, 1], &[[5, 10, 10, 1, 0, 1, 7], [9, 20, 20, 9, 5, 7, 49], [3, 30, 30, 9, 5, 7, 49]]);
    let often = |count: u32, every: u32| -> Vec<(u32, u32, u32)> { (0..count).map(|k| (k * every, 1, 0)).collect() };
    let mixed: Vec<(u32, u32, u32)> =
        (0..333).flat_map(|k| [(30 * k, 1, 0), (30 * k, 2, k % 10), (30 * k + 1, 3, 0)]).collect();
    let creeping = board(&[3], &[[1, 10, 10, 1, 0, 1, 3], [28, 10, 10, 10, 1, 1, 1]]);
    let late: Vec<(u32, u32, u32)> = (0..90)
        .flat_map(|k| if k < 80 { vec![(10 * k, 2, 0)] } else { vec![(10 * k, 1, 0), (10 * k, 2, 0)] })
        .collect();
    let lasting = board(&[1], &[[1_000_000, 1_000_000, 1_000_000, 1_000_000, 0, 1, 1]]);
    let lists = [
        ("no ticks", &quick, list(0, &[(0, 1, 0), (5, 2, 0)])),
        ("no ticks and no releases", &quick, list(0, &[])),
        (
            "releases at the end and after",
            &quick,
            list(20, &[(0, 1, 0), (19, 2, 0), (20, 1, 0), (40, 1, 0), (1_000_000, 3, 0)]),
        ),
        ("a thousand releases of a task", &quick, list(10_000, &often(1_000, 10))),
        ("a thousand releases, the run cut short", &quick, list(4_321, &often(1_000, 10))),
        ("999 releases of three tasks", &quick, list(10_000, &mixed)),
        ("a million ticks", &quick, list(1_000_000, &often(1_000, 1_000))),
        ("a million ticks for one job", &lasting, list(1_000_000, &[(0, 1, 0)])),
        ("an overrun after eighty releases", &creeping, list(1_000, &late)),
    ];
    let mut codes = Vec::new();
    for (name, board, list) in &lists {
        let text = run_text(board, list);
        let wanted = second::print::run_prints(text.as_bytes());
        codes.push(wanted.lines().next().unwrap_or_default().to_string());
        same(name, prints(true, text.as_bytes())?, wanted)?;
    }
    same("the late overrun", codes.pop(), Some("answer=9".to_string()))?;
    same("the others", codes.iter().all(|code| code == "answer=0"), true)?;
    Ok(format!("{} runs", lists.len()))
}

/// A few hundred random and damaged texts through both programs.
fn random_texts() -> Result<String, String> {
    const SEED: u64 = 501;
    let mut random = Random::new(SEED);
    for turn in 0..300 {
        let family = *random.pick(&inputs::boards::FAMILIES);
        let count = inputs::boards::task_count(&mut random);
        let board = inputs::boards::sound(&mut random, family, count, 200);
        let list = inputs::lists::legal(&mut random, &board, 1_000, 1_000);
        let run = turn % 2 == 0;
        let mut text = if run { run_text(&board, &list) } else { board_text(&board) }.into_bytes();
        if turn % 3 == 0 {
            text = inputs::damage::damage(&mut random, &text);
        }
        let wanted = if run { second::print::run_prints(&text) } else { second::print::check_prints(&text) };
        same("printed", prints(run, &text)?, wanted).map_err(|wrong| format!("{wrong} on {}", shown(&text)))?;
    }
    Ok(format!("300 texts, seed {SEED}"))
}

const TOO_LONG: &str = "answer=1\nplace=0\ndetail=0\n";
const NOTHING: &str = "answer=1\nplace=1\ndetail=0\n";

/// Megabytes, and the last size that is read beside the first that is not.
fn huge() -> Result<String, String> {
    for run in [false, true] {
        same("16 MB", prints(run, &vec![b'1'; 16_000_000])?.as_str(), TOO_LONG)?;
        same("16 MB of lines", prints(run, &b"procs=1\n".repeat(2_000_000))?.as_str(), TOO_LONG)?;
        same("65,537 bytes", prints(run, &vec![b'1'; 65_537])?.as_str(), TOO_LONG)?;
        same("65,536 bytes", prints(run, &vec![b'1'; 65_536])?.as_str(), NOTHING)?;
    }
    Ok("16 MB, 65,537 and 65,536 bytes to both programs".into())
}

fn empty() -> Result<String, String> {
    for run in [false, true] {
        same("nothing", prints(run, b"")?.as_str(), NOTHING)?;
    }
    Ok("both programs answer 1, 1, 0".into())
}

/// With no standard input at all a program may say that it read nothing, or fail without a word; it may not hang, crash
/// or answer anything else.
fn closed() -> Result<String, String> {
    for program in [CHECK, RUN] {
        let told = started(&format!("exec {program} <&-"))?;
        same("a closed standard input", told.0.as_str(), NOTHING)?;
    }
    Ok("both programs answer 1, 1, 0".into())
}

/// A text that cannot be read is no text: nothing on standard output, one line on standard error.
fn unreadable() -> Result<String, String> {
    for program in [CHECK, RUN] {
        let (printed, said) = started(&format!("exec {program} <boards"))?;
        same("a folder as standard input", printed.as_str(), "")?;
        if said.lines().count() != 1 {
            return Err(format!("{program}: on standard error {said:?}"));
        }
    }
    Ok("a folder as standard input: no answer, one line on standard error".into())
}

/// An answer that cannot be written is said to be lost.
fn unwritable() -> Result<String, String> {
    for program in [CHECK, RUN] {
        let (_, said) = started(&format!("exec {program} <boards/b.run >/dev/full"))?;
        if said.lines().count() != 1 {
            return Err(format!("{program}: on standard error {said:?}"));
        }
    }
    Ok("a full device as standard output: one line on standard error".into())
}

/// What a shell command prints on standard output and on standard error.
fn started(command: &str) -> Result<(String, String), String> {
    let output = Command::new("sh").args(["-c", command]).output().map_err(|error| format!("{command}: {error}"))?;
    if output.status.code() != Some(0) {
        return Err(format!("{command}: {}", output.status));
    }
    let text = |bytes: &[u8]| String::from_utf8_lossy(bytes).into_owned();
    Ok((text(&output.stdout), text(&output.stderr)))
}

/// A long input is not read to its end: one byte more than a text may have tells enough.
fn not_to_the_end() -> Result<String, String> {
    let wrong = |error: std::io::Error| error.to_string();
    let name = std::env::temp_dir().join(format!("batkhreli-long-{}", std::process::id()));
    std::fs::write(&name, vec![b'1'; 1_000_000]).map_err(wrong)?;
    let mut read = Vec::new();
    for program in [CHECK, RUN] {
        let mut file = File::open(&name).map_err(wrong)?;
        let shared = file.try_clone().map_err(wrong)?;
        let output = Command::new(program).stdin(shared).output().map_err(wrong)?;
        same("a million bytes", String::from_utf8_lossy(&output.stdout).as_ref(), TOO_LONG)?;
        read.push(file.stream_position().map_err(wrong)?);
    }
    std::fs::remove_file(&name).map_err(wrong)?;
    if read != [65_537, 65_537] {
        return Err(format!("of a million bytes {read:?} were read"));
    }
    Ok("65,537 of a million bytes are read".into())
}

/// A pipe may give a text in pieces; the program must wait for the rest.
fn pieces() -> Result<String, String> {
    let text = board_text(&b());
    let slowly = |input: &mut dyn Write| {
        for piece in text.as_bytes().chunks(17) {
            let _ = input.write_all(piece).and_then(|()| input.flush());
            std::thread::sleep(Duration::from_millis(5));
        }
    };
    same("pieces of 17 bytes", fed(CHECK, slowly)?, second::print::check_prints(text.as_bytes()))?;
    Ok("board B in pieces of 17 bytes".into())
}
