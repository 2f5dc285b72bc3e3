//! The paper's own examples, stored with their answers, through the second implementation and the verified library.

use crate::report::{same, Report};
use inputs::known::{a, b, board, list, p7, p8};
use inputs::write::{board_text, run_text};
use second::board::Board;
use second::Answer;

/// A text with what the paper says of it: for a check its slacks, for a run its responses.
struct Vector {
    name: &'static str,
    text: String,
    run: bool,
    answer: Answer,
    numbers: Vec<u64>,
}

pub fn test(report: &mut Report) {
    for vector in checks().into_iter().chain(texts()).chain(runs()).chain(longest()) {
        let name = vector.name;
        report.take(name, one(&vector));
    }
    report.take("job counts", job_counts());
}

fn one(vector: &Vector) -> Result<String, String> {
    let text = vector.text.as_bytes();
    let wanted = (vector.answer, vector.numbers.clone());
    if vector.run {
        same("second run", ran(text, second::run::run), wanted.clone())?;
        same("library's run", ran(text, boundary::run), wanted)?;
    } else {
        same("second check", second::check::check(text), wanted.clone())?;
        same("library's check", boundary::check(text), wanted.0)?;
        same("library's slacks", slacks(text), wanted)?;
    }
    Ok(format!("{:?} {:?}", vector.answer, vector.numbers))
}

/// What marks a place that nothing was written to.
const KEPT: u32 = 4_000_000_000;

/// A run's answer and the places that it wrote.
fn ran(text: &[u8], run: impl Fn(&[u8], &mut [u32]) -> Answer) -> (Answer, Vec<u64>) {
    let mut places = [KEPT; 1_000];
    let answer = run(text, &mut places);
    (answer, places.into_iter().filter(|&place| place != KEPT).map(u64::from).collect())
}

/// The library's slacks, as many as it wrote.
fn slacks(text: &[u8]) -> (Answer, Vec<u64>) {
    let mut slacks = [u64::MAX; 96];
    let answer = boundary::slacks(text, &mut slacks);
    (answer, slacks.into_iter().filter(|&slack| slack != u64::MAX).collect())
}

fn changed(mut board: Board, change: impl Fn(&mut Board)) -> Board {
    change(&mut board);
    board
}

fn check(name: &'static str, board: Board, answer: Answer, slacks: &[u64]) -> Vector {
    Vector { name, text: board_text(&board), run: false, answer, numbers: slacks.to_vec() }
}

/// The boards of P1 to P6 and P10, and those to be compared by program.
fn checks() -> Vec<Vector> {
    let certificate = |place: usize, (y, z, q): (u32, u32, u32)| {
        move |board: &mut Board| {
            let task = &mut board.tasks[place - 1];
            (task.y, task.z, task.q) = (y, z, q);
        }
    };
    let bound = |place: usize, r: u32| move |board: &mut Board| board.tasks[place - 1].r = r;
    vec![
        check("P1, board A", a(), (0, 0, 0), &[1, 3, 8]),
        check("P2, A with r_3 = 4", changed(a(), bound(3, 4)), (7, 3, 0), &[]),
        check("P3, A with task 3 on 1,2,8", changed(a(), certificate(3, (1, 2, 8))), (6, 3, 2), &[]),
        check("P4, board B", b(), (0, 0, 0), &[1, 26, 24, 8]),
        check("P5, B with task 4 on 7,10,70", changed(b(), certificate(4, (7, 10, 70))), (6, 4, 1), &[]),
        check("P6, B with r_4 = 11", changed(b(), bound(4, 11)), (7, 4, 0), &[]),
        check("P10, equality", board(&[1], &[[2, 2, 2, 1, 0, 1, 1]]), (7, 1, 0), &[]),
        check("P10, all ones", board(&[1], &[[1, 1, 1, 1, 0, 1, 1]]), (0, 0, 0), &[1]),
        check("speeds 2, 4", changed(a(), |board| board.speeds = vec![2, 4]), (3, 2, 0), &[]),
        check("d = 11, t = 10", changed(a(), |board| board.tasks[0].d = 11), (4, 1, 0), &[]),
        check("A with r_3 = 21", changed(a(), bound(3, 21)), (5, 3, 0), &[]),
        check("one job in 9 ticks", counting(9), (0, 0, 0), &[8, 32]),
        check("two jobs in 10 ticks", counting(10), (0, 0, 0), &[8, 32]),
    ]
}

/// A task with r = 2 and t = 10 and a charge of 4, and below it one whose bound of `r` ticks has the slack 4 r - 4 jobs.
fn counting(r: u32) -> Board {
    board(&[4], &[[1, 10, 10, 2, 0, 1, 4], [1, 100, 100, r, 1, 1, 4]])
}

/// Texts that no board writes.
fn texts() -> Vec<Vector> {
    let text = |name, text: String, answer| Vector { name, text, run: false, answer, numbers: Vec::new() };
    let whole = board_text(&a());
    vec![
        text("c=08", whole.replacen("c=8", "c=08", 1), (1, 5, 0)),
        text("q=0", whole.replacen("q=4", "q=0", 1), (2, 11, 0)),
        text("the empty input", String::new(), (1, 1, 0)),
        text("no last LF", whole.trim_end().to_string(), (1, 25, 0)),
        text("a byte after the last line", whole.clone() + "x", (1, 26, 0)),
        text("a list after the board", run_text(&a(), &list(0, &[])), (1, 26, 0)),
        text("the last line missing", whole.replace("q=12\n", ""), (1, 25, 0)),
        text("8 digits before the range", whole.replacen("c=8", "c=10000000", 1), (1, 5, 0)),
        text("7 digits out of range", whole.replacen("c=8", "c=9999999", 1), (2, 5, 0)),
        text("65,536 bytes", "1".repeat(65_536), (1, 1, 0)),
        text("65,537 bytes", "1".repeat(65_537), (1, 0, 0)),
    ]
}

/// The runs of P7 to P9 and P11, and the order of the refusals.
fn runs() -> Vec<Vector> {
    let run = |name, board: &Board, list: &second::list::List, answer, responses: &[u64]| Vector {
        name,
        text: run_text(board, list),
        run: true,
        answer,
        numbers: responses.to_vec(),
    };
    let short = second::list::List { ticks: 10, ..p7() };
    let tight = board(&[1], &[[3, 2, 2, 1, 0, 1, 1]]);
    let late = changed(b(), |board| board.tasks[0].d = 1001);
    vec![
        run("P7, one after the other", &b(), &p7(), (0, 0, 0), &[7, 11, 2, 1]),
        run("P8, all together", &b(), &p8(), (0, 0, 0), &[7, 7, 7, 10]),
        run("P9, ten ticks", &b(), &short, (0, 0, 0), &[7, 0, 2, 1]),
        run("P11, an overrun", &tight, &list(3, &[(0, 1, 0), (2, 1, 0)]), (9, 2, 2), &[0, 0]),
        run("an overrun at the end does not count", &tight, &list(2, &[(0, 1, 0), (2, 1, 0)]), (0, 0, 0), &[0, 0]),
        run("no ticks", &b(), &list(0, &[(0, 1, 0)]), (0, 0, 0), &[0]),
        run("no releases", &b(), &list(5, &[]), (0, 0, 0), &[]),
        run("a release at the end", &b(), &list(5, &[(4, 1, 7), (5, 2, 0)]), (0, 0, 0), &[1, 0]),
        run("unknown task", &b(), &list(5, &[(0, 1, 0), (0, 5, 0)]), (8, 2, 1), &[]),
        run("task 0", &b(), &list(5, &[(0, 0, 0)]), (8, 1, 1), &[]),
        run("order", &b(), &list(5, &[(0, 2, 0), (0, 1, 0)]), (8, 2, 2), &[]),
        run("the same release twice", &b(), &list(5, &[(0, 2, 0), (0, 2, 0)]), (8, 2, 2), &[]),
        run("units", &b(), &list(5, &[(0, 1, 50)]), (8, 1, 3), &[]),
        run("gap", &b(), &list(5, &[(0, 1, 0), (999, 1, 0)]), (8, 2, 4), &[]),
        run("no gap", &b(), &list(5, &[(0, 1, 0), (1000, 1, 0)]), (0, 0, 0), &[0, 0]),
        run("d above t, in a run", &late, &list(5, &[(0, 9, 0)]), (4, 1, 0), &[]),
    ]
}

/// Every number as long as it may be. The run's text has 44,525 bytes, and no well-formed one has more.
fn longest() -> Vec<Vector> {
    const MILLION: u32 = 1_000_000;
    let task = [MILLION, MILLION, MILLION, MILLION, 100_000, 100_000, 100_000];
    let board = board(&[100; 8], &[task; 96]);
    let list = list(MILLION, &[(MILLION, MILLION, MILLION); 1_000]);
    let text = run_text(&board, &list);
    assert_eq!(text.len(), 44_525);
    vec![
        check("the longest board", board, (7, 2, 0), &[]),
        Vector { name: "the longest run", text, run: true, answer: (8, 1, 1), numbers: Vec::new() },
    ]
}

/// r_k = 2 and t_k = 10 count 1 job at R = 9 and 2 at R = 10.
fn job_counts() -> Result<String, String> {
    same("R = 9", second::check::jobs(9, 2, 10), 1)?;
    same("R = 10", second::check::jobs(10, 2, 10), 2)?;
    Ok("r = 2, t = 10: 1 job in 9 ticks, 2 in 10".into())
}
