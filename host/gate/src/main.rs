//! The tests over the verified library and programs. Run from the repository's root.
//!
//! `gate all` is what belongs in the gate, `gate soak TIMES` the same with more of everything random, `gate corpus FILE`
//! writes texts with their answers for the C caller, `gate large BOARD RUN` the largest inputs. The last line of a test
//! counts what passed and failed.

mod adversary;
mod boards;
mod compare;
mod corpus;
mod damage;
mod feed;
mod fence;
mod guarded;
mod large;
mod programs;
mod report;
mod runs;
mod samples;
mod slices;
mod tables;
mod threads;
mod vectors;
mod workers;

use report::Report;

fn main() {
    let words: Vec<String> = std::env::args().skip(1).collect();
    let words: Vec<&str> = words.iter().map(String::as_str).collect();
    match words[..] {
        ["all"] => everything(1),
        ["soak", times] => everything(times.parse().expect("a number of times")),
        ["corpus", file] => corpus::write(file),
        ["large", board, run] => large::write(board, run),
        _ => {
            eprintln!("gate all | gate soak TIMES | gate corpus FILE | gate large BOARD RUN");
            std::process::exit(2);
        }
    }
}

/// All tests, the random ones `times` as long as in the gate.
fn everything(times: u64) {
    let mut report = Report::new();
    vectors::test(&mut report);
    slices::test(&mut report);
    threads::test(&mut report);
    programs::test(&mut report);
    samples::test(&mut report);
    boards::test(&mut report, times);
    runs::test(&mut report, times);
    tables::test(&mut report, times);
    damage::test(&mut report, times);
    adversary::test(&mut report, times);
    report.end();
}
