//! Odd slices at the boundary: at every address, of no length, with no address.

use crate::report::{same, Report};
use boundary::raw;
use inputs::known::{a, b, list, p7};
use inputs::write::{board_text, run_text};

pub fn test(report: &mut Report) {
    report.take("texts at every address", every_address());
    report.take("lent places at every address", every_place());
    report.take("slices of no length", no_length());
}

/// The same texts beginning at 64 addresses in a row.
fn every_address() -> Result<String, String> {
    let (check, run) = (board_text(&a()), run_text(&b(), &p7()));
    for shift in 0..64 {
        let shifted = |text: &str| [vec![b'='; shift], text.as_bytes().to_vec(), vec![b'1'; 9]].concat();
        let (checked, ran) = (shifted(&check), shifted(&run));
        same("check", boundary::check(&checked[shift..shift + check.len()]), (0, 0, 0))?;
        let mut places = [0; 4];
        same("run", boundary::run(&ran[shift..shift + run.len()], &mut places), (0, 0, 0))?;
        same("responses", places, [7, 11, 2, 1])?;
    }
    Ok("64 addresses in a row".into())
}

/// Numbers are lent at addresses that are multiples of their size, and of nothing larger.
fn every_place() -> Result<String, String> {
    let (check, run) = (board_text(&a()), run_text(&b(), &p7()));
    for shift in 0..16 {
        let mut slacks = [9; 24];
        same("slacks", boundary::slacks(check.as_bytes(), &mut slacks[shift..shift + 3]), (0, 0, 0))?;
        let mut wanted = [9; 24];
        wanted[shift..shift + 3].copy_from_slice(&[1, 3, 8]);
        same("slacks", slacks, wanted)?;
        let mut places = [9; 24];
        same("run", boundary::run(run.as_bytes(), &mut places[shift..shift + 4]), (0, 0, 0))?;
        let mut wanted = [9; 24];
        wanted[shift..shift + 4].copy_from_slice(&[7, 11, 2, 1]);
        same("responses", places, wanted)?;
    }
    Ok("16 addresses in a row".into())
}

/// A length of 0 with a null pointer, as C passes it, and with a pointer to nothing, as Rust does.
fn no_length() -> Result<String, String> {
    let (check, run) = (board_text(&a()), run_text(&b(), &list(5, &[])));
    let one = run_text(&b(), &list(5, &[(0, 1, 0)]));
    let (mut place, mut detail) = (5, 5);
    for nothing in [std::ptr::null::<u8>(), [].as_ptr()] {
        // SAFETY: nothing is read or written through a pointer with length 0; place and detail are lent.
        let code = unsafe { raw::batkhreli_check(nothing, 0, &mut place, &mut detail) };
        same("check of nothing", (code, place, detail), (1, 1, 0))?;
        let code = unsafe { raw::batkhreli_run(nothing, 0, std::ptr::null_mut(), 0, &mut place, &mut detail) };
        same("run of nothing", (code, place, detail), (1, 1, 0))?;
    }
    let null = std::ptr::null_mut();
    let code = unsafe { raw::batkhreli_slacks(check.as_ptr(), check.len(), null, 0, &mut place, &mut detail) };
    same("no slacks lent", (code, place, detail), (0, 0, 0))?;
    let null = std::ptr::null_mut();
    let code = unsafe { raw::batkhreli_run(run.as_ptr(), run.len(), null, 0, &mut place, &mut detail) };
    same("no places, no releases", (code, place, detail), (0, 0, 0))?;
    let code = unsafe { raw::batkhreli_run(one.as_ptr(), one.len(), null, 0, &mut place, &mut detail) };
    same("no places, one release", (code, place, detail), (10, 1, 0))?;
    same("no slice", boundary::slacks(b"", &mut []), (1, 1, 0))?;
    Ok("null and dangling pointers".into())
}
