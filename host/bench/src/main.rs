//! The verified check and run beside plain Rust ones, in one program and one run.

mod checks;
mod clock;
mod runs;

fn main() {
    checks::print();
    runs::print();
}
