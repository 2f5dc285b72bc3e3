#!/bin/sh
# Measures the verified check and run beside plain Rust ones. Run from the repository's root.
set -eu
host/build.sh
(cd host && cargo build --release --offline --locked --quiet)
exec host/target/release/bench
