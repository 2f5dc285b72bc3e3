#!/bin/sh
# The gate's tests with more of everything random: `host/soak.sh [TIMES]`, 20 times as much unless told. Run from the
# repository's root.
set -eu
host/build.sh
(cd host && cargo build --release --offline --locked --quiet)
exec host/target/release/gate soak "${1:-20}"
