#!/bin/sh
# Draws runs as target/timeline.svg: `host/timeline.sh [[NAME=]FILE.run..]`, P7 beside P8 unless told; docs/timeline.svg is that
# picture. Run from the repository's root.
set -eu
host/build.sh
(cd host && cargo build --release --offline --locked --quiet)
[ $# -gt 0 ] || set -- "P7: releases spread out=boards/b.run" "P8: all released together=boards/b-together.run"
host/target/release/tables "$@" | host/target/release/timeline >target/timeline.svg
echo "target/timeline.svg"
