#!/bin/sh
# Proves and builds the programs and the static library: target/bin/boardcheck, target/bin/boardrun and
# target/staticlib/libdesk.a, or `host/build.sh NAME..` only those of these crates. What the check says stands in
# target/build.log, and is shown if it fails. Run from the repository's root.
set -eu
mkdir -p target/bin target/staticlib
root=$PWD
made() {
    cd "$root/crates/$1" || return 1
    if [ "$1" = desk ]; then
        rt lib && cp out/libdesk.a "$root/target/staticlib/"
    else
        rt run <stdin && cp "out/$1" "$root/target/bin/"
    fi
}
[ $# -gt 0 ] || set -- boardcheck boardrun desk
for name in "$@"; do
    if ! (made "$name") >target/build.log 2>&1; then
        cat target/build.log
        exit 1
    fi
done
