#!/bin/sh
# Tests everything outside the proofs: the static library, the programs and the C side. Run from the repository's root,
# over what `rt ci` proved. The last line is 'host: N passed, M failed'.
set -eu
# The order of file names, and with it the desk's output, is to be the same everywhere.
LC_ALL=C
export LC_ALL

passed=0
failed=0
made=target/hosttest
strict="-O2 -Wall -Wextra -Werror -pedantic -Iinclude"
library=target/staticlib/libdesk.a

# Counts a command as a test: `try NAME COMMAND..`; what it prints is shown only if it fails.
try() {
    name=$1
    shift
    if "$@" >"$made/log" 2>&1; then
        passed=$((passed + 1))
        said=$(tail -n 1 "$made/log")
        echo "          ok    $name${said:+: $said}"
    else
        failed=$((failed + 1))
        echo "          FAIL  $name:"
        tail -n 40 "$made/log"
    fi
}

echo "host: the programs, the static library and the Rust side"
host/build.sh
mkdir -p "$made"
(cd host && cargo build --release --offline --locked --quiet)

echo "host: the library by itself"
# It calls nothing but plain copies of memory, so it allocates nothing; it has no data that can be written, so calls share
# no state.
closed() {
    nm --defined-only "$library" | awk 'NF == 3 { print $3 }' | sort -u >"$made/defined"
    for entry in batkhreli_check batkhreli_slacks batkhreli_run batkhreli_table; do
        grep -qx "$entry" "$made/defined" || { echo "$entry is not exported"; return 1; }
    done
    nm --undefined-only "$library" | awk 'NF == 2 { print $2 }' | sort -u | comm -23 - "$made/defined" >"$made/undefined"
    if grep -vxE 'mem(cpy|move|set|cmp)|bcmp|_GLOBAL_OFFSET_TABLE_' "$made/undefined"; then
        echo "is called and not in the library"
        return 1
    fi
    size -A "$library" | awk '$1 ~ /^\.(data|bss|tdata|tbss)/ && $1 !~ /^\.data\.rel\.ro/ { bytes += $2 }
        END { print bytes + 0 " bytes of data that can be written"; exit bytes > 0 }' || return 1
    echo "calls only: $(tr '\n' ' ' <"$made/undefined")"
}
try "no allocation, no state" closed

echo "host: the header and the desk's program"
# shellcheck disable=SC2086
{
    try "header as C11" gcc -std=c11 $strict host/c/header.c "$library" -o "$made/header_c"
    try "header as C++" g++ -std=c++11 $strict -x c++ host/c/header.c -x none "$library" -o "$made/header_cxx"
    try "desk.c as C11" gcc -std=c11 $strict examples/desk.c "$library" -o "$made/desk"
    try "caller.c as C11" gcc -std=c11 -g $strict host/c/caller.c "$library" -o "$made/caller"
    try "stack.c as C11" gcc -std=gnu11 $strict -pthread host/c/stack.c "$library" -o "$made/stack"
}
try "empty board from C" "$made/header_c"
try "empty board from C++" "$made/header_cxx"

# The desk refuses some of the samples, so its exit is 1; what it prints is stored.
desk_prints() {
    "$made/desk" boards/*.board boards/*.run "$made/long.board" >"$made/desk.out" || [ $? -eq 1 ] || return 1
    sed "s,^$made/,," "$made/desk.out" | diff examples/desk.expected - || return 1
    echo "$(grep -c ': code' "$made/desk.out") files, each with a line of advice, as stored"
}
head -c 70000 /dev/zero >"$made/long.board"
try "desk on the samples" desk_prints

echo "host: memory and stack"
under_valgrind() {
    host/target/release/gate corpus "$made/corpus" || return 1
    valgrind --quiet --leak-check=full --error-exitcode=9 "$made/caller" "$made/corpus"
}
try "C caller under valgrind" under_valgrind
stack_need() {
    host/target/release/gate large "$made/large.board" "$made/large.run" || return 1
    "$made/stack" "$made/large.board" "$made/large.run" >"$made/stack.out" || { cat "$made/stack.out"; return 1; }
    tr '\n' ';' <"$made/stack.out"
}
try "stack within the header's figure" stack_need

echo "host: the picture of a run"
picture() {
    host/target/release/tables "P7: releases spread out=boards/b.run" "P8: all released together=boards/b-together.run" \
        >"$made/tables" || return 1
    diff host/tables/expected "$made/tables" || return 1
    host/target/release/timeline <"$made/tables" >"$made/timeline.svg" || return 1
    diff docs/timeline.svg "$made/timeline.svg" || return 1
    echo "the tables of P7 and P8 as stored, and their picture as docs/timeline.svg"
}
try "tables and picture" picture

echo "host: the library and the programs against the second implementation"
timeout 900 host/target/release/gate all >"$made/gate.out" || true
cat "$made/gate.out"
counts=$(sed -n 's/^gate: \([0-9]*\) passed, \([0-9]*\) failed$/\1 \2/p' "$made/gate.out")
# A gate that ended without its last line crashed.
[ -n "$counts" ] || counts="0 1"
passed=$((passed + ${counts% *}))
failed=$((failed + ${counts#* }))

echo "host: $passed passed, $failed failed"
[ "$failed" -eq 0 ]
