#!/usr/bin/env bash
# Counts the older forms that docs/DESIGN-PASS.md speaks of, in src/ of the checkout, or of a commit: tools/forms.sh [COMMIT].
# tools/forms.sh -v [COMMIT] shows each place.
set -eu
cd "$(dirname "$0")/.."
show=
[ "${1:-}" = -v ] && { show=1; shift; }
commit=${1:-}
places() {
    # The keys, constant byte strings by a rule of the project, are left out.
    git grep -nE "$1" ${commit:+"$commit"} -- 'crates/*/src/*.rt' | sed "s/^${commit:-nothing}://" | grep -v ' = \*b"' || true
}
count() {
    found=$(places "$2")
    printf '%4d  %s   %s\n' "$(printf '%s' "$found" | grep -c '')" "$1" "$2"
    [ -z "$show" ] || [ -z "$found" ] || printf '%s\n' "$found" | sed 's/^/          /'
}
count "1 enums of its own" '^\s*(pub )?enum '
count "1 an answer, a failure, a code or a flag as a field" '^\s*pub (answer|outcome|failed|code|overrun): '
count "1 zero for none" '0 where there is none'
twice=$(places 'fn [a-z_]+' | sed -E "s/.*fn ([a-z_]+).*/\1/" | sort | uniq -d)
printf '%4d  %s   %s\n' "$(printf '%s' "$twice" | grep -c '')" "2 function names that stand twice" "$(echo $twice)"
count "3 loops that count or search by hand" "^\s*('[a-z]+: )?(while|loop)\b"
count "4 conversions by as where std has From" '\bas u64\b|(s\[at\]|key\[i\]) as u32'
count "4 order, conversion and printing by hand" 'fn (above|below|later|exceeds|smaller|number|numbers|refusal|put_digits|put_key)\b'
count "5 requires" '^\s*requires'
count "6 arrays" ': \[[A-Za-z0-9]+; [0-9]+\]|= \[[^]]*; [0-9]+\]|-> \[[A-Za-z0-9]+; [0-9]+\]'
count "6 positions, counts and ends beside a buffer" '\b(at|count|length|end|most|next): usize'
count "7 dyn, closures, tables of functions" '\bdyn\b|\bFn(Mut|Once)?\b|: fn\('
