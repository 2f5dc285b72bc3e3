#!/usr/bin/env bash
# Prints docs/PROOFS.md's table: for each crate its lines of code, of definitions, of laws and of proof (blank lines and
# comments left out), and its must-fail edits. Laws stand in files of specs/ that open with "Assumes nothing." and in files of
# proofs/ beside the functions' folders; any other file of specs/ holds definitions, and a function's folder its proof.
set -eu
cd "$(dirname "$0")/.."
lines() { cat /dev/null "$@" | awk 'NF && $1 !~ /^(--|\/\/)/' | wc -l; }
echo "| crate | code | definitions | laws | proof | must-fail edits |"
echo "|---|---|---|---|---|---|"
while read -r name _; do
    name=${name%:}
    [[ -z $name || $name == \#* ]] && continue
    folder=crates/$name
    mapfile -t code < <(find "$folder/src" -name '*.rt')
    mapfile -t laws < <(find "$folder/specs" -name '*.antt' 2>/dev/null | xargs -r awk 'FNR <= 3 && /Assumes nothing/ { print FILENAME }' | sort -u)
    mapfile -t definitions < <(find "$folder/specs" -name '*.antt' 2>/dev/null | grep -vxF -f <(printf '%s\n' "${laws[@]:-none}"))
    mapfile -t more < <(find "$folder/proofs" -name '*.antt' ! -name Answers.antt ! -name Invariants.antt ! -name Proof.antt 2>/dev/null)
    mapfile -t proofs < <(find "$folder/proofs" \( -name Answers.antt -o -name Invariants.antt -o -name Proof.antt \) 2>/dev/null)
    edits=$(find "$folder/must-fail" -name '*.edit' 2>/dev/null | wc -l)
    echo "| $name | $(lines "${code[@]}") | $(lines "${definitions[@]}") | $(lines "${laws[@]}" "${more[@]}") | $(lines "${proofs[@]}") | $edits |"
done < crates.txt
