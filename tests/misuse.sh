#!/usr/bin/env bash
# Callers that misuse a match: each text of tests/misuse becomes a crate above `game` in a copy of the repository, and the
# compiler must say there what the text's line `expect:` says.
set -eu
top=$(cd "$(dirname "$0")/.." && pwd)
copy=$(mktemp -d)
trap 'rm -rf "$copy"' EXIT
tar -C "$top" --exclude=out -cf - crates crates.txt | tar -C "$copy" -xf -
echo "misuse: certificate players game" >>"$copy/crates.txt"
mkdir -p "$copy/crates/misuse/src"
cd "$copy/crates/misuse"
for case in "$top"/tests/misuse/*.txt; do
    expected=$(sed -n 's/^expect: //p' "$case")
    { echo '#![tactic(auto)]'; grep -v '^#\|^expect: ' "$case"; } >src/lib.rt
    rt check >said.log 2>&1 || true
    # what it says of the case's own file, and its verdict on the case, the last one that it prints
    { grep 'src/lib\.rt:[0-9]' said.log || true; grep '^logic=' said.log | tail -n 1; } >own.log
    if grep -qF "$expected" own.log; then
        echo "misuse $(basename "$case" .txt): $expected"
    else
        tail -n 5 said.log
        echo "misuse $(basename "$case" .txt): the compiler does not say: $expected"
        exit 1
    fi
done
