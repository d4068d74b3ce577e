#!/usr/bin/env bash
# Programs that must not compile, beside twins that do. It stands beside the gate: a program that is
# refused before the prover sees it cannot be one of the planted bugs.
# Run it from anywhere; it works in a temporary copy of the repository.
set -eu
top=$(cd "$(dirname "$0")/.." && pwd)
copy=$(mktemp -d)
trap 'rm -rf "$copy"' EXIT
(cd "$top" && git ls-files crates.txt crates | tar -c -T -) | tar -x -C "$copy"
echo "probe: plane entry links preset_map" >> "$copy/crates.txt"
mkdir -p "$copy/crates/probe/src"
cd "$copy/crates/probe"
failed=0

# try FILE WORD: the check of FILE prints WORD
try() {
    cp "$top/tools/refused/$1" src/lib.rt
    if rt check 2>&1 | grep -q -- "$2"; then
        echo "ok: $1: $2"
    else
        echo "NOT AS EXPECTED: $1: no $2"
        failed=1
    fi
}

try used_up_draft.txt borrow-e0382
try used_up_draft_twin.txt logic=proved
exit $failed
