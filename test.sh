#!/bin/sh
# Tests everything: each Rattle file is a listed crate's, then the toolchain's own gate. A must-fail edit whose text no longer stands in
# the source shows nothing, and the toolchain passes over it with a word: here it fails.
set -eu
cd "$(dirname "$0")"
find . \( -name out -o -name .git \) -prune -o \( -name '*.rt' -o -name '*.antt' \) -print | while read -r file; do
    name=$(echo "$file" | sed -n 's,^\./crates/\([^/]*\)/\(src\|specs\|proofs\)/.*,\1,p')
    grep -q "^${name:-none}:" crates.txt || { echo "$file is no file of a crate that crates.txt lists"; exit 1; }
done
said=$(mktemp -d)
trap 'rm -rf "$said"' EXIT
{
    status=0
    rt ci || status=$?
    echo "$status" >"$said/status"
} 2>&1 | tee "$said/lines"
status=$(cat "$said/status")
if grep -q '^rt: ok.*, [0-9]* bad' "$said/lines"; then
    echo "a must-fail edit no longer fits the source"
    status=1
fi
exit "$status"
