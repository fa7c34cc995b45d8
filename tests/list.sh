#!/bin/sh
# Runs the listing program on each input of tests/list.txt, and on a line that arrives in two pieces, and compares what it
# prints: tests/list.sh [PROGRAM]. The program is crates/list/out/list unless another is named. A row has the number of lines,
# the cksum and the last line, and behind a bar the input, with escapes as printf takes them.
set -eu
root=$(cd "$(dirname "$0")/.." && pwd)
program=${1:-$root/crates/list/out/list}
if ! command -v "$program" >/dev/null; then
    echo "$program is not there. Make it by this command in the root of the repository: (cd crates/list && rt run <stdin)" >&2
    exit 1
fi
out=$(mktemp)
trap 'rm -f "$out"' EXIT
count=0
failed=0

# Holds what was printed to a row: compare EXPECTED INPUT
compare() {
    expected=$1 input=$2
    count=$((count + 1))
    set -- $(cksum <"$out")
    found="$(($(wc -l <"$out"))) $1 $(tail -n 1 "$out")"
    if [ "$found" != "$expected" ]; then
        failed=$((failed + 1))
        printf 'for "%s" the program printed %s, and not %s\n' "$input" "$found" "$expected"
    fi
}

while IFS='|' read -r expected input; do
    printf '%b' "$input" | "$program" >"$out" || echo "status $?" >>"$out"
    compare "$expected" "$input"
done <"$root/tests/list.txt"
rows=$count

# A pause between the pieces: one read has the first alone.
{ printf '53 8'; sleep 1; printf ' 2 3\n'; } | "$program" >"$out" || echo "status $?" >>"$out"
compare '3 181545501 end 2' '53 8, and then 2 3'

echo "listing program: $count inputs, $failed failed"
[ "$rows" -gt 0 ] && [ "$failed" -eq 0 ]
