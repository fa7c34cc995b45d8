#!/usr/bin/env bash
# Runs the Rust example simulate, and compares what it prints with bindings/rust/examples/simulate.txt. The table there is the one that
# README.md shows. Then runs it on inputs that are wrong, and compares its message and its status; it prints nothing else then. Cargo
# builds it, in CARGO_TARGET_DIR and with the archive in RANGQODA_LIB_DIR where these are set. The version in the expected output is
# that of the crate.
set -euo pipefail
root=$(cd "$(dirname "$0")/.." && pwd)
build=(cargo build --quiet --release --offline --manifest-path "$root/bindings/rust/Cargo.toml" --example simulate)
folder=$(mktemp -d)
trap 'rm -rf "$folder"' EXIT
count=0
failed=0

simulate() {
    "$program" "$@" >"$folder/out" 2>"$folder/err"
}

# Says that an input was not as it should be: wrong WHAT ARGUMENTS
wrong() {
    failed=$((failed + 1))
    printf 'simulate %s: %s\n' "$2" "$1"
}

# Runs an input that is to print the lines of a file: prints FILE ARGUMENT...
prints() {
    local file=$1
    shift
    count=$((count + 1))
    if ! simulate "$@"; then
        wrong "it failed: $(cat "$folder/err")" "$*"
    elif ! diff "$file" "$folder/out"; then
        wrong "it prints something else" "$*"
    elif [ -s "$folder/err" ]; then
        wrong "it says $(cat "$folder/err")" "$*"
    fi
}

# Runs an input that is wrong: says STATUS MESSAGE ARGUMENT...
# The message is the first line behind "simulate: ". For status 2 and a wrong number of arguments the usage follows.
says() {
    local status=$1 message=$2 found=0
    shift 2
    count=$((count + 1))
    simulate "$@" || found=$?
    if [ "$found" -ne "$status" ]; then
        wrong "status $found, and not $status" "$*"
    elif [ -s "$folder/out" ]; then
        wrong "it prints something" "$*"
    elif [ "$(head -n 1 "$folder/err")" != "simulate: $message" ]; then
        wrong "it says \"$(head -n 1 "$folder/err")\", and not \"simulate: $message\"" "$*"
    elif [[ $message == "7 arguments are needed"* ]]; then
        grep -q 'simulate -- CRC-16/IBM-3740 64 0..62 60 2 10000 1' "$folder/err" || wrong "no example of its use" "$*"
    elif [ "$(wc -l <"$folder/err")" -ne 1 ]; then
        wrong "it says more than one line" "$*"
    fi
}

# Looks for the first lines of a file in README.md, indented by four blanks, with an empty line on each side: shown FILE LINES
shown() {
    local readme text
    count=$((count + 1))
    text=$(head -n "$2" "$1" | sed 's/^/    /')
    readme=$(cat "$root/README.md")
    if [[ $'\n\n'$readme$'\n\n' != *$'\n\n'"$text"$'\n\n'* ]]; then
        wrong "its table is not the one in $1" "in README.md"
    fi
}

# the program is where cargo says that it put it
program=$("${build[@]}" --message-format=json-render-diagnostics | sed -n 's/.*"executable":"\([^"]*\)".*/\1/p')

prints "$root/bindings/rust/examples/simulate.txt" CRC-16/IBM-3740 64 0..62 60 2 10000 1
shown "$root/bindings/rust/examples/simulate.txt" 11

says 2 '7 arguments are needed, and 0 came'
says 2 '7 arguments are needed, and 6 came' CRC-16/IBM-3740 64 0..62 60 2 10000
says 2 '7 arguments are needed, and 8 came' CRC-16/IBM-3740 64 0..62 60 2 10000 1 1
# the usage is the same where it is asked for
tail -n +3 "$folder/err" >"$folder/usage"
prints "$folder/usage" --help
prints "$folder/usage" -h
says 2 'no CRC is called "CRC-16/KERMIT" here. `simulate names` prints the names. None is reflected, and none wider than 16 bits' \
    CRC-16/KERMIT 64 0..62 60 2 10000 1
says 2 'BYTES is "sixty", which is no number' CRC-16/IBM-3740 sixty 0..62 60 2 10000 1
says 2 'RANGE is "0-61", which is no range: bytes 0 to 61 are 0..62' CRC-16/IBM-3740 64 0-61 60 2 10000 1
says 2 'RANGE is "0..=61", which is no range: bytes 0 to 61 are 0..62' CRC-16/IBM-3740 64 0..=61 60 2 10000 1
says 2 'FIELD is "-2", which is no number' CRC-16/IBM-3740 64 0..62 -2 2 10000 1
says 2 'N is "", which is no number' CRC-16/IBM-3740 64 0..62 60 '' 10000 1
says 2 'TRIALS is "10,000", which is no number' CRC-16/IBM-3740 64 0..62 60 2 10,000 1
says 2 'TRIALS is 18446744073709551616, which is too great' CRC-16/IBM-3740 64 0..62 60 2 18446744073709551616 1
says 2 'SEED is 4294967296, which is too great: the greatest is 4294967295' CRC-16/IBM-3740 64 0..62 60 2 10000 4294967296
says 1 'refused 2: the length is not above the degree, or above 4096 bits (BYTES is 513; a packet has room for its CRC and more, and at most 512 bytes)' \
    CRC-16/IBM-3740 513 0..62 60 2 10000 1
largest=18446744073709551615
says 1 "refused 2: the length is not above the degree, or above 4096 bits (BYTES is $largest; a packet has room for its CRC and more, and at most 512 bytes)" \
    CRC-16/IBM-3740 $largest 0..62 60 2 10000 1
says 1 'refused 3: the error limit is outside 1 to 4 (N is 5)' CRC-16/IBM-3740 64 0..62 60 5 10000 1
says 1 'refused 9: the range ends before its start or reaches into the CRC (RANGE is 0..63, BYTES is 64)' \
    CRC-16/IBM-3740 64 0..63 60 2 10000 1
says 1 'refused 10: the field is not whole in the range, or not an even number of bytes from its start (FIELD is 61, RANGE is 0..62)' \
    CRC-16/IBM-3740 64 0..62 61 2 10000 1
says 1 'refused 10: the field is not whole in the range, or not an even number of bytes from its start (RANGE is 0..0 and has no bytes: every packet that is tried carries a checksum)' \
    CRC-16/IBM-3740 64 0..0 0 2 10000 1
says 1 'refused 14: the number of trials is outside 1 to 65535 (TRIALS is 0; more than 65535 are divided into several calls)' \
    CRC-16/IBM-3740 64 0..62 60 2 0 1

echo "Rust example simulate: $((count - failed)) of $count inputs as they should be"
[ "$count" -gt 0 ] && [ "$failed" -eq 0 ]
