#!/bin/sh
# Compiles include/rangqoda.h and smoke.c as C11 and as C++17 and the example as C11, with every warning an error, links them
# with the archive and runs them: tests/c/run.sh [ARCHIVE]. The archive is crates/rangqoda/out/librangqoda.a unless another is
# named. Where the compiler has checks of memory and of undefined behaviour, smoke.c is also run with these.
set -eu
root=$(cd "$(dirname "$0")/../.." && pwd)
archive=$(realpath -m "${1:-$root/crates/rangqoda/out/librangqoda.a}")
cd "$root"
if [ ! -f "$archive" ]; then
    echo "$archive is not there. Make it by this command in the root of the repository: (cd crates/rangqoda && rt lib)" >&2
    exit 1
fi
work=$(mktemp -d)
trap 'rm -rf "$work"' EXIT

strict="-Wall -Wextra -Werror -pedantic -Iinclude"
# The header by itself: it includes what it needs.
echo '#include "rangqoda.h"' | ${CC:-cc} -std=c11 $strict -x c -c - -o "$work/header-c.o"
echo '#include "rangqoda.h"' | ${CXX:-c++} -std=c++17 $strict -x c++ -c - -o "$work/header-c++.o"

# An answer that is not read is warned of, for each function but rangqoda_sum.
warned() {
    lines=$("$@" -Iinclude -c tests/c/unread.c -o "$work/unread.o" 2>&1 | grep -c 'warning: ignoring return value') || true
    if [ "$lines" != "$(grep -c '^uint32_t rangqoda_' include/rangqoda.h)" ]; then
        echo "$*: of the answers that are not read $lines are warned of" >&2
        exit 1
    fi
}
warned ${CC:-cc} -std=c11
warned ${CXX:-c++} -std=c++17 -x c++
echo 'answers that are not read: warned of'

${CC:-cc} -std=c11 $strict -O2 tests/c/smoke.c "$archive" -o "$work/smoke-c"
${CXX:-c++} -std=c++17 $strict -O2 -x c++ tests/c/smoke.c -x none "$archive" -o "$work/smoke-c++"
# The example: a packet as it was sent, one in which two bits flipped, one in which three did, one without a checksum that two sets of
# flips explain, files that are too short and too long, none, and no name of one. Held to are status, output and complaint.
${CC:-cc} -std=c11 $strict -O2 bindings/c/repair.c "$archive" -o "$work/repair"
example() {
    status=0
    said=$("$work/repair" ${1:+"$work/$1"} 2>"$work/complaint") || status=$?
    if [ "$status" != "$2" ] || [ "$said" != "$3" ] || [ "$(cat "$work/complaint")" != "$4" ]; then
        printf 'the example returned %s for "%s", and said:\n%s\n' "$status" "$1" "$said" >&2
        cat "$work/complaint" >&2
        exit 1
    fi
}
sent='63 68 20 37 20 62 61 64 67 65 20 32 73 02 0C 82'
printf 'ch 7 badge 2s\002\014\202' >"$work/sent"
printf 'ch 3 badg%% 2s\002\014\202' >"$work/two"
printf 'ch 3 badg%% 2s\002\015\202' >"$work/three"
printf 'ch 7 badga 2\000\000q\313' >"$work/several"
printf 'ch' >"$work/short"
printf '%513s' >"$work/long"
example sent 0 "publish the packet as it was received:
$sent" ''
example two 0 "publish the repaired packet:
$sent" ''
example three 1 'publish nothing: no two bit errors explain it' ''
example several 1 'publish nothing: several repairs are possible' ''
example short 2 '' 'refused 2'
example long 2 '' 'refused 2'
example none 2 '' 'repair: cannot read the file'
example '' 2 '' 'usage: repair FILE'
echo 'C example: as it should be'

checks='-fsanitize=address,undefined -fno-sanitize-recover=all'
if echo 'int main(void) { return 0; }' | ${CC:-cc} $checks -x c - -o "$work/probe" 2>/dev/null && "$work/probe"; then
    ${CC:-cc} -std=c11 $strict -O1 -g $checks tests/c/smoke.c "$archive" -o "$work/smoke-checked"
    printf 'C11, checked: '
    "$work/smoke-checked"
fi
printf 'C11: '
"$work/smoke-c"
printf 'C++17: '
"$work/smoke-c++"
