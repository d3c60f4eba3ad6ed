#!/bin/sh
# Refuses memory to the library: builds the programs that do so, and runs them side by side. fail.c refuses each
# allocation of a list of calls in turn; the others refuse as memory.h tells, and what each writes is compared with its
# file in expected/.
#
#     fail.sh libgrb_c.a liblibc_c.a
#
# CC and CFLAGS are those of the environment; where there are no CFLAGS, warnings are errors. Ends with status 0 where
# all was as the programs say.
set -eu
if [ $# -eq 0 ]; then
    echo "usage: fail.sh LIBRARY..." >&2
    exit 2
fi
here=$(dirname "$0")
work=$(mktemp -d)
trap 'rm -rf "$work"' EXIT
others=$(grep -l '^#include "memory.h"' "$here"/*.c | sed 's/.*\///; s/\.c$//')

for name in fail $others; do
    # CFLAGS is split into words on purpose.
    # shellcheck disable=SC2086
    "${CC:-cc}" -std=c11 ${CFLAGS:--O2 -Wall -Wextra -Werror} -I"$here" \
        -Wl,--wrap=malloc,--wrap=calloc,--wrap=realloc,--wrap=free \
        -o "$work/$name" "$here/$name.c" "$@" -lpthread
done

# Runs a program that refuses by itself. What it tells on standard error is told where something is wrong.
run() {
    "$work/$1" >"$work/$1.out" 2>"$work/$1.err" &&
        diff "$here/expected/$1.txt" "$work/$1.out" >>"$work/$1.err" && return
    echo "$1:" >&2
    tail -n 5 "$work/$1.err" >&2
    return 1
}

jobs=
for mode in once on; do
    "$work/fail" "$mode" &
    jobs="$jobs $!"
done
for name in $others; do
    run "$name" &
    jobs="$jobs $!"
done
failed=0
for job in $jobs; do
    wait "$job" || failed=1
done
[ "$failed" -eq 0 ] || exit 1
for mode in once on; do
    echo "allocations refused, $mode: no crash, no leak, no other status"
done
for name in $others; do
    echo "$name: as expected"
done
