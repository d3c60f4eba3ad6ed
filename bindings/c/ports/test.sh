#!/bin/sh
# Builds and runs the port, and the program that it was ported from where there is GraphBLAS.h.
#
#     test.sh libgrb_c.a liblibc_c.a
#
# CC and CFLAGS are those of the environment. Ends with status 0 where each program prints expected.txt.
set -eu
if [ $# -eq 0 ]; then
    echo "usage: test.sh LIBRARY..." >&2
    exit 2
fi
here=$(dirname "$0")
work=$(mktemp -d)
trap 'rm -rf "$work"' EXIT

# Builds a program with these words, runs it and compares.
run() {
    name=$1
    shift
    # CFLAGS is split into words on purpose.
    # shellcheck disable=SC2086
    "${CC:-cc}" -std=c11 ${CFLAGS:--O2 -Wall -Wextra -Werror} -I"$here/.." -o "$work/$name" "$here/$name.c" "$@"
    "$work/$name" | diff "$here/expected.txt" -
}

run trowelheath "$@" -lpthread
for folder in /usr/include /usr/include/suitesparse; do
    if [ -e "$folder/GraphBLAS.h" ]; then
        run graphblas -I"$folder" -lgraphblas
        exit 0
    fi
done
echo "left out: graphblas.c, since there is no GraphBLAS.h"
