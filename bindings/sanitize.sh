#!/usr/bin/env bash
# Runs the programs in C, C++ and Rust under the address, undefined behaviour and thread sanitizers and under valgrind: once a release. The
# library itself is not instrumented, so the sanitizers see what the programs and their headers do, and each block that the library takes.
#   bindings/sanitize.sh
# The library is built anew where a source of it is newer. A program that does not build has failed. The last line is 'N passed, M failed',
# and the status is 1 where one failed or none passed. KIT, CC, CXX and RUSTC as in run.sh.
set -u
shopt -s nullglob
cd "$(dirname "${BASH_SOURCE[0]}")" || exit 2
KIT=${KIT:-$(dirname "$(rt doc)")}
CC=${CC:-cc} CXX=${CXX:-c++} RUSTC=${RUSTC:-rustc}
./library.sh || exit 1
library=$(realpath ../crates/grb_c/out/libgrb_c.a) || exit 1
heap=$KIT/c/liblibc_c.a
link=("$library" "$heap" -lpthread)
work=$(mktemp -d)
trap 'rm -rf "$work"' EXIT
. ./steps.sh

# Builds a program that the next step runs. It counts only where it fails.
build() {
    local name=$1
    shift
    rm -f "$work/program"
    "$@" -o "$work/program" >"$work/said" 2>&1 && return
    tell "$name" 1
    return 1
}

# A program of c/ under sanitizers.
sanitize_c() {
    local name=$1 kind=$2
    build "c/$name, $kind" "$CC" -std=c11 -g -O1 -fsanitize="$kind" -fno-sanitize-recover=all -Ic "c/$name.c" "${link[@]}" || return
    compare "c/$name, $kind" "c/expected/$name.txt" "$work/program"
}

# A program of cpp/ under sanitizers.
sanitize_cpp() {
    local name=$1 kind=$2
    build "cpp/$name, $kind" "$CXX" -std=c++17 -g -O1 -fsanitize="$kind" -fno-sanitize-recover=all -Ic -Icpp "cpp/$name.cpp" "${link[@]}" || return
    compare "cpp/$name, $kind" "cpp/expected/$name.txt" "$work/program"
}

# All allocations that are refused to the library, each in a run of its own, under sanitizers.
sanitize_fail() {
    local kind=$1
    compare "c/fail, $kind" c/expected/fail.txt env CC="$CC" CFLAGS="-g -O1 -fsanitize=$kind -fno-sanitize-recover=all" c/fail.sh "$library" "$heap"
}

# The program that was built last under valgrind, for which leaks of these kinds are errors.
under_valgrind() {
    local name=$1 wanted=$2 kinds=$3
    compare "$name, valgrind" "$wanted" valgrind -q --leak-check=full --errors-for-leak-kinds="$kinds" --error-exitcode=1 "$work/program"
}

# Those of which the thread sanitizer would see too much or too little, as told below.
is_apart() {
    case $1 in
        chain | help | races) return 0 ;;
        *) return 1 ;;
    esac
}

for kind in address,undefined thread; do
    for name in $(plain_programs); do is_apart "$name" || sanitize_c "$name" "$kind"; done
    sanitize_fail "$kind"
    for name in $(names_in cpp/expected .txt); do is_apart "$name" || sanitize_cpp "$name" "$kind"; done
done

# The thread sanitizer would see the library copy what goes from thread to thread in a chain, and not the atomic steps that order it. The
# address sanitizer keeps blocks that were given back, here few, since the memory is measured.
export ASAN_OPTIONS=quarantine_size_mb=4
sanitize_c chain address,undefined
sanitize_cpp chain address,undefined

# Passes that make a product together hand each other memory all the time. What the library does with memory is left out there, so the
# thread sanitizer sees what the programs and the headers do.
sanitize_without_library() {
    local sanitize=$1 name=$2 link=("-L$work" -ltrowelheath "-Wl,-rpath,$work" -lpthread)
    local -x TSAN_OPTIONS=suppressions=$work/suppressions
    "$sanitize" "$name" thread
}
sanitize_c help address,undefined
sanitize_c races address,undefined
sanitize_cpp help address,undefined
echo 'called_from_lib:libtrowelheath.so' >"$work/suppressions"
if build 'the shared library' "$CC" -shared -Wl,--whole-archive "$library" -Wl,--no-whole-archive "$heap" -lpthread; then
    mv "$work/program" "$work/libtrowelheath.so"
    sanitize_without_library sanitize_c help
    sanitize_without_library sanitize_c races
    sanitize_without_library sanitize_cpp help
fi

for name in $(plain_programs); do
    if [ "$name" = races ]; then continue; fi # under valgrind one thread runs at a time, and 1,000 races take an hour
    build "c/$name, valgrind" "$CC" -std=c11 -g -O1 -Ic "c/$name.c" "${link[@]}" || continue
    under_valgrind "c/$name" "c/expected/$name.txt" definite,indirect,possible
done
for name in $(names_in cpp/expected .txt); do
    build "cpp/$name, valgrind" "$CXX" -std=c++17 -g -O1 -Ic -Icpp "cpp/$name.cpp" "${link[@]}" || continue
    under_valgrind "cpp/$name" "cpp/expected/$name.txt" definite,indirect,possible
done
"$RUSTC" --edition 2021 -O -g --crate-type rlib --crate-name trowelheath rust/src/lib.rs --out-dir "$work" >"$work/said" 2>&1 || tell rust 1
for name in $(names_in rust/expected .txt); do
    build "rust/$name, valgrind" "$RUSTC" --edition 2021 -O -g "rust/examples/$name.rs" --extern "trowelheath=$work/libtrowelheath.rlib" -L native="$(dirname "$library")" -L native="$KIT/c" || continue
    under_valgrind "rust/$name" "rust/expected/$name.txt" definite,indirect
done

echo "$passed passed, $failed failed"
[ "$failed" -eq 0 ] && [ "$passed" -gt 0 ]
