#!/usr/bin/env bash
# Builds the library, and builds, links and runs each program of the bindings on it, several side by side.
#   bindings/run.sh               on the proved library, which is built first where it is missing, or a source of it is newer
#   bindings/run.sh --unproved    on the library that is compiled before any proof, with its checks
#
# What a program writes is compared with its file in `expected`. A step that cannot run has failed, and is named with what there is none
# of. Where MAY_SKIP has that word, as in MAY_SKIP='numpy scipy networkx', it is skipped. The last line is 'N passed, M failed, K skipped',
# and the status is 1 where one failed or none passed.
#
# JOBS is how many steps run at a time, as many as there are processors where it is not given. KIT is the folder of the toolchain, CC, CXX,
# RUSTC, CARGO and PYTHON are the programs to use. Where they are not given, those of the path are taken, and of several python3 the first
# that has most of numpy, scipy and networkx.
set -u -m # each unit has a process group, so that all of it can be ended
shopt -s nullglob
cd "$(dirname "${BASH_SOURCE[0]}")" || exit 2
proved=yes how=("$@")
case "$*" in
    '') ;;
    --unproved) proved=no how=(--unproved --checked) ;;
    *)
        echo 'usage: bindings/run.sh [--unproved]' >&2
        exit 2
        ;;
esac

# Of all python3 on the path the first that has most of these modules.
python_with() {
    local python module found most=-1 best=python3
    for python in $(type -aP python3); do
        found=0
        for module in "$@"; do
            if "$python" -c "import $module" >/dev/null 2>&1; then found=$((found + 1)); fi
        done
        if [ "$found" -gt "$most" ]; then most=$found best=$python; fi
    done
    echo "$best"
}

KIT=${KIT:-$(dirname "$(rt doc)")}
CC=${CC:-cc} CXX=${CXX:-c++} RUSTC=${RUSTC:-rustc} CARGO=${CARGO:-cargo} PYTHON=${PYTHON:-$(python_with numpy scipy networkx)}
crate=../crates/grb_c
heap=$KIT/c/liblibc_c.a
work=$(mktemp -d)
trap 'end_units; rm -rf "$work"' EXIT
trap 'exit 130' INT
trap 'exit 143' TERM
built=$work
skipped=0
. ./steps.sh

# The units of work that run side by side, each a function and its words, and how many have begun. A unit has a folder of its own.
units=() begun=0

# Adds a unit. Those that take longest come first.
add() {
    units+=("$*")
}

# Runs a unit, and says how its steps went once all have ended.
run_unit() {
    local number=$1
    shift
    work=$built/unit-$number
    mkdir "$work"
    passed=0 failed=0 skipped=0
    export TASK="bindings: $*"
    "$@" >"$built/told-$number" 2>&1
    cat "$built/told-$number"
    echo "$passed $failed $skipped" >"$built/counts-$number"
}

# Runs all units, so many at a time, and adds up what they counted. One that was cut off counts as a failed step.
run_units() {
    local number words unit more fewer others jobs=${JOBS:-$(nproc)}
    for unit in "${units[@]}"; do
        if [ "$(jobs -rp | wc -l)" -ge "$jobs" ]; then wait -n; fi
        read -ra words <<<"$unit"
        run_unit "$begun" "${words[@]}" &
        begun=$((begun + 1))
    done
    wait
    for ((number = 0; number < begun; number++)); do
        if ! read -r more fewer others <"$built/counts-$number"; then
            echo "${units[number]}: failed, since it was cut off"
            more=0 fewer=1 others=0
        fi
        passed=$((passed + more)) failed=$((failed + fewer)) skipped=$((skipped + others))
    done
}

# Ends what is still running.
end_units() {
    local job
    for job in $(jobs -rp); do kill -- "-$job" 2>/dev/null; done
}

# Runs a command that another step rests on. It counts as a step only where it fails.
build() {
    local name=$1
    shift
    "$@" >"$work/said" 2>&1 && return
    tell "$name" 1
    return 1
}

# Says that a step cannot run, and what there is none of.
skip() {
    local name=$1 lacking=$2
    if [[ " ${MAY_SKIP-} " != *" $lacking "* ]]; then
        failed=$((failed + 1))
        echo "$name: failed, since there is no $lacking, which MAY_SKIP does not name"
    else
        skipped=$((skipped + 1))
        echo "$name: skipped, since there is no $lacking"
    fi
}

# Whether the path lacks one of these commands. The step cannot run then.
lacks() {
    local name=$1 word
    shift
    for word in "$@"; do
        if ! command -v "$word" >/dev/null; then
            skip "$name" "${word##*/}"
            return 0
        fi
    done
    return 1
}

# Whether Python lacks one of these modules. The step cannot run then.
lacks_module() {
    local name=$1 module
    shift
    for module in "$@"; do
        if ! "$PYTHON" -c "import $module" >/dev/null 2>&1; then
            skip "$name" "$module"
            return 0
        fi
    done
    return 1
}

# The header against the exports of the library.
check_header() {
    local name='c/trowelheath.h against the exports'
    lacks "$name" "$PYTHON" && return
    step "$name" "$PYTHON" prototypes.py c/trowelheath.h "$crate/src"
}

# A program of c/.
run_c() {
    local name=$1
    lacks "c/$name" "$CC" && return
    build "c/$name" "$CC" -std=c11 -O2 -Wall -Wextra -Werror -Ic "c/$name.c" "${link[@]}" -o "$work/c_$name" || return
    compare "c/$name" "c/expected/$name.txt" "$work/c_$name"
}

# The programs that refuse memory to the library.
run_fail() {
    local name='c/fail.sh, memory refused in turn'
    lacks "$name" "$CC" && return
    compare "$name" c/expected/fail.txt env CC="$CC" c/fail.sh "$library" "$heap"
}

# The program that counts the requests of members for memory.
run_once() {
    local name='c/once'
    lacks "$name" "$CC" && return
    build "$name" "$CC" -std=c11 -O2 -Wall -Wextra -Werror -Ic -Wl,--wrap=malloc,--wrap=calloc,--wrap=realloc,--wrap=free c/once.c "${link[@]}" -o "$work/once" || return
    compare "$name" c/expected/once.txt "$work/once"
}

# Three algorithms that were ported from GraphBLAS.h, and the program that they were ported from.
run_ports() {
    local name='c/ports' folder
    lacks "$name" "$CC" && return
    for folder in /usr/include /usr/include/suitesparse /; do
        if [ "$folder" = / ]; then skip 'c/ports, next to SuiteSparse' GraphBLAS.h; fi
        if [ -e "$folder/GraphBLAS.h" ]; then break; fi
    done
    step "$name" env CC="$CC" c/ports/test.sh "$library" "$heap"
}

# The times of small graphs, next to SuiteSparse where it is there. What both make is compared.
run_bench() {
    local name='c/bench, small graphs' folder theirs=()
    lacks "$name" "$CC" && return
    for folder in /usr/include /usr/include/suitesparse; do
        if [ -e "$folder/GraphBLAS.h" ]; then theirs=(-DTRB_SUITESPARSE -I"$folder" -lgraphblas); fi
    done
    if [ ${#theirs[@]} -eq 0 ]; then skip 'c/bench, next to SuiteSparse' GraphBLAS.h; fi
    build "$name" "$CC" -std=c11 -O2 -Wall -Wextra -Werror -Ic c/bench.c c/bench_by_hand.c c/bench_blocks.c c/bench_suitesparse.c "${link[@]}" "${theirs[@]}" -o "$work/bench" || return
    compare "$name" c/expected/bench.txt "$work/bench" 8
}

# The times of a service in a chain, and of large objects that go on.
run_bench_chain() {
    local name='c/bench_chain, few requests'
    lacks "$name" "$CC" && return
    build "$name" "$CC" -std=c11 -O2 -Wall -Wextra -Werror -Ic c/bench_chain.c "${link[@]}" -o "$work/bench_chain" || return
    compare "$name" c/expected/bench_chain.txt "$work/bench_chain"
}

# The times of threads that enter, read and share, of one run.
run_bench_store() {
    local name='c/bench_store, one run'
    lacks "$name" "$CC" && return
    build "$name" "$CC" -std=c11 -O2 -Wall -Wextra -Werror -Ic c/bench_store.c "${link[@]}" -o "$work/bench_store" || return
    compare "$name" c/expected/bench_store.txt "$work/bench_store" 1
}

# A program of cpp/.
run_cpp() {
    local name=$1
    lacks "cpp/$name" "$CXX" && return
    build "cpp/$name" "$CXX" -std=c++17 -O2 -Wall -Wextra -Werror -Ic -Icpp "cpp/$name.cpp" "${link[@]}" -o "$work/cpp_$name" || return
    compare "cpp/$name" "cpp/expected/$name.txt" "$work/cpp_$name"
}

# Wrong programs in C++, which no compiler takes.
refuse_cpp() {
    local name='cpp, programs that must not compile'
    lacks "$name" "$CXX" && return
    step "$name" env CXX="$CXX" cpp/must_not_compile.sh
}

# The crate of rust/, which its programs are built over.
build_rust() {
    lacks rust "$RUSTC" && return
    step rust "$RUSTC" --edition 2021 -O --crate-type rlib --crate-name trowelheath rust/src/lib.rs --out-dir "$built"
}

# A program of rust/.
run_rust() {
    local name=$1
    lacks "rust/$name" "$RUSTC" && return
    build "rust/$name" "$RUSTC" --edition 2021 -O "rust/examples/$name.rs" --extern "trowelheath=$built/libtrowelheath.rlib" -L native="$(dirname "$library")" -L native="$KIT/c" -o "$work/rust_$name" || return
    compare "rust/$name" "rust/expected/$name.txt" "$work/rust_$name"
}

# The tests of rust/: as many as its sources have.
test_rust() {
    local name='rust, its tests by cargo' ran has
    lacks "$name" "$CARGO" && return
    if ! env TROWELHEATH_LIB="$(dirname "$library")" TROWELHEATH_HEAP="$KIT/c" "$CARGO" test --offline --manifest-path rust/Cargo.toml --target-dir "$work/cargo" >"$work/said" 2>&1; then
        tell "$name" 1
        return
    fi
    ran=$(($(sed -n '/Doc-tests/q; s/^test result: ok\. \([0-9]*\) passed.*/\1 +/p' "$work/said") 0))
    has=$(grep -rh '^ *#\[test\]' rust/src rust/tests | wc -l)
    [ "$ran" -eq "$has" ]
    tell "$name, $ran of $has" $?
}

# The shared library that the package of python/ loads.
build_shared() {
    local name='python, the shared library'
    lacks "$name" "$PYTHON" "$CC" && return
    step "$name" "$CC" -shared -o "$built/libtrowelheath.so" -Wl,--whole-archive "$library" -Wl,--no-whole-archive "$heap" -lpthread
}

# Runs a command in which Python finds the package and its library.
in_python() {
    env TROWELHEATH_LIBRARY="$built/libtrowelheath.so" PYTHONPATH=python/src PYTHONDONTWRITEBYTECODE=1 "$PYTHON" "$@"
}

# A program of python/, and the modules that it needs.
run_python() {
    local name=$1
    shift
    lacks "python/$name" "$PYTHON" "$CC" && return
    lacks_module "python/$name" "$@" && return
    compare "python/$name" "python/expected/$name.txt" in_python "python/examples/$name.py"
}

# A file of tests of python/. A test that is skipped for want of a module counts as a step that is.
test_python() {
    local file=$1 name="python/tests/$1" words word
    lacks "$name" "$PYTHON" "$CC" && return
    if ! in_python -m unittest discover --verbose -s python/tests -p "$file.py" >"$work/said" 2>&1; then
        tell "$name" 1
    elif ! grep -qE '^Ran [1-9]' "$work/said"; then
        tell "$name, in which no test was found" 1
    elif grep -q 'skipped=' "$work/said"; then
        words=$(sed -nE "s/.* \.\.\. skipped '.* no ([^ ]*)'$/\1/p" "$work/said" | sort -u)
        for word in ${words:-reason}; do skip "$name" "$word"; done
    else
        tell "$name" 0
    fi
}

# The library as it is installed, and a program of each language over that alone.
run_installed() {
    local name='install_test.sh'
    lacks "$name" "$CC" "$CXX" "$CARGO" "$PYTHON" ld objcopy pkg-config cmake && return
    lacks_module "$name" pip && return
    step "$name" env LIBRARY="$library" HEAP="$heap" CC="$CC" CXX="$CXX" PYTHON="$PYTHON" ./install_test.sh
}

# Each program has its file in `expected`, and each such file its program. What has no `main` is a part of programs.
check_expected() {
    diff <(names_in c/expected .txt) <(grep -l '^int main(' c/*.c | sed 's/.*\///; s/\.c$//') &&
        diff <(names_in cpp/expected .txt) <(grep -l '^int main(' cpp/*.cpp | sed 's/.*\///; s/\.cpp$//') &&
        diff <(names_in rust/expected .txt) <(names_in rust/examples .rs) &&
        diff <(names_in python/expected .txt) <(grep -l '^if __name__ == "__main__":' python/examples/*.py | sed 's/.*\///; s/\.py$//')
}

if ! PYTHON=$PYTHON ./library.sh "${how[@]}"; then
    echo '0 passed, 1 failed, 0 skipped'
    exit 1
fi
library=$(realpath "$crate/out/libgrb_c.a")
if [ "$proved" = no ]; then library=$(realpath "$crate/out/checked/libgrb_c.a"); fi
link=("$library" "$heap" -lpthread)
export TROWELHEATH_PROVED=$proved

check_header
step 'the version, wherever it stands' ./versions.sh
step 'each program has its expected output' check_expected
build_rust
build_shared
add test_python test_drawn
add test_rust
add run_fail
add run_installed
for file in python/tests/test_*.py; do
    name=$(basename "$file" .py)
    if [ "$name" != test_drawn ]; then add test_python "$name"; fi
done
add run_bench
add run_bench_chain
add run_once
add run_bench_store
for name in $(plain_programs); do add run_c "$name"; done
add run_ports
for name in $(names_in cpp/expected .txt); do add run_cpp "$name"; done
add refuse_cpp
for name in $(names_in rust/expected .txt); do add run_rust "$name"; done
for name in $(names_in python/expected .txt); do
    case $name in
        networkx_scipy) add run_python "$name" networkx numpy scipy ;;
        *) add run_python "$name" ;;
    esac
done
run_units

echo "$passed passed, $failed failed, $skipped skipped"
[ "$failed" -eq 0 ] && [ "$passed" -gt 0 ]
