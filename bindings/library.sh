#!/usr/bin/env bash
# Builds the library, crates/grb_c/out/libgrb_c.a.
#   bindings/library.sh                  where it is missing, or a source of it is newer: proves what it stands on, crates side by side, and
#                                        then the library
#   bindings/library.sh --beside-ci LOG  beside a run of `rt ci` in this checkout that writes to LOG: as soon as that has proved what the
#                                        library stands on, over what it has made
#   bindings/library.sh --unproved       where it is missing, or a source is newer: builds out/unproved/libgrb_c.a, in minutes. Nothing of it
#                                        is proved
#   bindings/library.sh --unproved --checked    the same of out/checked/libgrb_c.a, which traps at an overflow, a bad index or a broken
#                                        `requires`, where that is tested while it runs. It is slower
# A source is a file of crates.txt, src, specs or proofs, of the crate or of one below it. JOBS is how many checks run at a time, KIT the
# folder of the toolchain, and PYTHON builds the unproved library.
set -eu
shopt -s nullglob
cd "$(dirname "${BASH_SOURCE[0]}")/../crates/grb_c"
kit=${KIT:-$(dirname "$(rt doc)")}

usage='usage: library.sh [--beside-ci LOG | --unproved [--checked]]'

fail() {
    echo "library.sh: $1" >&2
    exit 1
}

# The crates of this repository that a crate uses itself.
uses() {
    local name
    for name in $(sed -nE "s/^$1( [^:]*)?://p" ../../crates.txt); do
        if [ -d "../$name" ]; then echo "$name"; fi
    done
}

# The crates below a crate, each once.
below() {
    local name found=' ' todo
    mapfile -t todo < <(uses "$1")
    while [ ${#todo[@]} -gt 0 ]; do
        name=${todo[0]} todo=("${todo[@]:1}")
        if [[ $found != *" $name "* ]]; then
            found+="$name "
            mapfile -t -O ${#todo[@]} todo < <(uses "$name")
        fi
    done
    printf '%s\n' $found
}

# Whether a file is there, and newer than each source of a crate and of those below it.
is_newer_than_sources() {
    local made=$1 name folder folders=()
    [ -e "$made" ] || return 1
    for name in "$2" $(below "$2"); do
        for folder in "../$name"/{src,specs,proofs}/; do
            if [ -d "$folder" ]; then folders+=("$folder"); fi
        done
    done
    [ -z "$(find ../../crates.txt "${folders[@]}" -newer "$made" -print -quit)" ]
}

# Proves the library and builds it, over the proved libraries that stand below a folder as crates/NAME/out/rlib.
build_over() {
    local words=(--extern "std=$kit/rlibs/std.rlib" -L "dependency=$kit/rlibs") name folder
    for name in $(uses grb_c); do
        words+=(--extern "$name=$1/crates/$name/out/rlib/$name.rlib")
    done
    for folder in "$1"/crates/*/out/rlib; do
        words+=(-L "dependency=$folder")
    done
    mkdir -p out
    TASK='the archive of the library' "$kit/bin/rattle" build --crate-name grb_c src/lib.rt "${words[@]}" --links grb_c= --crate-type staticlib \
        --jobs "$2" --antt-project "$kit/rattle/logic/antt-project.json" --logic-built "$kit/logic_built" --toolchain "$kit/toolchain" \
        -o "$work/libgrb_c.a"
    mv "$work/libgrb_c.a" out/libgrb_c.a
}

# A repository of the crates below the library alone, without wrong bodies, since `rt ci` proves what crates.txt lists.
copy_below() {
    local names name
    mapfile -t names < <(below grb_c)
    mkdir "$work/repository" "$work/repository/crates"
    cp ../../HANDLES "$work/repository"
    for name in "${names[@]}"; do
        grep -E "^$name( [^:]*)?:" ../../crates.txt >>"$work/repository/crates.txt"
        mkdir "$work/repository/crates/$name"
        for folder in src specs proofs; do
            if [ -d "../$name/$folder" ]; then cp -r "../$name/$folder" "$work/repository/crates/$name"; fi
        done
    done
}

# Whether the run of `rt ci` has proved what the library stands on, or found it among what it had kept.
has_proved() {
    local name
    for name in $(below grb_c); do
        grep -qE "^rt: $name (proved|is kept: .*)$" "$1" || return 1
    done
}

# Builds the unproved library, unless it is newer than its sources and than what builds it.
build_unproved() {
    local made=$1 tool=../../bindings/unproved
    shift
    if is_newer_than_sources "$made" grb_c && [ -z "$(find "$tool" -name '*.py' ! -name 'test_*' -newer "$made" -print -quit)" ]; then return; fi
    PYTHONDONTWRITEBYTECODE=1 "${PYTHON:-python3}" "$tool/build.py" "$made" "$@"
}

work=$(mktemp -d)
trap 'rm -rf "$work"' EXIT
case "${1:-}" in
    '')
        if is_newer_than_sources out/libgrb_c.a grb_c; then exit; fi
        echo 'the library: its crates are proved side by side, as far as that was not done on this machine before'
        copy_below
        (cd "$work/repository" && RT_JOBS=${JOBS:-$(nproc)} rt ci) >"$work/said" 2>&1 || {
            tail -n 40 "$work/said" >&2
            fail 'a crate below the library is not proved'
        }
        echo 'the library: it is proved itself, and built'
        build_over "$work/repository" "${JOBS:-$(nproc)}"
        ;;
    --beside-ci)
        until has_proved "${2:?$usage}"; do sleep 2; done
        # what stands in out/ now is gone when the run ends, if there was something before it began
        mkdir -p "$work/proved/crates"
        for name in $(below grb_c); do
            mkdir -p "$work/proved/crates/$name/out"
            cp -al "../$name/out/rlib" "$work/proved/crates/$name/out/" || cp -a "../$name/out/rlib" "$work/proved/crates/$name/out/"
        done
        build_over "$work/proved" "${JOBS:-2}"
        ;;
    --unproved)
        case "$*" in
            --unproved) build_unproved out/unproved/libgrb_c.a ;;
            '--unproved --checked') build_unproved out/checked/libgrb_c.a --checked ;;
            *) fail "$usage" ;;
        esac
        ;;
    *) fail "$usage" ;;
esac
