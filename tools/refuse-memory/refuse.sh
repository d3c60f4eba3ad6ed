#!/bin/sh
# Refuses each allocation of a run in turn, from the first until the run meets no refusal. The README says how to read it.
#   refuse.sh tests PROGRAM [WORD]        each test of a built test program, or each whose name has the word
#   refuse.sh scripts PROGRAM SCRIPT ..   each script, by the built grbrun, in the folder of its loads
# MOST=N refuses at most N allocations of a run, 1,000 where it is not given.
set -eu
most=${MOST:-1000}
kind=$1
program=$2
shift 2
here=$(cd "$(dirname "$0")" && pwd)
work=$(mktemp -d)
trap 'rm -rf "$work"' EXIT
cc -O1 -shared -fPIC -o "$work/refuse.so" "$here/refuse.c" -ldl
all=0
broken=0

# Runs the program on this word, with the allocation of this number refused; 0 refuses none.
run() {
    status=0
    timeout 60 env REFUSE="$1" LD_PRELOAD="$work/refuse.so" "$program" "$2" \
        >"$work/out" 2>"$work/err" 3>"$work/met" || status=$?
}

# What is written of a refusal: its name, or the text that is printed of it.
refusal='AllocError|AllocFailed|OutOfMemory|NoThread|GrB_OUT_OF_MEMORY|out of memory|cannot start a thread'

# Whether a test that failed tells of the refusal: the error that it answered is one, or an assertion found one where another value is
# wanted. The name of a test, the place of an assertion and what it is of are not looked at.
tells() {
    case $status in
        101) grep -qE "^[Ee]rror: ([^\"]*[^A-Za-z_\"])?($refusal)([^A-Za-z_]|\$)" "$work/err" ;;
        134)
            grep -qE "^of .*: ([^:]*([^:A-Za-z_]|\\\\n))?($refusal)([^:A-Za-z_][^:]*)?, and not " "$work/err" &&
                ! grep -qE ", and not .*($refusal)" "$work/err"
            ;;
        *) false ;;
    esac
}

# What a test did.
did_tests() {
    if [ "$status" -eq 0 ]; then
        echo passed
    elif tells; then
        echo told
    else
        echo BROKE
    fi
}

# What the run of a script did, next to the run with nothing refused.
did_scripts() {
    if [ "$status" -eq "$whole" ] && cmp -s "$work/out" "$work/out.whole" && cmp -s "$work/err" "$work/err.whole"; then
        echo passed
    elif [ "$status" -eq 0 ] && grep -q '^GrB_OUT_OF_MEMORY$' "$work/out" \
        && [ "$(wc -l <"$work/out")" -eq "$(wc -l <"$work/out.whole")" ]; then
        echo told
    elif [ "$status" -eq 1 ] || [ "$status" -eq 2 ] && [ ! -s "$work/out" ] \
        && grep -qE '(^|: )(out of memory|cannot start a thread)$' "$work/err"; then
        echo told
    else
        echo BROKE
    fi
}

# Refuses each allocation of the program on this word.
try() {
    run 0 "$1"
    whole=$status
    cp "$work/out" "$work/out.whole"
    cp "$work/err" "$work/err.whole"
    number=1 passed=0 told=0
    while [ "$number" -le "$most" ]; do
        run "$number" "$1"
        if [ ! -s "$work/met" ]; then break; fi
        case $("did_$kind") in
            passed) passed=$((passed + 1)) ;;
            told) told=$((told + 1)) ;;
            *)
                broken=$((broken + 1))
                echo "BROKE: $1, allocation $number, status $status: $(head -c 300 "$work/err" | tr '\n' ' ')"
                ;;
        esac
        number=$((number + 1))
    done
    all=$((all + number - 1))
    echo "$1: $((number - 1)) refused, $passed passed, $told told"
}

if [ "$kind" = tests ]; then
    set -- $("$program" --list | sed -n 's/: test$//p' | grep -F -- "${1:-}")
fi
for word in "$@"; do
    try "$word"
done
echo "$all allocations refused, $broken broke a run"
[ "$broken" -eq 0 ]
