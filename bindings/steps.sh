# shellcheck shell=bash
# Steps that pass or fail, for the scripts that read this file. Before they do they make a folder, `work`.
: "${work:?}"
passed=0 failed=0

# Says how a step went, and where it failed what it wrote.
tell() {
    local name=$1 status=$2
    if [ "$status" -eq 0 ]; then
        passed=$((passed + 1))
        echo "$name: passed"
    else
        failed=$((failed + 1))
        echo "$name: failed"
        tail -n 20 "$work/said"
    fi
}

# Runs a command as a step.
step() {
    local name=$1
    shift
    "$@" >"$work/said" 2>&1
    tell "$name" $?
}

# Runs a program as a step. Its standard output is to be that of its file.
compare() {
    local name=$1 wanted=$2
    shift 2
    "$@" >"$work/out" 2>"$work/said" && diff "$wanted" "$work/out" >>"$work/said"
    tell "$name" $?
}

# The names of the files of a folder that end so.
names_in() {
    local file
    for file in "$1"/*"$2"; do basename "$file" "$2"; done
}

# The programs of c/ that are built and run as they are: neither those that refuse memory, which fail.sh runs, nor those that count or time.
plain_programs() {
    local name
    for name in $(names_in c/expected .txt); do
        case $name in
            bench* | fail | once) ;;
            *) if ! grep -q '^#include "memory.h"' "c/$name.c"; then echo "$name"; fi ;;
        esac
    done
}
