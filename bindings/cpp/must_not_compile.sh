#!/usr/bin/env bash
# Programs in C++ that are wrong, and that no compiler may take.
#   bindings/cpp/must_not_compile.sh
# Each line of must_not_compile.txt is a statement, and behind // the words that the compiler is to say of it. It stands in a function that
# has a pass p, matrices a (numbers) and t (truth values), vectors v (numbers) and s (truth values), and an int k. A statement without words
# must compile. The last line is 'N passed, M failed', and the status is 1 where one failed. CXX is the compiler.
set -u
cd "$(dirname "${BASH_SOURCE[0]}")" || exit 2
CXX=${CXX:-c++}
work=$(mktemp -d)
trap 'rm -rf "$work"' EXIT
passed=0 failed=0
number=0
while IFS= read -r line; do
    statement=${line%%  // *} words=
    [ "$statement" = "$line" ] || words=${line##*  // }
    number=$((number + 1))
    cat >"$work/program.cpp" <<END
#include "trowelheath.hpp"
using namespace trowelheath;
void program(Pass &p, Matrix<std::uint64_t> a, Matrix<bool> t, Vector<std::uint64_t> v, Vector<bool> s, int k)
{
    (void)p, (void)a, (void)t, (void)v, (void)s, (void)k;
    $statement
}
END
    is_taken=false is_right=false
    "$CXX" -std=c++17 -O1 -I../c -I. -c "$work/program.cpp" -o "$work/program.o" >"$work/said" 2>&1 && is_taken=true
    if [ -z "$words" ]; then
        is_right=$is_taken
    elif ! $is_taken && grep -qF -- "$words" "$work/said"; then
        is_right=true
    fi
    if $is_right; then
        passed=$((passed + 1))
    else
        failed=$((failed + 1))
        echo "failed: $statement"
        head -n 5 "$work/said"
    fi
done <must_not_compile.txt
[ "$number" -gt 0 ] || failed=1
echo "$passed passed, $failed failed"
[ "$failed" -eq 0 ]
