#!/usr/bin/env bash
# Installs the library to a folder that is removed after, and builds and runs a program in each language against that folder alone.
#   bindings/install_test.sh
# What a program writes is compared with its file in `expected`. What cannot run has failed, and is named with what there is none of, unless
# MAY_SKIP has that word: then it is skipped. The last line is 'N passed, M failed, K skipped', and the status is 1 where one failed.
# LIBRARY and HEAP are as of install.sh; CC, CXX, CARGO and PYTHON are the programs to use. TROWELHEATH_PROVED is `no` where the library is
# unproved.
set -u
here=$(cd "$(dirname "${BASH_SOURCE[0]}")" && pwd)
CC=${CC:-cc} CXX=${CXX:-c++} CARGO=${CARGO:-cargo} PYTHON=${PYTHON:-python3}
work=$(mktemp -d)
trap 'rm -rf "$work"' EXIT
skipped=0
. "$here/steps.sh"
prefix=$work/prefix
unset TROWELHEATH_LIB TROWELHEATH_HEAP TROWELHEATH_LIBRARY TROWELHEATH_PREFIX PYTHONPATH
export PKG_CONFIG_PATH=$prefix/lib/pkgconfig PYTHONDONTWRITEBYTECODE=1

# Says that a step cannot run, and what there is none of.
skip() {
    if [[ " ${MAY_SKIP-} " != *" $1 "* ]]; then
        failed=$((failed + 1))
        echo "$2: failed, since there is no $1, which MAY_SKIP does not name"
    else
        skipped=$((skipped + 1))
        echo "$2: skipped, since there is no $1"
    fi
}

# Whether there is this command. The step cannot run where there is none.
has() {
    command -v "$1" >/dev/null && return
    skip "${1##*/}" "$2"
    return 1
}

step 'install' "$here/install.sh" "$prefix"
[ "$failed" -eq 0 ] || { echo "$passed passed, $failed failed, $skipped skipped"; exit 1; }

# Whether the library is proved is told wherever its version is, and by the last line of install.sh.
marks() {
    local version told which
    version=$(cat "$here/VERSION")
    told=$version which='a proved library'
    if [ "${TROWELHEATH_PROVED:-yes}" = no ]; then told=$version+unproved which='NOTHING OF THE LIBRARY IS PROVED'; fi
    diff <(echo "trowelheath $told is installed: $which") <(tail -n 1 "$work/installed") || return 1
    grep -xF "Version: $told" "$prefix/lib/pkgconfig/trowelheath.pc" || return 1
    grep -xF "set(PACKAGE_VERSION \"$told\")" "$prefix/lib/cmake/trowelheath/trowelheath-config-version.cmake" || return 1
    diff <(echo "$prefix/share/trowelheath/trowelheath-$told-py3-none-linux_x86_64.whl") <(echo "$prefix"/share/trowelheath/*.whl)
}
cp "$work/said" "$work/installed"
step 'the version, marked where the library is unproved' marks

# The library shows its own functions alone, all that the header declares, under the name of its version.
exports() {
    local major shown declared
    IFS=. read -r major _ <"$here/VERSION"
    readelf -d "$prefix/lib/libtrowelheath.so" | grep -F "[libtrowelheath.so.$major]" || return 1
    shown=$(nm -D --defined-only "$prefix/lib/libtrowelheath.so" | sed 's/.* //' | sort)
    declared=$(sed -n 's/^[a-z].*[ *]\(trb_[a-z0-9_]*\)(.*);$/\1/p' "$prefix/include/trowelheath.h" | sort)
    diff <(echo "$declared") <(echo "$shown") || return 1
    diff <(echo "$declared") <(nm --defined-only --extern-only "$prefix/lib/libtrowelheath.a" | sed -n 's/.* T //p' | sort)
}
step 'exports' exports

# Programs of the repository, in a folder of their own, so that no header beside them is found.
mkdir "$work/c" "$work/cpp" "$work/rust" "$work/rust/src"
cp "$here/c/first.c" "$here/c/check.h" "$work/c"
cp "$here/cpp/bfs.cpp" "$here/cpp/graph.hpp" "$work/cpp"
cp "$here/install/CMakeLists.txt" "$work/cpp"
cp "$here/rust/examples/first.rs" "$work/rust/src/main.rs"

c_by_pkg_config() {
    # The flags are words.
    # shellcheck disable=SC2046
    "$CC" -std=c11 -Wall -Wextra -Werror "$work/c/first.c" $(pkg-config --cflags --libs trowelheath) -Wl,-rpath,"$prefix/lib" -o "$work/c/first"
}
if has "$CC" 'a program in C'; then
    if has pkg-config 'C by pkg-config'; then
        step 'C by pkg-config, built' c_by_pkg_config
        compare 'C by pkg-config' "$here/c/expected/first.txt" "$work/c/first"
    fi
    step 'C with the archive, built' "$CC" -std=c11 -I"$prefix/include" "$work/c/first.c" "$prefix/lib/libtrowelheath.a" -lpthread -o "$work/c/alone"
    compare 'C with the archive' "$here/c/expected/first.txt" "$work/c/alone"
fi

cpp_by_cmake() {
    cmake -S "$work/cpp" -B "$work/cpp/build" -DCMAKE_CXX_COMPILER="$(command -v "$CXX")" -DCMAKE_PREFIX_PATH="$prefix" && cmake --build "$work/cpp/build"
}
cpp_by_pkg_config() {
    # shellcheck disable=SC2046
    "$CXX" -std=c++17 "$work/cpp/bfs.cpp" $(pkg-config --cflags --libs trowelheath) -Wl,-rpath,"$prefix/lib" -o "$work/cpp/bfs"
}
if has "$CXX" 'a program in C++'; then
    if has cmake 'C++ by CMake'; then
        step 'C++ by CMake, built' cpp_by_cmake
        compare 'C++ by CMake' "$here/cpp/expected/bfs.txt" "$work/cpp/build/bfs"
        compare 'C++ by CMake, with the archive' "$here/cpp/expected/bfs.txt" "$work/cpp/build/alone"
    elif has pkg-config 'C++ by pkg-config'; then
        step 'C++ by pkg-config, built' cpp_by_pkg_config
        compare 'C++ by pkg-config' "$here/cpp/expected/bfs.txt" "$work/cpp/bfs"
    fi
fi

# The crate that was installed, which finds its library beside it; and the one of the repository, which asks pkg-config or is told.
rust_program() {
    printf '[package]\nname = "first"\nversion = "0.0.0"\nedition = "2021"\n[workspace]\n[dependencies]\ntrowelheath = { path = "%s" }\n' "$1" >"$work/rust/Cargo.toml"
    shift
    rm -f "$work/rust/Cargo.lock"
    env CARGO_TARGET_DIR="$work/rust/target" "$@" "$CARGO" build --offline --quiet --manifest-path "$work/rust/Cargo.toml"
}
if has "$CARGO" 'a program in Rust'; then
    step 'Rust, built' rust_program "$prefix/share/trowelheath/rust" env -u PKG_CONFIG_PATH
    compare 'Rust' "$here/rust/expected/first.txt" "$work/rust/target/debug/first"
    cp -r "$prefix/share/trowelheath/rust" "$work/crate"
    step 'Rust, told the prefix' rust_program "$work/crate" TROWELHEATH_PREFIX="$prefix"
    if has pkg-config 'Rust by pkg-config'; then
        step 'Rust by pkg-config' rust_program "$work/crate" PKG_CONFIG_PATH="$prefix/lib/pkgconfig"
    fi
fi

if has "$PYTHON" 'a program in Python'; then
    wheel=$(echo "$prefix"/share/trowelheath/*.whl)
    if "$PYTHON" -m pip --version >/dev/null 2>&1; then
        step 'the wheel, installed' "$PYTHON" -m pip install --no-index --no-deps --quiet --disable-pip-version-check --target "$work/python" "$wheel"
    else
        skip pip 'the wheel, installed'
        step 'the wheel, unpacked' "$PYTHON" -m zipfile -e "$wheel" "$work/python"
    fi
    compare 'Python' "$here/python/expected/first.txt" env PYTHONPATH="$work/python" "$PYTHON" "$here/python/examples/first.py"
    # The example of README, as it stands there.
    example=$(sed -n '/^    with Store(/,/^$/s/^    //p' "$here/../README.md")
    echo '35 1' >"$work/wanted"
    compare "README's example" "$work/wanted" env -C "$work" PYTHONPATH="$work/python" "$PYTHON" -c "from trowelheath import Store
$example"
fi

echo "$passed passed, $failed failed, $skipped skipped"
[ "$failed" -eq 0 ]
