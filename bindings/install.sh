#!/usr/bin/env bash
# Installs the library, built before by bindings/library.sh, `rt lib` or `rt ci`, for programs in C, C++, Rust and Python.
#   bindings/install.sh [--unproved] PREFIX [WHEELS]
# With --unproved it is the one that `bindings/library.sh --unproved` has built.
# PREFIX/lib has libtrowelheath.so and libtrowelheath.a, each with the heap in it, and what pkg-config and CMake read. PREFIX/include has
# the headers, and PREFIX/share/trowelheath the crate for Rust. The wheel for Python goes to WHEELS, or else to PREFIX/share/trowelheath.
# LIBRARY and HEAP are the two archives that are put together, CC and PYTHON the programs to use. Where something is missing it is told,
# and the status is 1. The last line says whether what is installed is proved, as the library itself tells. Of one that is not, the
# version that pkg-config, CMake and the wheel tell ends with `+unproved`.
set -eu
usage='usage: install.sh [--unproved] PREFIX [WHEELS]'
if [ "${1:-}" = --unproved ]; then
    LIBRARY=${LIBRARY:-$(dirname "${BASH_SOURCE[0]}")/../crates/grb_c/out/unproved/libgrb_c.a}
    [ -f "$LIBRARY" ] || { echo "install.sh: there is no $LIBRARY: build it first, by bindings/library.sh --unproved" >&2; exit 1; }
    shift
fi
mkdir -p "${1:?$usage}" "${2:-$1/share/trowelheath}"
prefix=$(realpath "$1") wheels=$(realpath "${2:-$1/share/trowelheath}")
[ -z "${LIBRARY:-}" ] || LIBRARY=$(realpath "$LIBRARY")
[ -z "${HEAP:-}" ] || HEAP=$(realpath "$HEAP")
cd "$(dirname "${BASH_SOURCE[0]}")"
CC=${CC:-cc} PYTHON=${PYTHON:-python3}
LIBRARY=${LIBRARY:-../crates/grb_c/out/libgrb_c.a}
work=$(mktemp -d)
trap 'rm -rf "$work"' EXIT

fail() {
    echo "install.sh: $1" >&2
    exit 1
}

version=$(cat VERSION)
major=${version%%.*}
./versions.sh >&2 || fail 'not each place has the version of bindings/VERSION'

[ -f "$LIBRARY" ] || fail "there is no $LIBRARY: build it first, as by bindings/library.sh"
if [ -z "${HEAP:-}" ]; then
    HEAP=$(dirname "$(rt doc)")/c/liblibc_c.a || fail 'the heap archive liblibc_c.a was not found: name it by HEAP'
fi
[ -f "$HEAP" ] || fail "there is no $HEAP: name the archive liblibc_c.a by HEAP"

# One object of both archives. Only the functions of trowelheath.h can be seen from outside of it.
ld -r --force-group-allocation -o "$work/all.o" --whole-archive "$LIBRARY" --no-whole-archive "$HEAP" || fail 'the archives were not put together'
objcopy --wildcard --keep-global-symbol='trb_*' "$work/all.o" "$work/trowelheath.o" || fail 'the symbols were not hidden'
printf '{ global: trb_*; local: *; };\n' >"$work/exports"
"$CC" -shared -o "$work/libtrowelheath.so" -Wl,-soname,"libtrowelheath.so.$major" -Wl,--version-script="$work/exports" -Wl,-z,defs \
    "$work/trowelheath.o" -lpthread || fail 'the shared library was not linked'
rm -f "$work/libtrowelheath.a"
ar rcs "$work/libtrowelheath.a" "$work/trowelheath.o" || fail 'the archive was not made'
ask='import ctypes, sys
is_proved = ctypes.CDLL(sys.argv[1]).trb_is_proved
is_proved.restype = ctypes.c_bool
print("proved" if is_proved() else "unproved")'
proved=$("$PYTHON" -c "$ask" "$work/libtrowelheath.so") || fail 'the library does not tell whether it is proved'
told=$version which=
if [ "$proved" = unproved ]; then told=$version+unproved which=' (unproved)'; fi

mkdir -p "$prefix/include" "$prefix/lib/pkgconfig" "$prefix/lib/cmake/trowelheath" "$prefix/share/trowelheath"
install -m 644 c/trowelheath.h cpp/*trowelheath*.hpp "$prefix/include"
install -m 755 "$work/libtrowelheath.so" "$prefix/lib/libtrowelheath.so.$version"
ln -sf "libtrowelheath.so.$version" "$prefix/lib/libtrowelheath.so.$major"
ln -sf "libtrowelheath.so.$major" "$prefix/lib/libtrowelheath.so"
install -m 644 "$work/libtrowelheath.a" "$prefix/lib"
for file in trowelheath.pc trowelheath-config.cmake trowelheath-config-version.cmake; do
    sed -e "s/@VERSION@/$version/g" -e "s/@MAJOR@/$major/g" -e "s/@TOLD@/$told/g" -e "s/@WHICH@/$which/g" "install/$file.in" >"$work/$file"
done
install -m 644 "$work/trowelheath.pc" "$prefix/lib/pkgconfig"
install -m 644 "$work"/*.cmake "$prefix/lib/cmake/trowelheath"
rm -rf "$prefix/share/trowelheath/rust"
mkdir "$prefix/share/trowelheath/rust"
cp -r rust/Cargo.toml rust/build.rs rust/README.md rust/src "$prefix/share/trowelheath/rust"
rm -f "$wheels/trowelheath-$version"{,+unproved}-py3-*.whl
"$PYTHON" install/wheel.py python "$work/libtrowelheath.so" "$wheels" "$told" || fail 'the wheel was not made'
if [ "$proved" = proved ]; then
    echo "trowelheath $told is installed: a proved library"
else
    echo "trowelheath $told is installed: NOTHING OF THE LIBRARY IS PROVED"
fi
