#!/usr/bin/env bash
# Compares each place that tells the version of the store with the file VERSION: the header, the library's contract of trb_version, the
# package, the crate, and grbrun.
#   bindings/versions.sh
# Prints a line for each place that differs; the status is 1 where there is one.
set -u
cd "$(dirname "${BASH_SOURCE[0]}")" || exit 2
version=$(cat VERSION)
if ! [[ $version =~ ^(0|[1-9][0-9]*)\.(0|[1-9][0-9]?)\.(0|[1-9][0-9]?)$ ]]; then
    echo "VERSION has '$version', which is no version of three numbers, the last two below 100"
    exit 1
fi
major=${BASH_REMATCH[1]} minor=${BASH_REMATCH[2]} patch=${BASH_REMATCH[3]}
status=0

# The place has this word.
has() {
    local place=$1 wanted=$2 found=$3
    if [ "$found" != "$wanted" ]; then
        echo "$place has '$found', and not '$wanted'"
        status=1
    fi
}

# The rest of the one line of a file that begins so, without quotes and what follows the last of these.
after() {
    sed -n "s/^$2\"\?\([^\" ]*\).*/\1/p" "$1"
}

header=c/trowelheath.h
has "$header, TRB_VERSION_MAJOR" "$major" "$(after "$header" '#define TRB_VERSION_MAJOR ')"
has "$header, TRB_VERSION_MINOR" "$minor" "$(after "$header" '#define TRB_VERSION_MINOR ')"
has "$header, TRB_VERSION_PATCH" "$patch" "$(after "$header" '#define TRB_VERSION_PATCH ')"
has "$header, TRB_VERSION" "$version" "$(after "$header" '#define TRB_VERSION ')"
has 'crates/grb_c/src/version.rt' $((major * 10000 + minor * 100 + patch)) "$(after ../crates/grb_c/src/version.rt '    ensures { result ≡ ')"
has 'crates/grb_run/src/command_line.rt' "$version" "$(after ../crates/grb_run/src/command_line.rt 'const VERSION: &str = ')"
has 'python/pyproject.toml' "$version" "$(after python/pyproject.toml 'version = ')"
has 'python/src/trowelheath/__init__.py' "$version" "$(after python/src/trowelheath/__init__.py '__version__ = ')"
has 'rust/src/sys.rs' $((major * 10000 + minor * 100 + patch)) "$(after rust/src/sys.rs 'pub const VERSION: u32 = ' | tr -d ';')"
has 'rust/Cargo.toml' "$version" "$(after rust/Cargo.toml 'version = ')"
has 'rust/Cargo.lock' "$version" "$(sed -n '/^name = "trowelheath"$/,/^version/p' rust/Cargo.lock | after /dev/stdin 'version = ')"
exit "$status"
