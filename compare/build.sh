#!/bin/sh
# Builds the comparison of the proved library with the Rust's own functions.
#
#   build.sh SUPPLIED LIBRARY OUT
#
# SUPPLIED has the supplied files of starlark 0.14.2 (../oracle/README.md), LIBRARY is libexports.a, as written by
# `rt lib` in crates/exports. OUT gets the program `compare`. Needs python3 and rustc; no cargo, no crates, no network.
set -eu
if [ $# -ne 3 ]; then
    sed -n '2,7s/^# \{0,1\}//p' "$0" >&2
    exit 2
fi
here=$(cd "$(dirname "$0")" && pwd)
"$here/../oracle/build.sh" "$1" "$3"
rustc --edition 2024 -C opt-level=3 --crate-name compare --extern oracle="$3/liboracle.rlib" \
    --extern oracle_folding="$3/liboracle_folding.rlib" -C link-arg="$2" -o "$3/compare" "$here/src/main.rs"
echo "built $3/compare"
