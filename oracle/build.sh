#!/bin/sh
# Builds the oracle from the supplied files of starlark 0.14.2.
#
#   build.sh SUPPLIED OUT
#
# SUPPLIED has the files (README.md says which and how they may lie). OUT gets liboracle.rlib, and
# liboracle_folding.rlib, which has no line inserted and in which everything that can fold does. Needs python3 and
# rustc (edition 2024); no cargo, no crates, no network.
set -eu
if [ $# -ne 2 ]; then
    sed -n '2,8s/^# \{0,1\}//p' "$0" >&2
    exit 2
fi
here=$(cd "$(dirname "$0")" && pwd)
mkdir -p "$2"
build() { # NAME, then words for transform.py; the rest for rustc
    name=$1 folding=$2
    rm -rf "$out/$name"
    mkdir -p "$out/$name"
    cp -R "$here/src/." "$out/$name/"
    # shellcheck disable=SC2086
    python3 "$here/transform.py" "$supplied" "$out/$name" ${folding:+--folding}
    rustc --edition 2024 --crate-type rlib --crate-name "$name" -C opt-level=3 ${folding:+--cfg folding} \
        --out-dir "$out" "$out/$name/lib.rs"
}
supplied=$1
out=$2
build oracle ""
build oracle_folding folding
echo "built liboracle.rlib and liboracle_folding.rlib"
