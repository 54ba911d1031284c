#!/bin/sh
# Runs prune_limits with little stack, and compares what it prints with what it must print.
#
#   tools/limits_stack.sh [KIB]
#
# KIB is the stack that it has beside its arrays: 512 where none is named. `rt run` in that crate comes first: it proves
# the program and makes crates/prune_limits/out/prune_limits. (The gate runs the program too, with no limit of stack.)
set -eu
root=$(cd "$(dirname "$0")/.." && pwd)
crate=$root/crates/prune_limits
beside=${1:-512}
# The arrays of 32-bit words on its stack, by the sizes in the source.
arrays=$(awk '/^const (NUMBERS|WORDS|WORK|RESULT): usize = [0-9]+;$/ { words += $5 } END { print words * 4 }' "$crate/src/main.rt")
limit=$((arrays / 1024 + 1 + beside))
said=$(mktemp)
trap 'rm -f "$said"' EXIT
(
    ulimit -s "$limit"
    exec env -i "$crate/out/prune_limits" <"$crate/stdin" >"$said"
) || echo "prune_limits ended with status $?" >&2
cmp "$said" "$crate/stdout"
echo "prune_limits: all lines as they must be, with $limit KiB of stack, $beside of them beside its arrays"
