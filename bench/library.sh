#!/usr/bin/env bash
# Compares the proved library, through its C functions, with the plain Rust reference, call by call.
#   bench/library.sh [COUNT [SEED]]
# COUNT  calls on random memories, steps, lines and buffers (500000)
# SEED   what they are made from (1); the same seed makes the same calls
# Ends with 0 when every call is the same, 1 when one differs, 2 when it cannot start.
set -u
LC_ALL=C
export LC_ALL

root=$(cd "$(dirname "$0")/.." && pwd)
here=$root/bench
count=${1:-500000}
seed=${2:-1}

fail() { echo "library: $1" >&2; exit 2; }
for number in "$count" "$seed"; do
    case $number in '' | *[!0-9]*) fail "COUNT and SEED are numbers, not '$number'" ;; esac
done
command -v rustc >/dev/null || fail "rustc is not on the path"

work=$(mktemp -d) || fail "no folder for the program"
trap 'rm -rf "$work"' EXIT

"$root/build.sh" library || fail "the library does not build"

echo "building the comparison"
rustc -O --edition 2021 -L "native=$root/target/staticlib" -l static=capi -o "$work/library" "$here/library.rs" || fail "library.rs does not build"

echo "making $count calls from seed $seed"
"$work/library" "$seed" "$count"
code=$?
# An end by a signal or a panic is a difference too.
case $code in
    0) ;;
    1) exit 1 ;;
    2) fail "library.rs does not take COUNT $count and SEED $seed" ;;
    *) echo "DIFFERENT: the comparison ended with code $code, seed $seed"; exit 1 ;;
esac
