#!/bin/sh
# usage: ./build.sh [NAME..]
#
# Builds with their proofs, from the sources as they stand:
#   rehearse regrouped classes   the programs, target/bin/NAME
#   library                      the library for C, target/staticlib/libcapi.a
# or those that are named. What was built from these very sources is left as it is; where anything under crates/, or crates.txt, has
# changed, it is built again. The first time this takes some minutes.
#   --help     prints this, and so does -h
#
# Ends with 0 where all of it is built from these sources, else with 2.

# the kit that the gate is of
kit='rattle-kit-13f logic dac8208d650f15bf'

fail() {
    printf 'build.sh: %s\n' "$1" >&2
    exit 2
}

# the root is the folder of the script itself, also where it is called through links
self=$0
case $self in /*) ;; *) self=$PWD/${self#./} ;; esac
while [ -h "$self" ]; do
    target=$(readlink "$self") || fail "the link $self cannot be followed"
    case $target in /*) self=$target ;; *) self=${self%/*}/$target ;; esac
done
root=${self%/*}

case ${1-} in --help | -h) exec sed -n '2,/^$/s/^# \{0,1\}//p' "$self" ;; esac
[ $# -gt 0 ] || set -- rehearse regrouped classes library
for name in "$@"; do
    case $name in
        rehearse | regrouped | classes | library) ;;
        *) fail "$name is none of rehearse, regrouped, classes and library" ;;
    esac
done
cd "$root/" || fail "$root cannot be entered"
[ -d crates ] && [ -f crates.txt ] || fail "no sources in $root: link to the script, do not copy it"

# what is built of a name
built() {
    case $1 in library) echo target/staticlib/libcapi.a ;; *) echo "target/bin/$1" ;; esac
}

# a sum of all sources, and of what was built
sources=$({ find crates crates.txt -name out -prune -o -type f -exec sha256sum {} + | LC_ALL=C sort | sha256sum; } 2>/dev/null) && [ "$sources" ] || fail "the sources cannot be read"
sums() {
    echo "$sources"
    sha256sum <"$(built "$1")"
}

# whether a name was built from the sources as they stand
current() {
    [ -f "$(built "$1")" ] && [ -f "target/built/$1" ] && sums "$1" 2>/dev/null | cmp -s - "target/built/$1"
}

stale=
for name in "$@"; do
    current "$name" || stale="$stale $name"
done
[ "$stale" ] || exit 0

command -v rt >/dev/null || fail "not built from these sources:$stale; and rt, the command of the Rattle kit, which builds it, is not on the path"
[ "$(rt version)" = "$kit" ] || echo "build.sh: this kit is $(rt version); the gate is of $kit" >&2
echo "build.sh: building$stale, with the proof of all that it rests on; this may take some minutes" >&2
mkdir -p target/built target/bin target/staticlib || fail "no folder $root/target/built, $root/target/bin or $root/target/staticlib"

# Builds a name with its proof. rt builds a program by running it, so it is run on nothing, in the folder of its crate.
build() {
    case $1 in
        library) cd crates/capi_c && rt lib && made=out/libcapi_c.a ;;
        *) cd "crates/$1" && rt run </dev/null && made=out/$1 ;;
    esac && cp "$made" "$root/$(built "$1")"
}

for name in $stale; do
    rm -f "target/built/$name" "$(built "$name")"
    (build "$name") >"target/built/$name.log" 2>&1 || fail "$name could not be built; see $root/target/built/$name.log"
    sums "$name" >"target/built/$name" || fail "it could not be noted what $name was built from"
done
