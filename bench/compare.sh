#!/usr/bin/env bash
# Compares the proved program with the plain C program, byte for byte, and times both; C once with the C library's input and output, once with its own.
#   bench/compare.sh [PROGRAM [RUNS [FOLDERS [FIRST]]]]
# PROGRAM  the proved program; if not given, target/bin/rehearse in the repository, built anew where the sources have changed
# RUNS     timed runs of each program on each large folder (40)
# FOLDERS  small random folders (1000)
# FIRST    their first seed (1)
# Ends with 0 when every sheet is the same, 1 when one differs, 2 when it cannot start.
set -u
LC_ALL=C
export LC_ALL

root=$(cd "$(dirname "$0")/.." && pwd)
here=$root/bench
program=${1:-$root/target/bin/rehearse}
runs=${2:-40}
folders=${3:-1000}
first=${4:-1}

fail() { echo "compare: $1" >&2; exit 2; }
for number in "$runs" "$folders" "$first"; do
    case $number in '' | *[!0-9]*) fail "RUNS, FOLDERS and FIRST are numbers, not '$number'" ;; esac
done
[ "$runs" -ge 1 ] || fail "RUNS is at least 1"
[ "${1-}" ] || "$root/build.sh" rehearse || fail "the program does not build"
[ -x "$program" ] && [ -f "$program" ] || fail "no program at $program"
program=$(cd "$(dirname "$program")" && pwd)/$(basename "$program")
for tool in gcc python3; do
    command -v "$tool" >/dev/null || fail "$tool is not on the path"
done

work=$(mktemp -d) || fail "no folder for the files"
trap 'rm -rf "$work"' EXIT

gcc -O3 -DSTDIO -o "$work/plain" "$here/plain.c" && gcc -O3 -o "$work/quick" "$here/plain.c" || fail "plain.c does not build"
python3 "$here/make_files.py" large "$work/large" || fail "the large folders could not be written"
for lines in 12500 25000 50000; do
    mkdir "$work/large/mixed-$lines"
    cp "$work/large/mixed/crate.txt" "$work/large/mixed-$lines"
    head -n "$lines" "$work/large/mixed/run.txt" >"$work/large/mixed-$lines/run.txt"
done
python3 "$here/make_files.py" random "$work/random" "$first" "$folders" || fail "the random folders could not be written"

# run PROGRAM FOLDER SHEET: one run. 01 sets no exit code, so only an end by a signal counts.
run() {
    (cd "$2" && exec "$1") >"$3" 2>"$work/said"
    local code=$?
    [ "$code" -lt 128 ] || { echo "DIFFERENT: $(basename "$1") ended by a signal (code $code) in $2"; return 1; }
}

# same FOLDER: runs the programs there, compares their sheets and shows the first difference.
same() {
    run "$program" "$1" "$work/sheet.program" || return 1
    for c in plain quick; do
        run "$work/$c" "$1" "$work/sheet.c" || return 1
        cmp -s "$work/sheet.c" "$work/sheet.program" && continue
        echo "DIFFERENT: ${1#"$work"/} (< $c C, > program)"
        diff -a "$work/sheet.c" "$work/sheet.program" | head -n 6
        return 1
    done
}

different=0
printf '%-12s %9s %9s %11s %9s %7s %11s %7s\n' folder lines "of sheet" "program ms" "C ms" ratio "quick C ms" ratio
for folder in mixed scans garbled past mixed-12500 mixed-25000 mixed-50000; do
    if ! same "$work/large/$folder"; then
        different=$((different + 1))
        continue
    fi
    times=$(python3 "$here/cpu_time.py" "$runs" "$work/large/$folder" "$program" "$work/plain" "$work/quick") || fail "no times in $folder"
    echo "$folder $(wc -l <"$work/large/$folder/run.txt") $(wc -l <"$work/sheet.program") $times" |
        awk '{ printf "%-12s %9d %9d %11.2f %9.2f %7.2f %11.2f %7.2f\n", $1, $2, $3, $4, $5, $4 / $5, $6, $4 / $6 }'
done

bad=0
seed=$first
last=$((first + folders))
while [ "$seed" -lt "$last" ] && [ "$bad" -lt 10 ]; do
    same "$work/random/$seed" || bad=$((bad + 1))
    seed=$((seed + 1))
done
[ "$bad" -lt 10 ] || echo "ten random folders differ; the rest is left out"
echo "$((seed - first)) random folders from seed $first: $bad differ"

if [ "$different" = 0 ] && [ "$bad" = 0 ]; then
    echo "every sheet is the same"
else
    echo "sheets differ: $different large folders, $bad random folders"
    echo "bench/make_files.py writes the folders again: large DIR, or random DIR SEED 1"
    exit 1
fi
