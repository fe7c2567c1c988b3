#!/bin/sh
# usage: ./rehearse.sh [--beside] [--] [FOLDER]
#
# Rehearses the run of FOLDER/run.txt on the crate of FOLDER/crate.txt and prints the sheet. Without FOLDER it takes examples/beam-run.
#   --beside   prints, in place of the sheet, each line of run.txt with its answer in words beside it; the two files must be plain files
#   --help     prints this, and so does -h
#   --         ends the options, for a folder that is named like one
#
# Builds the program first where it was not built from the sources as they stand, with its proof (build.sh): some minutes the first time.
# Ends with 0 where the sheet is printed,
#           1 where it says that the crate is refused,
#           3 where a file was missing or could not be read to its end, which counts as empty from there on and is said on standard error,
#           2 where nothing could be printed, or not all.

fail() {
    printf 'rehearse.sh: %s\n' "$1" >&2
    exit 2
}

# the root is the folder of the script itself, also where it is called through links
self=$0
case $self in /*) ;; *) self=$PWD/${self#./} ;; esac
while [ -h "$self" ]; do
    target=$(readlink "$self") || fail "the link $self cannot be followed"
    case $target in /*) self=$target ;; *) self=${self%/*}/$target ;; esac
done
root=${self%/*}
program=$root/target/bin/rehearse

beside=
while [ $# -gt 0 ]; do
    case $1 in
        --beside) beside=yes ;;
        --help | -h) exec sed -n '2,/^$/s/^# \{0,1\}//p' "$self" ;;
        --) shift && break ;;
        *) break ;;
    esac
    shift
done
[ $# -le 1 ] || fail "one folder at a time, after the options: ./rehearse.sh [--beside] [--] [FOLDER]"
folder=${1-$root/examples/beam-run}

# with ./ before it no name is taken for an option, for the folder before (-) or for one of CDPATH
case $folder in
    '') fail "the name of the folder is empty" ;;
    /*) place=$folder ;;
    *) place=./$folder ;;
esac
cd -P "$place" 2>/dev/null || case $folder in
    -*) fail "$folder is neither an option nor a folder" ;;
    *) fail "$folder is no folder, or may not be entered" ;;
esac

[ -x "$root/build.sh" ] || fail "no build.sh in $root: link to the script, do not copy it"
"$root/build.sh" rehearse || exit 2

# each line of a file is read again to be shown beside its answer
if [ "$beside" ]; then
    for file in crate.txt run.txt; do
        [ ! -e "$file" ] || [ -f "$file" ] || fail "$folder/$file is no plain file, and --beside reads it twice"
    done
fi

# Passes the sheet on, or shows it beside the lines. Ends with 1 where its first line says that the crate is refused, with 2 where it is not passed on whole.
show() {
    if [ "$beside" ]; then
        LC_ALL=C awk -f "$root/beside.awk"
        return
    fi
    IFS= read -r first || { printf %s "$first" && return || return 2; }
    { printf '%s\n' "$first" | cat - /dev/fd/5; } 5<&0 || return 2
    case $first in crate=*) return 1 ;; esac
}

# Passes on what is said on standard error, and tells what came of the run.
hear() {
    status=0
    while IFS= read -r said || [ "$said" ]; do
        case $said in
            shown=0) continue ;;
            shown=1) [ "$status" = 2 ] || status=1 && continue ;;
            shown=*) status=2 && continue ;;
            failed=*) status=2 && said="rehearse.sh: $program did not run to its end" ;;
            *' is missing; '* | 'cannot read '*) [ "$status" != 0 ] || status=3 ;;
            'cannot write '*) status=2 ;;
        esac
        printf '%s\n' "$said" >&2
    done
    echo "$status"
}

# with the signal ignored, who writes says on standard error that the output was closed
trap '' PIPE
{ command exec 3>&1; } 2>/dev/null || fail "standard output is closed"
status=$({
    { "$program" 2>&4 || echo "failed=$?" >&4; } | {
        show >&3
        echo "shown=$?" >&4
    }
} 4>&1 | hear)
[ "$status" != 2 ] || fail "the sheet could not be shown whole"
exit "$status"
