#!/bin/sh
# Runs the scenario fleet.txt, whole and broken, and compares what the program prints with README.md, and what its
# debugger answers with the session of docs/use/debugger.md; and makes the files of reader.txt again, which have to be
# those that stand beside it, and plays the text as README.md at the top of the repository has it.
# A word, where there is one, is the program to run; else it is lwbench at the root of the repository.
# Status 0: all as README.md says. 1: not so, and a line for each difference.

here=$(CDPATH='' cd -- "$(dirname -- "$0")" && pwd) || exit 2
program=${1:-$here/../lwbench}
work=$(mktemp -d) || exit 2
trap 'rm -rf "$work"' EXIT
differences=0

differs() {
    echo "$*"
    differences=$((differences + 1))
}

# says STATUS LINE WORD..: the program, run with these words, prints this line and ends with this status.
says() {
    status=$1
    line=$2
    shift 2
    printed=$("$program" "$@")
    ended=$?
    [ "$ended" = "$status" ] && [ "$printed" = "$line" ] || differs "$1: status $ended, $printed; awaited: status $status, $line"
}

# broken SCRIPT: the text, changed by a script of sed.
broken() {
    sed "$1" "$here/fleet.txt" >"$work/broken.txt"
}

all='ok 2 classes 3 devices 89 steps'
says 0 "$all" asm "$here/fleet.txt" "$work/fleet.image"

"$program" dis "$work/fleet.image" >"$work/canonical.txt" || differs "dis: status $?"
[ "$(wc -l <"$work/canonical.txt")" -eq 177 ] || differs "dis: not 177 lines"
says 0 "$all" asm "$work/canonical.txt" "$work/again.image"
cmp -s "$work/fleet.image" "$work/again.image" || differs "dis: its text has another image"

says 0 'done 89' run "$work/fleet.image" --trace "$work/fleet.trace"
says 0 'run' check "$work/fleet.image" "$work/fleet.trace"

says 0 'ok 1 classes 1 devices 1 steps' asm "$here/reader.txt" "$work/reader.image"
cmp -s "$work/reader.image" "$here/reader.image" || differs "asm: another image than reader.image"
says 0 'done 1' run "$here/reader.image" --workers 1 --trace "$work/reader.trace"
cmp -s "$work/reader.trace" "$here/reader.trace" || differs "run: another trace than reader.trace"
sed -n '/^    0 worker 0 /,/^$/ s/^    //p' "$here/../README.md" >"$work/lines.txt"
"$program" play "$here/reader.txt" >"$work/printed.txt" || differs "play: status $?"
diff "$work/lines.txt" "$work/printed.txt" || differs "play: not the lines of README.md at the top"

# The first cells of the session's table are the lines, the second ones the answers.
session='/^## A session/,/^## / s/^| '
page=$here/../docs/use/debugger.md
sed -n "$session"'`\([^`]*\)` |.*/\1/p' "$page" >"$work/lines.txt"
sed -n "$session"'[^|]*| `\([^`]*\)` |.*/\1/p' "$page" >"$work/answers.txt"
[ -s "$work/answers.txt" ] || differs "debug: no session in $page"
"$program" debug "$work/fleet.image" "$work/fleet.trace" <"$work/lines.txt" >"$work/printed.txt" || differs "debug: status $?"
diff "$work/answers.txt" "$work/printed.txt" || differs "debug: not the answers of the session"

broken 's/^tick 10 /tick 0 /'
says 1 'fault: line 126: range' asm "$work/broken.txt" "$work/broken.image"
broken '60,$ { /^instance 3 0$/d; }'
says 1 'fault: line 96: missing' asm "$work/broken.txt" "$work/broken.image"
broken 's/^write    2 /write    3 /'
says 1 'fault: line 201: missing' asm "$work/broken.txt" "$work/broken.image"
broken '/^post 2 /d'
says 0 'ok 2 classes 3 devices 88 steps' asm "$work/broken.txt" "$work/broken.image"
says 3 'stalled 77 waiting 0 1 2' run "$work/broken.image"

[ "$differences" -eq 0 ] && echo "all as README.md says"
