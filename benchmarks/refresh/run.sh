#!/bin/sh
# Counts the processor instructions of a refresh by curses.h, over this library and over ncurses, at two sizes: the same
# C source on both sides, and the bundled entry, compiled by tic.
# `take`: a window over the whole screen is copied to the virtual screen (wnoutrefresh), with all its lines touched, one
# line, or none, and with cells that the virtual screen has already or new ones. What the touching costs is counted by
# itself and taken away on both sides. No update comes between the calls. `paint`: a full screen is painted anew
# (redrawwin, wnoutrefresh and doupdate). Both write to /dev/null.
# The last table has ours of `paint` beside scratch_bytes, which paints the screen place by place into one buffer.
# It needs valgrind, a C compiler, libncurses-dev, ncurses' tic, libhuttavel.a in c/, which make builds there, and the
# program crates/bench_terminals, which `rt run` builds there.
# Usage: benchmarks/refresh/run.sh, from the top of the repository.
set -e
here=$(dirname "$0")
top=$here/../..
scratch=$top/crates/bench_terminals/out/bench_terminals
[ -e "$top/c/libhuttavel.a" ] && [ -x "$scratch" ] || { sed -n 's/^# Usage: /usage: /p' "$0" >&2; exit 2; }
folder=$(mktemp -d)
trap 'rm -rf "$folder"' EXIT
make -s -C "$top/c" curses
cc -O2 -I "$top/c" -I "$top/include" -o "$folder/ours" "$here/refresh.c" \
    "$top/c/out/libhuttavel_curses.a" "$top/c/libhuttavel.a"
cc -O2 -o "$folder/ncurses" "$here/refresh.c" -lncurses -ltinfo
export TERM=ecma48 TERMINFO="$folder/terminfo"
tic -o "$TERMINFO" "$here/../update/ecma48.ti"

# The instructions of a command.
count() {
    valgrind --tool=callgrind --callgrind-out-file=/dev/null "$@" 2>&1 >/dev/null | sed -n 's/.*Collected : //p'
}

# The instructions of ten calls, from the difference of 12 calls and 2.
ten() {
    few=$(count "$@" 2)
    many=$(count "$@" 12)
    echo $((many - few))
}

# taken PROGRAM ACTION ROWS COLUMNS LINES: the instructions of ten copies, without those of the touching.
taken() {
    whole=$(ten "$1" "$2" "$3" "$4" "$5")
    touching=$(ten "$1" touch "$3" "$4" "$5")
    echo $((whole - touching))
}

# A tenth or a hundredth of a whole number, with its digits behind the point.
tenths() { echo "$(($1 / 10)).$(($1 % 10))"; }
hundredths() { echo "$(($1 / 100)).$(($1 / 10 % 10))$(($1 % 10))"; }

# row WORDS SIZE PLACES OURS THEIRS: a line of a table, from the instructions of ten calls.
row() {
    each="-"
    [ "$3" = 0 ] || each="$(hundredths $((10 * $4 / $3))) $(hundredths $((10 * $5 / $3)))"
    echo "$1 | $2 | $(tenths "$4") | $(tenths "$5") | $each | $(hundredths $((100 * $4 / $5)))"
}

echo "call | size | ours | ncurses | a place: ours, ncurses | ratio"
for size in "24 80" "100 300"; do
    set -- $size
    for action in take take_new; do
        for lines in "$1" 1; do
            row "$action, lines $lines" "$1x$2" $((lines * $2)) "$(taken "$folder/ours" $action "$1" "$2" "$lines")" \
                "$(taken "$folder/ncurses" $action "$1" "$2" "$lines")"
        done
    done
    row "take, lines 0" "$1x$2" 0 "$(taken "$folder/ours" take "$1" "$2" 0)" \
        "$(taken "$folder/ncurses" take "$1" "$2" 0)"
    row "paint" "$1x$2" $(($1 * $2)) "$(ten "$folder/ours" paint "$1" "$2" 0)" \
        "$(ten "$folder/ncurses" paint "$1" "$2" 0)"
done
echo
echo "call | size | paint | scratch_bytes | a place: paint, scratch_bytes | ratio"
for size in "24 80" "100 300"; do
    set -- $size
    row "paint" "$1x$2" $(($1 * $2)) "$(ten "$folder/ours" paint "$1" "$2" 0)" "$(ten "$scratch" scratch "$1" "$2")"
done
