#!/bin/sh
# Counts the processor instructions of an update (doupdate), and of taking a window (noutrefresh) with it, beside
# ncurses' doupdate and wnoutrefresh, and the bytes that each sends.
# Windows over the whole screen are taken in turn: with nothing touched, with one character written, and with one line,
# a third of the lines or all of them touched where the windows differ in every place. Then the windows are pages of
# text: a character is typed in the middle and a status line counts it, forty places all over the screen change in three
# pens, one page is shown for the other, all lines move by one, and a letter is typed into the middle of a line. Both
# sides make the same calls, write into memory, and show the screen already when counting begins. What comes before is
# counted by itself and taken away: the drawing, and for doupdate alone the taking too.
# There are two tables, and ours is the same C source as theirs in both, over curses.h of here. In the first the entry
# is the bundled one, compiled by tic, for the last two changes with the texts that insert and delete lines and characters.
# In the second it is the machine's xterm.
# It needs valgrind, a C compiler, libncurses-dev, ncurses' tic, ncurses-base, and libhuttavel.a in c/, which make
# builds there.
# Usage: benchmarks/update/run.sh ["ROWS COLUMNS" ..], from the top of the repository.
set -e
here=$(dirname "$0")
top=$here/../..
[ -e "$top/c/libhuttavel.a" ] || { sed -n 's/^# Usage: /usage: /p' "$0" >&2; exit 2; }
[ $# -gt 0 ] || set -- "24 80" "50 132" "100 300" "500 500"
folder=$(mktemp -d)
trap 'rm -rf "$folder"' EXIT
cc -O2 -o "$folder/ncurses" "$here/update.c" -lncurses -ltinfo
make -s -C "$top/c" curses
cc -O2 -I "$top/c" -I "$top/include" -o "$folder/ours" "$here/update.c" \
    "$top/c/out/libhuttavel_curses.a" "$top/c/libhuttavel.a"
export TERM TERMINFO="$folder/terminfo"
tic -o "$TERMINFO" "$here/ecma48.ti"

# The instructions of a command, and behind them what it prints.
count() {
    valgrind --tool=callgrind --callgrind-out-file=/dev/null "$@" 2>"$folder/words" >"$folder/printed"
    echo "$(sed -n 's/.*Collected : //p' "$folder/words") $(cat "$folder/printed")"
}

# The instructions of ten times, and the bytes that are sent in them, from the difference of 12 times and 2.
ten() {
    few=$(count "$@" 2)
    many=$(count "$@" 12)
    echo "$((${many% *} - ${few% *})) $((${many#* } - ${few#* }))"
}

# The quotient of two numbers in hundredths.
ratio() {
    hundredths=$((($1 * 100 + $2 / 2) / $2))
    printf '%d.%02d' $((hundredths / 100)) $((hundredths % 100))
}

# A tenth of a whole number, with its digit behind the point.
tenths() { echo "$(($1 / 10)).$(($1 % 10))"; }

# stages PROGRAM WORDS..: what taking and updating together takes, what updating takes alone, and the bytes.
stages() {
    side=$1
    shift
    drawing=$(ten $side draw "$@")
    taking=$(ten $side take "$@")
    whole=$(ten $side update "$@")
    echo "$((${whole% *} - ${drawing% *})) $((${whole% *} - ${taking% *})) ${whole#* }"
}

# row WORDS CHANGE ROWS COLUMNS NUMBER: a line of the table on $entry.
row() {
    words=$1
    shift
    TERM=$entry
    case $entry,$1 in
    ecma48,moved | ecma48,letter) TERM=ecma48-moving ;;
    esac
    set -- "$words" "$2x$3" $(stages "$folder/ours" "$@") $(stages "$folder/ncurses" "$@")
    sent="-"
    [ "$8" = 0 ] || sent=$(ratio "$5" "$8")
    echo "$1 | $2 | $(tenths "$3") | $(tenths "$6") | $(ratio "$3" "$6") | $(tenths "$4") | $(tenths "$7") | $(ratio "$4" "$7") |" \
        "$(tenths "$5") | $(tenths "$8") | $sent"
}

# rows ROWS COLUMNS: the lines of a size.
rows() {
    row "nothing" lines "$1" "$2" 0
    row "one character" character "$1" "$2" 0
    row "one line" lines "$1" "$2" 1
    row "a third" lines "$1" "$2" $(($1 / 3))
    row "everything" lines "$1" "$2" "$1"
    row "a status line" status "$1" "$2" 0
    row "forty places" scattered "$1" "$2" 40
    row "a page" page "$1" "$2" "$1"
    row "lines that move" moved "$1" "$2" "$1"
    row "a letter in a line" letter "$1" "$2" 0
}

# table ENTRY WORDS SIZE..: the lines of all sizes
table() {
    entry=$1
    echo "$2"
    shift 2
    echo "change | size | taking and doupdate: ours | ncurses | ratio | doupdate: ours | ncurses | ratio | bytes: ours | ncurses | ratio"
    for size in "$@"; do
        # shellcheck disable=SC2086
        rows $size
    done
}

table ecma48 "the bundled entry:" "$@"
echo
table xterm "xterm:" "$@"
