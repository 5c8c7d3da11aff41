#!/bin/sh
# Counts the calls of write with which a screen is opened, painted full and closed, and the bytes, over curses.h of this
# library and over ncurses: the same C source on both sides, and the bundled entry, compiled by tic.
# Needs strace, a C compiler, libncurses-dev, ncurses' tic, and libhuttavel.a in c/, which make builds there.
# Usage: benchmarks/writes/run.sh ["ROWS COLUMNS" ..], from the top of the repository.
set -eu
here=$(dirname "$0")
top=$here/../..
[ -e "$top/c/libhuttavel.a" ] || { sed -n 's/^# Usage: /usage: /p' "$0" >&2; exit 2; }
[ $# -gt 0 ] || set -- "24 80" "50 132" "100 300" "500 500"
work=$(mktemp -d)
trap 'rm -rf "$work"' EXIT
make -s -C "$top/c" curses
cc -O2 -I "$top/c" -I "$top/include" -o "$work/ours" "$here/writes.c" \
    "$top/c/out/libhuttavel_curses.a" "$top/c/libhuttavel.a"
cc -O2 -o "$work/ncurses" "$here/writes.c" -lncurses -ltinfo
export TERM=ecma48 TERMINFO="$work/terminfo"
tic -o "$TERMINFO" "$here/../update/ecma48.ti"

# count PROGRAM ROWS COLUMNS: how many calls there are, and how many bytes.
count() {
    strace -f -c -e trace=write -o "$work/counted" "$@" > "$work/sent"
    echo "$(awk '$NF == "write" { print $4 }' "$work/counted") $(wc -c < "$work/sent")"
}

echo "size | bytes: ours | ncurses | calls of write: ours | ncurses"
for size in "$@"; do
    set -- $size
    ours=$(count "$work/ours" "$1" "$2")
    theirs=$(count "$work/ncurses" "$1" "$2")
    echo "$1x$2 | ${ours#* } | ${theirs#* } | ${ours% *} | ${theirs% *}"
done
