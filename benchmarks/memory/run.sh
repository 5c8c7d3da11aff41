#!/bin/sh
# Compares the memory that a program with a full screen of text holds with that of the same program over ncurses: what it
# holds after the first update, and the most that it held. It needs a C compiler, libncurses-dev, ncurses-base, and
# c/libhuttavel.a.
# Usage: benchmarks/memory/run.sh, from anywhere.
. "$(dirname "$0")/../../tests/lib.sh"
folder=$work
cc -O2 -I c -I include -o "$folder/ours" benchmarks/memory/memory.c c/curses.c c/libhuttavel.a
cc -O2 -o "$folder/ncurses" benchmarks/memory/memory.c -lncurses -ltinfo
export TERM=xterm
echo '| Size | Held: ours | ncurses | Ratio | At most: ours | ncurses | Ratio |'
echo '|---|---|---|---|---|---|---|'
for size in '24 80' '500 500'; do
    # shellcheck disable=SC2086
    set -- $size $("$folder/ours" $size) $("$folder/ncurses" $size)
    awk -v ours="$3" -v most="$4" -v theirs="$5" -v their_most="$6" -v size="$1x$2" 'BEGIN {
        printf "| %s | %d | %d | %.2f | %d | %d | %.2f |\n", size, ours, theirs, ours / theirs, most, their_most, most / their_most }'
done
