#!/bin/sh
# Counts the processor instructions of small calls of curses.h, and of a program that only starts and ends, over this
# library and over ncurses: the same C sources on both sides, compiled as programs are, for 24x80 of the entry xterm,
# written to /dev/null.
# A call's figure is that of the call with the loop around it, from the difference of 12 times and 2 times 60 calls on a
# screen of text that was shown. In the first table calls come in a row; what is added begins with a move, which is
# counted by itself and taken away. In the second they are scattered: each has another place, another pen or another
# window than the one before, and what sets these is counted with it. The whole of the program that starts is counted,
# with what the system does to load it, also over an ncurses that is linked in.
# It needs valgrind, a C compiler, libncurses-dev, ncurses-base, and libhuttavel.a in c/, which make builds there.
# Usage: benchmarks/calls/run.sh, from anywhere.
. "$(dirname "$0")/../../tests/lib.sh"
here=benchmarks/calls top=. folder=$work
[ -e c/libhuttavel.a ] || usage
exec < /dev/null
make -s -C "$top/c" curses
for program in calls start; do
    cc -O2 -I "$top/c" -I "$top/include" -o "$folder/$program" "$here/$program.c" \
        "$top/c/out/libhuttavel_curses.a" "$top/c/libhuttavel.a"
    cc -O2 -o "$folder/$program-ncurses" "$here/$program.c" -lncurses -ltinfo
done
cc -O2 -o "$folder/start-static" "$here/start.c" -Wl,-Bstatic -lncurses -ltinfo -Wl,-Bdynamic
export LINES=24 COLUMNS=80 TERM=xterm

# The instructions of 600 calls.
calls() {
    few=$(instructions "$1" "$2" 2)
    many=$(instructions "$1" "$2" 12)
    echo $((many - few))
}

# A sixtieth of a tenth of a whole number, with its digit behind the point.
each() { echo "$(($1 / 600)).$(($1 % 600 / 60))"; }

# row CALL WORDS MOVES: a line of the table, of a call with so many moves in 60 calls.
row() {
    ours=$(($(calls "$folder/calls" "$1") - $3 * our_move))
    theirs=$(($(calls "$folder/calls-ncurses" "$1") - $3 * their_move))
    echo "| $2 | $(each $ours) | $(each $theirs) | $(hundredths $(((100 * ours + theirs / 2) / theirs))) |"
}

our_move=$(calls "$folder/calls" begin)
their_move=$(calls "$folder/calls-ncurses" begin)
head() {
    echo "| $1 | Ours | ncurses | Ratio |"
    echo "|---|---|---|---|"
}
head Call
row getyx '`getyx`' 0
row attrset '`attrset`' 0
row pair '`attrset` with a colour pair' 0
row inch '`inch`' 0
row move '`move`' 0
row addch '`addch`' 1
row addstr5 '`addstr` of 5 characters' 4
row addstr40 '`addstr` of 40 characters' 60
row wnoutrefresh '`wnoutrefresh`, nothing changed' 0
row turn '`wnoutrefresh` of two windows in turn, nothing changed' 0
row refresh '`refresh`, nothing changed' 0
row erase '`erase`' 0
row box '`box`' 0
row clrtoeol '`clrtoeol`' 0
echo

head 'Scattered calls'
row far '`move`' 0
row far-addch '`move` and `addch`' 0
row far-addstr5 '`move` and `addstr` of 5 characters' 0
row far-inch '`move` and `inch`' 0
row pens-addch '`attrset` and `addch`, two pens in turn' 1
row pens-addstr5 '`attrset` and `addstr` of 5 characters, two pens in turn' 4
row far-pens-addch '`move`, `attrset` and `addch`' 0
row windows-addch '`waddch`, four windows in turn' 4
row windows-addstr5 '`wmove` and `waddstr` of 5 characters, four windows in turn' 0
echo

head 'Updates'
row init_pair '`init_pair` of a pair in use on three lines, and `refresh`' 0
row endwin '`endwin`, and `refresh`' 0
echo

ours=$(instructions "$folder/start")
shared=$(instructions "$folder/start-ncurses")
linked=$(instructions "$folder/start-static")
echo "| | Ours | ncurses, shared | Ratio | ncurses, linked in | Ratio |"
echo "|---|---|---|---|---|---|"
echo "| a program that starts and ends | $ours | $shared | $(hundredths $(((100 * ours + shared / 2) / shared)))" \
    "| $linked | $(hundredths $(((100 * ours + linked / 2) / linked))) |"
