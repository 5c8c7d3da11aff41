#!/bin/sh
# Counts the processor instructions of window calls of curses.h, over this library and over ncurses: a byte of an added
# text, and a cell of a window that is erased, copied, scrolled or given another background, at two sizes. Both sides
# are the same C source.
# It needs valgrind, a C compiler, libncurses-dev, ncurses-base, and libhuttavel.a in c/, which make builds there.
# Usage: benchmarks/windows/run.sh, from the top of the repository.
set -e
here=$(dirname "$0")
top=$here/../..
[ -e "$top/c/libhuttavel.a" ] || { sed -n 's/^# Usage: /usage: /p' "$0" >&2; exit 2; }
folder=$(mktemp -d)
trap 'rm -rf "$folder"' EXIT
make -s -C "$top/c" curses
cc -O2 -I "$top/c" -I "$top/include" -o "$folder/ours" "$here/windows.c" \
    "$top/c/out/libhuttavel_curses.a" "$top/c/libhuttavel.a"
cc -O2 -o "$folder/ncurses" "$here/windows.c" -lncurses -ltinfo

# The instructions of a command.
count() {
    valgrind --tool=callgrind --callgrind-out-file=/dev/null "$@" 2>&1 >/dev/null | sed -n 's/.*Collected : //p'
}

# The instructions of ten calls, from the difference of 12 calls and 2.
ten() {
    few=$(count "$@" 2)
    many=$(count "$@" 12)
    echo $((many - few))
}

# ratio ACTION ROWS COLUMNS PARTS: instructions for each of the parts (bytes or cells) of a call, in hundredths
ratio() {
    ours=$(ten "$folder/ours" "$1" "$2" "$3")
    theirs=$(ten "$folder/ncurses" "$1" "$2" "$3")
    echo "$1 ${2}x$3: $((10 * ours / $4)) hundredths of an instruction, ncurses $((10 * theirs / $4)), ratio $((100 * ours / theirs)) percent"
}

for size in "24 80" "500 500"; do
    set -- $size
    ratio add "$1" "$2" 80
    for action in erase copy scroll background; do
        ratio "$action" "$1" "$2" $(($1 * $2))
    done
done
ratio feed 24 80 80
