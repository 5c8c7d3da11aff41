#!/bin/sh
# Compiled files beside ncurses, in processor instructions of whole programs (valgrind's callgrind, which repeat):
#
# - `tic -o` of a generated source of 2,000 entries, beside the tic of ncurses on the same source;
# - `tic -d` of each compiled entry below /lib/terminfo and /usr/share/terminfo that is read (not those with 32-bit
#   numbers), beside ncurses' infocmp of the same entry. With a number as its word, of every so-manyth one.
#
# Prints each sum and the ratio, ours to theirs; below 1 ours takes fewer. The second also less what each program takes
# for an entry without capabilities: what is left is the work on the entries.
#
# Wants valgrind, Debian's ncurses-bin and ncurses-term, and the program built:
# cd crates/tic && rt run -- -c - < ../../examples/tiny.ti
# Usage: benchmarks/compiled/run.sh [EVERY], from anywhere. All entries take some ten minutes on four
# cores.
. "$(dirname "$0")/../../tests/lib.sh"
built tic
ours=$(absolute "$(program tic)")
theirs=${TIC:-/usr/bin/tic}
every=${1:-1}

sh benchmarks/source/generate 2000 > "$work/source.ti"
one=$(instructions "$ours" -o "$work/ours" "$work/source.ti")
other=$(instructions "$theirs" -o "$work/theirs" "$work/source.ti")
echo "files of ours $(find "$work/ours" -type f | wc -l), of ncurses $(find "$work/theirs" -type f | wc -l)"
awk -v one="$one" -v other="$other" 'BEGIN { printf "tic -o, 2,000 entries: ours %.0f, ncurses %.0f, ratio %.2f\n", one, other, one / other }'

# For each entry a line: the instructions of ours, and of infocmp.
cat > "$work/both" << 'EOF'
#!/bin/sh
count() {
    valgrind --tool=callgrind --callgrind-out-file=/dev/null "$@" 2>&1 > /dev/null | awk '/Collected/ { print $NF }'
}
file=$1
"$OURS" -d "$file" > /dev/null 2>&1 || exit 0
echo "$(count "$OURS" -d "$file") $(count infocmp -A "${file%/*/*}" "${file##*/}")"
EOF
printf 'x,\n' | "$ours" -o "$work/bare" -
export OURS="$ours"
bare=$(sh "$work/both" "$work/bare/x/x")
find /lib/terminfo /usr/share/terminfo -type f | sort | awk -v every="$every" 'NR % every == 0' |
    xargs -n 1 -P "$(nproc)" sh "$work/both" > "$work/counts"
awk -v bare="$bare" '
    { ours += $1; theirs += $2; if (!(most >= $1 / $2)) most = $1 / $2 }
    END {
        split(bare, idle, " ")
        printf "tic -d, %d entries: ours %.0f, ncurses %.0f, ratio %.2f (the greatest of an entry %.2f)\n", NR, ours, theirs, ours / theirs, most
        printf "less an entry without capabilities: ours %.0f, ncurses %.0f, ratio %.2f\n", ours - NR * idle[1], theirs - NR * idle[2], (ours - NR * idle[1]) / (theirs - NR * idle[2])
    }' "$work/counts"
