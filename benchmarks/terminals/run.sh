#!/bin/sh
# Counts the processor instructions of what terminals cost: one run, one reading and one length of parameter strings,
# two of them without parameters, beside ncurses' tparm; one admission of the bundled entry; one graphic character that
# the emulated screen is fed; the operations for one place, a bold character, and their bytes; those that paint a whole
# screen; and one price of a cursor address.
# It needs valgrind, a C compiler, libncurses-dev, and the program crates/bench_terminals, which `rt run` builds there.
# Usage: benchmarks/terminals/run.sh, from the top of the repository.
set -e
here=$(dirname "$0")
program=$here/../../crates/bench_terminals/out/bench_terminals
[ -x "$program" ] || { sed -n 's/^# It needs /needs /p' "$0" >&2; exit 2; }
folder=$(mktemp -d)
cc -O2 -o "$folder/tparm" "$here/tparm.c" -lncurses -ltinfo

# The instructions of a command.
count() {
    valgrind --tool=callgrind --callgrind-out-file=/dev/null "$@" 2>&1 >/dev/null | sed -n 's/.*Collected : //p'
}

# The instructions of one time, from the difference of FEW times and FEW and 10 times STEP.
once() {
    few=$1 step=$2
    shift 2
    least=$(count "$@" "$few")
    most=$(count "$@" $((few + 10 * step)))
    echo $(((most - least) / (10 * step)))
}

for text in cup sgr clear status; do
    theirs=$(once 1000 1000 "$folder/tparm" $text)
    ours=$(once 1000 1000 "$program" run $text)
    length=$(once 1000 1000 "$program" length $text)
    reading=$(once 1000 1000 "$program" read $text)
    echo "$text: run $ours, tparm $theirs, ratio $((1000 * ours / theirs)) per mille; length $length, $((1000 * length / ours)) per mille of a run; read $reading"
done
admission=$(once 10 10 "$program" admit 24 80)
echo "admission of the bundled entry: $admission (goal: at most 300000)"
line=$(once 100 100 "$program" feed 24 80)
address=$(once 100 100 "$program" go 24 80)
echo "a line of 79 graphic characters that is fed, behind a cursor address: $line, the address alone: $address, $((10 * (line - address) / 79)) tenths a character (goal: at most 400)"
place=$(once 1000 1000 "$program" paint 24 80)
echo "the bytes of the operations for one place, 25 bytes: $place, $((10 * place / 25)) tenths a byte"
screen=$(once 2 2 "$program" scratch 24 80)
bytes=$("$program" scratch 24 80 1)
echo "the bytes that paint a screen of 24 rows and 80 columns from scratch: $screen for $bytes bytes, $((10 * screen / bytes)) tenths a byte (goal: at most 266)"
price=$(once 1000 1000 "$program" price 24 80)
address=$(once 1000 1000 "$program" address 24 80)
echo "a cursor address: bytes $address, price $price, $((1000 * price / address)) per mille (goal: at most 667)"
rm -r "$folder"
