#!/bin/sh
# Counts the processor instructions of a byte from the keyboard: given to a screen (huttavel_key_bytes), and each key
# taken when it comes (huttavel_next_key), beside ncurses' wgetch with keypad() for the same bytes, on entries of 5 keys
# and of 120.
# The bytes are letters, texts of keys, and texts whose last byte is another, so that each byte is a key by itself.
# ncurses reads the bytes from a pipe, without delay; what reading them by read(2) costs is counted by itself and taken
# away. What the kernel does is not counted on either side.
# It needs valgrind, a C compiler, libncurses-dev, ncurses' tic, and libhuttavel.a in c/, which make builds there.
# Usage: benchmarks/keys/run.sh, from the top of the repository.
set -e
here=$(dirname "$0")
top=$here/../..
[ -e "$top/c/libhuttavel.a" ] || { sed -n 's/^# Usage: /usage: /p' "$0" >&2; exit 2; }
folder=$(mktemp -d)
trap 'rm -rf "$folder"' EXIT
cc -O2 -I "$top/include" -o "$folder/ours" "$here/library.c" "$top/c/libhuttavel.a"
cc -O2 -o "$folder/keys" "$here/keys.c" -lncurses -ltinfo
export TERMINFO="$folder/terminfo"

# entry KEYS: compiles an entry of so many keys, the texts of which are numbered.
entry() {
    {
        printf 'keys%s|an entry of so many keys,\n\tam, xenl, cols#80, lines#24,\n' "$1"
        printf '\tclear=\\E[H\\E[2J, cup=\\E[%%i%%p1%%d;%%p2%%dH,\n'
        number=0
        for name in $(seq -f kf%g 0 63) kbeg kbs kcan kcbt kclo kclr kcmd kcpy kcrt kctab kcub1 kcud1 kcuf1 kcuu1 kdch1 \
            kdl1 ked kel kend kent kext kfnd khlp khome khts kich1 kil1 kind kll kmov kmrk kmsg knp knxt kopn kopt kpp \
            kprt kprv krdo kref kres krfr kri krmir krpl krst ksav kslt kspd ktbc kund ka1 ka3 kb2 kc1; do
            [ "$number" -lt "$1" ] || break
            printf '\t%s=\\E[%03d~,\n' "$name" "$number"
            number=$((number + 1))
        done
    } | tic -o "$TERMINFO" -
}

# The instructions of a command.
count() {
    valgrind --tool=callgrind --callgrind-out-file=/dev/null "$@" 2>&1 >/dev/null | sed -n 's/.*Collected : //p'
}

# The instructions of 7,200 bytes, from the difference of 12 times 720 bytes and 2 times.
ten() {
    few=$(count "$@" 2)
    many=$(count "$@" 12)
    echo $((many - few))
}

# A tenth or a hundredth of a whole number, with its digits behind the point.
tenths() { echo "$(($1 / 10)).$(($1 % 10))"; }
hundredths() { echo "$(($1 / 100)).$(($1 / 10 % 10))$(($1 % 10))"; }

echo "bytes | keys | ours, a byte | ncurses, a byte | ratio"
for keys in 5 120; do
    entry $keys
    export TERM=keys$keys
    for action in text keys broken; do
        ours=$(ten "$folder/ours" "$TERMINFO/k/$TERM" $action $keys)
        theirs=$(($(ten "$folder/keys" $action wgetch $keys) - $(ten "$folder/keys" $action read $keys)))
        echo "$action | $keys | $(tenths $((ours / 720))) | $(tenths $((theirs / 720))) | $(hundredths $((100 * ours / theirs)))"
    done
done
