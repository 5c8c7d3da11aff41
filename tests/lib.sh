# What the shell tests share. A test begins with `. "$(dirname "$0")/lib.sh"`: it is at the top of the repository then,
# from wherever it was started, and has a folder `$work`, which is removed when it ends. A check that fails says the
# command that was run last, its status and what it printed.
#
# The programs that a test runs are those that `rt run` proves and builds, crates/NAME/out/NAME. BUILT=yes says that
# they are built already, and BUILT=FOLDER that they are in that folder, as tests/build puts them there.
set -eu
# The folder from which the test was started, and the test itself.
from=$PWD self=$(cd "$(dirname "$0")" && pwd)/$(basename "$0")
cd "$(dirname "$self")"
until [ -e crates.txt ]; do
    [ "$PWD" != / ] || { echo "$self: not in the repository" >&2; exit 2; }
    cd ..
done
work=$(mktemp -d)
failed=0 command='' status=0
# What a test does at its end, however it ends, before its folder is removed.
at_end() { :; }
trap 'at_end; rm -rf "$work"' EXIT
trap 'exit 130' INT
trap 'exit 143' HUP TERM

# usage: prints the line of the script's head that says how it is used, and ends it.
usage() {
    sed -n 's/^# Usage: /usage: /p' "$self" >&2
    exit 2
}

# absolute PATH: a path, which may be one from the top of the repository, from anywhere.
absolute() {
    case $1 in
    /*) echo "$1" ;;
    *) echo "$PWD/$1" ;;
    esac
}

# ---- Programs

# crates: the crates, by their names in crates.txt. A folder of another name may be left from another version.
crates() { sed -n 's/^\([a-z_0-9]*\)[ a-z]*:.*/\1/p' crates.txt; }

# program NAME: where a program is.
program() {
    case ${BUILT-} in
    */*) echo "$BUILT/$1" ;;
    *) echo "crates/$1/out/$1" ;;
    esac
}

# built NAME..: proves and builds programs, where they are not said to be built. Each runs once on its input, in a
# folder where it may write.
built() {
    local name words input
    for name; do
        if [ -n "${BUILT-}" ]; then
            [ -x "$(program "$name")" ] || { echo "$(program "$name"): not built" >&2; exit 2; }
            continue
        fi
        mkdir -p "$work/input"
        (
            words=$(sed 's|^new.txt$|'"$work/input/&|" "crates/$name/args" 2> /dev/null || true)
            input=$PWD/crates/$name/stdin
            [ -e "$input" ] || input=/dev/null
            cd "crates/$name" && rt run -- $words < "$input" > "$work/input/printed"
        )
    done
}

# refusing NAME..: compiles what forces writes or allocations of a program to fail (tests/NAME.c) to $work/NAME.so.
refusing() {
    local library
    for library; do
        "$(dirname "$(rt doc)")/toolchain/bin/clang" -shared -fPIC -O1 -nostdlib -o "$work/$library.so" \
            "tests/$library.c"
    done
}

# ---- Checks

# tried INPUT COMMAND..: runs a command on an input, as printf has it for `%b`; or with `-` on what the test reads. Its
# status is in `status`, and what it printed in $work/out and $work/err.
tried() {
    local input="$1"
    shift
    command=$* status=0
    if [ "$input" = - ]; then
        "$@" > "$work/out" 2> "$work/err" || status=$?
    else
        printf '%b' "$input" | "$@" > "$work/out" 2> "$work/err" || status=$?
    fi
}

# full COMMAND..: runs a command whose output cannot be written.
full() { "$@" > /dev/full; }

# full_errors COMMAND..: the same of its errors.
full_errors() { "$@" 2> /dev/full; }

# piped FILE COMMAND..: runs a command on what a pipe has of a file.
piped() {
    local file="$1"
    shift
    head -c 20000000 "$file" | "$@"
}

# reading FILE COMMAND..: runs a command on a file, or a folder.
reading() {
    local file="$1"
    shift
    "$@" < "$file"
}

# quoted FILE: the beginning of what a command printed, with bytes that are not printed as escapes.
quoted() {
    head -c 4000 "$1" | sed -n 'l 120' | sed 's/\$$//; s/^/    /'
}

# wrong WHAT..: a check has failed; the test goes on.
wrong() {
    failed=1
    [ -z "$command" ] || {
        echo "$command: status $status, and:"
        [ ! -e "$work/out" ] || quoted "$work/out"
        [ ! -e "$work/err" ] || quoted "$work/err"
    }
    echo "$*"
}

# fail WHAT..: a check has failed, and the test ends.
fail() {
    wrong "$@"
    exit 1
}

# expect STATUS OUTPUT LAST-LINE-OF-ERRORS INPUT COMMAND..: how a command ends on an input, and what it prints. `any`
# stands for errors that are there, and are not compared.
expect() {
    local wanted="$1" output="$2" errors="$3" ended=yes
    shift 3
    tried "$@"
    printf '%b' "$output" > "$work/wanted"
    [ "$status" = "$wanted" ] || ended=no
    cmp -s "$work/out" "$work/wanted" || ended=no
    case $errors in
    any) [ -s "$work/err" ] || ended=no ;;
    *) [ "$(tail -n 1 "$work/err")" = "$errors" ] || ended=no ;;
    esac
    [ "$ended" = yes ] || {
        wrong "wanted: status $wanted, errors that end in '$errors', and this output:"
        quoted "$work/wanted"
    }
}

# said STATUS ERRORS INPUT COMMAND..: how a command ends, and all that it prints on the standard error.
said() {
    local wanted="$1" errors="$2"
    shift 2
    tried "$@"
    printf '%b' "$errors" > "$work/wanted"
    [ "$status" = "$wanted" ] && cmp -s "$work/err" "$work/wanted" || {
        wrong "wanted: status $wanted, and these errors:"
        quoted "$work/wanted"
    }
}

# same WHAT WANTED FOUND: says what agrees, or what is found in the place of what is wanted.
same() {
    if [ "$2" = "$3" ]; then
        echo "$1"
    else
        wrong "$1: $3 in place of $2"
    fi
}

# ---- The list of tests

# tests_of KIND: the tests of the table in tests/README.md that are run so (gate, quick, by hand, c, or any), in its
# order.
tests_of() {
    awk -F ' *[|] *' -v kind="$1" '
        /^\| Test / { listed = 1; next }
        !/^\|/ { listed = 0 }
        listed && $2 !~ /^-/ {
            n = split($5, kinds, / *, */)
            for (i = 1; i <= n; i++) if (kind == "any" || kinds[i] == kind) { gsub(/`/, "", $2); print $2; break }
        }' tests/README.md
}

# run_tests KIND: runs these tests, and says the name of each and how many seconds of a processor it took. `at_failure`
# is what is done where one fails: it ends the run with its status.
run_tests() {
    for test in $(tests_of "$1"); do
        echo "--- $test"
        times > "$work/before"
        sh "tests/$test" || at_failure $?
        times > "$work/after"
        echo "$test: $(spent "$work/before" "$work/after") seconds"
    done
}
at_failure() { exit "$1"; }

# spent BEFORE AFTER: the seconds of a processor of what a shell started between two outputs of its `times`.
spent() {
    awk 'FNR == 2 { split($0, part, /[ms ]+/); used = 60 * part[1] + part[2] + 60 * part[3] + part[4] - used }
        END { printf "%.1f", used }' "$1" "$2"
}

# ---- Processor instructions, for benchmarks

# instructions COMMAND..: how many instructions a command takes, as valgrind's callgrind counts them.
instructions() {
    valgrind --tool=callgrind --callgrind-out-file=/dev/null "$@" 2>&1 > /dev/null |
        sed -n 's/.*Collected : //p'
}

# tenths N, hundredths N: a tenth and a hundredth of a whole number, with its digits behind the point.
tenths() { echo "$(($1 / 10)).$(($1 % 10))"; }
hundredths() { echo "$(($1 / 100)).$(($1 / 10 % 10))$(($1 % 10))"; }
