#!/bin/sh
# The shell over a versioned tree: it answers lines of the standard input. `./shell.sh --help` says how.
set -eu

# The repository, also where this script is reached through symbolic links.
script=$0
while [ -h "$script" ]; do
    target=$(readlink "$script")
    case $target in
    /*) script=$target ;;
    *) script=$(dirname "$script")/$target ;;
    esac
done
root=$(cd "$(dirname "$script")" && pwd)
crate=$root/crates/lsm_shell
program=$crate/out/lsm_shell

# The line with which the program refuses its arguments.
usage='usage: lsm_shell [FOLDER | logged [FOLDER] | threads N]'

# How many crates of tests are built at a time. Each takes more than one processor, and up to 2 GB.
jobs=3

say() {
    echo "shell.sh: $*" >&2
}

require_rt() {
    if ! command -v rt > /dev/null; then
        say 'rt, the command of the toolchain, is not on the path; the program is built with it'
        exit 127
    fi
}

print_help() {
    cat << 'HELP'
usage: ./shell.sh [FOLDER | logged [FOLDER] | threads N]
       ./shell.sh --build | --test | --version | --help

  FOLDER     answers lines over the tree of a folder, which is made where it is absent;
             without it over a tree in memory. A folder whose name begins with -- is given as ./--name
  logged     the same with a write log: no write that was answered is lost. A folder of that name is ./logged
  threads N  starts N callers, 1 to 64, on one tree, and says whether each read what it wrote
  --build    proves each crate and makes the program: 20 minutes to an hour from nothing, on four cores.
             Without it a quick build of about a minute, of which nothing is proved, answers at the end of the input
  --test     runs all tests, of which nothing is proved: under ten minutes on four cores
  --version  the version and the commit

Lines of the input, words between single spaces; S is a snapshot, W a watermark, - an open end:
  put K V   del K   weak K                    write a key, remove it, remove one that was set at most once
  get K [S]   range LO HI [S]   prefix P [S]  read a key, the keys from LO on and below HI, those that begin with P
  rotate   flush W                            seal the memtable; write all memtables to tables
  compact leveled W   compact major W   compact fifo LIMIT TTL W   drop LO HI   clear   now N
  stats   crash   reopen                      docs/SHELL.md says what each line does and prints

Status:
  0    the input has ended, also where lines were refused; every caller read what it wrote
  1    a fault of the input or the output; the tree couldn't be opened; a caller read something else; a test failed
  2    other arguments than these
  6    the quick build gave no answer: it wasn't built, or took more than a minute or 1 MiB of output
  127  rt isn't on the path
HELP
}

# The version that CHANGELOG.md begins with, and the commit.
print_version() {
    version=$(sed -n 's/^## \([0-9][0-9.]*\).*/\1/p' "$root/CHANGELOG.md" | head -n 1)
    commit=$(git -C "$root" rev-parse --short HEAD 2> /dev/null) || commit=unknown
    changed=$(git -C "$root" status --porcelain 2> /dev/null) || changed=
    echo "jadvork $version, commit $commit${changed:+ with changes}"
}

refuse() {
    echo "$usage" >&2
    exit 2
}

# Whether a word is UTF-8, as the program asks. Where iconv is absent, the program is left to say so.
is_text() {
    command -v iconv > /dev/null || return 0
    printf '%s' "$1" | iconv -f UTF-8 -t UTF-8 > /dev/null 2>&1
}

# Ends with the program's usage line where the program would, and at an option that is none of this script's.
check_arguments() {
    case ${1-} in
    --*) refuse ;;
    esac
    case $# in
    0) ;;
    1)
        [ -n "$1" ] || refuse
        is_text "$1" || refuse
        ;;
    2)
        case $1 in
        logged)
            [ -n "$2" ] || refuse
            is_text "$2" || refuse
            ;;
        threads)
            case $2 in
            [123456789] | [12345][0123456789] | 6[01234]) ;;
            *) refuse ;;
            esac
            ;;
        *) refuse ;;
        esac
        ;;
    *) refuse ;;
    esac
}

# Whether the proved program is there, and no source is newer.
is_current() {
    [ -x "$program" ] || return 1
    newer=$(find "$root/crates.txt" "$root"/crates/*/src "$root"/crates/*/specs "$root"/crates/*/proofs \
        -newer "$program")
    [ -z "$newer" ]
}

build() {
    require_rt
    say 'proving each crate and building the program; from nothing that may take an hour on four cores'
    kept=$(mktemp)
    trap 'rm -f "$kept"' EXIT
    (cd "$crate" && rt run < /dev/null)
    # The program is as old as the sources that it was made of: an edit in the meantime is newer.
    touch -r "$kept" "$program"
    say "the proved program is $program"
}

# `rt try` takes the whole input first and prints what came of it at the end. Where the program doesn't end,
# it prints nothing, and says why in a line that begins with `checked:`. It runs the program in a folder of its own,
# which it removes, so a folder is named from the root on.
try() {
    require_rt
    case $#:${1-}:${2-} in
    1:logged: | 1:/*) ;;
    1:*) set -- "$PWD/$1" ;;
    2:logged:/*) ;;
    2:logged:*) set -- logged "$PWD/$2" ;;
    esac
    say 'a quick build, of which nothing is proved; it answers at the end of the input, after about a minute,'
    say 'and takes no more than a minute and 1 MiB of output; ./shell.sh --build makes the proved program'
    kept=$(mktemp)
    trap 'rm -f "$kept"' EXIT
    status=0
    (cd "$crate" && rt try -- "$@") 2> "$kept" || status=$?
    case $(tail -n 1 "$kept") in
    run=ended*)
        grep -v -e '^checked: ' -e '^races: ' -e '^run=' "$kept" >&2 || :
        exit "$status"
        ;;
    run=*)
        say "stopped, and no answer is printed: $(sed -n 's/^checked: //p' "$kept" | sed 's/^no-answer: //' | tail -n 1)"
        ;;
    *)
        cat "$kept" >&2
        ;;
    esac
    exit 6
}

# The crates that have tests.
list_tested() {
    (cd "$root/crates" && grep -lr '#\[test\]' ./*/src) | cut -d / -f 2 | sort -u
}

# Builds the tests of a crate and runs them, and prints a line; $1 has the crates, $2 keeps what was told, $3 is the name.
# Tests that weren't run count as one that failed.
# shellcheck disable=SC2016
test_crate='
told=$2/$3
(cd "$1/$3" && rt try --test) > "$told" 2>&1 || :
found=$(sed -n "s/^test result: .* \([0-9][0-9]*\) passed; \([0-9][0-9]*\) failed.*/\1 passed, \2 failed/p" "$told")
case $found in
*", 0 failed") ;;
*) grep -v " \.\.\. ok$" "$told" ;;
esac
echo "$3: ${found:-0 passed, 1 failed}" | tee "$told.count"
'

run_tests() {
    require_rt
    tested=$(list_tested)
    echo "the tests of $(echo "$tested" | wc -l) crates, of which nothing is proved: under ten minutes on four cores"
    kept=$(mktemp -d)
    trap 'rm -rf "$kept"' EXIT
    echo "$tested" | xargs -n 1 -P "$jobs" sh -c "$test_crate" sh "$root/crates" "$kept"
    cat "$kept"/*.count | awk '{ passed += $2; failed += $4 } END { print passed " passed, " failed " failed"; exit failed > 0 }'
}

case $#:${1-} in
1:--help | 1:-h) print_help ;;
1:--version) print_version ;;
1:--build) build ;;
1:--test) run_tests ;;
*)
    check_arguments "$@"
    if is_current; then
        exec "$program" "$@"
    fi
    try "$@"
    ;;
esac
