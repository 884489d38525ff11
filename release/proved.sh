#!/bin/sh
# Writes what a package or a tarball says of its proof, or ends with 1 where there must be none.
#
#     release/proved.sh --program PATH --archive PATH [--wheel PATH] [--gate LOG]
#     release/proved.sh --summary FILE
#
# LOG is what release/gate.sh wrote. Its last line, `N passed, M failed`, becomes the statement, with the commit, the
# toolchain and the SHA-256 sums of the program, the archive of the library and the wheel. Without a LOG the statement
# says that the gate was not run, and claims nothing. A gate that failed, one of another commit, and one whose crates
# were changed since are errors. With --summary: one sentence for the description of a package, from such a statement.
#
# Statuses: 0 it is written; 1 a file is missing, or the gate isn't one of these sources that passed; 2 the words are
# wrong.
set -eu
top=$(cd "$(dirname "$0")/.." && pwd)
program='' archive='' wheel='' gate=''

fail() {
    printf 'proved.sh: %s\n' "$2" >&2
    exit "$1"
}

summary() {
    if grep -q '^The gate was not run' "$1"; then
        # shellcheck disable=SC2016
        printf 'The gate was not run for this build, so nothing is claimed of its code:${Newline}it is for trying.\n'
    else
        # shellcheck disable=SC2016
        printf 'The gate of its commit was run and passed. The file PROVED has the commit, the${Newline}toolchain and the checksums.\n'
    fi
}

while [ $# -gt 0 ]; do
    case $1 in
    -h | --help)
        sed -n '2,/^set -eu/{/^#/s/^# \{0,1\}//p;}' "$0"
        exit 0
        ;;
    --program | --archive | --wheel | --gate | --summary)
        [ $# -ge 2 ] || fail 2 "$1 wants a path behind it"
        [ -r "$2" ] || fail 1 "$2 can't be read"
        case $1 in
        --program) program=$2 ;;
        --archive) archive=$2 ;;
        --wheel) wheel=$2 ;;
        --gate) gate=$2 ;;
        --summary)
            summary "$2"
            exit 0
            ;;
        esac
        shift 2
        ;;
    *) fail 2 "unknown word: $1; see release/proved.sh --help" ;;
    esac
done
[ -n "$program" ] && [ -n "$archive" ] || fail 2 'a program and an archive are needed; see release/proved.sh --help'
version=$(cat "$top/VERSION")
commit=$(git -C "$top" rev-parse HEAD 2>/dev/null || echo none)

# the words behind the one that begins a line of the log's head
told() {
    sed -n "1,/^\$/s/^$1 //p" "$gate"
}

# ends if there can be no statement with this gate's log
check_gate() {
    of=$(told commit)
    [ -n "$of" ] || fail 1 "$gate doesn't name its commit: use a log of release/gate.sh"
    [ "$of" = "$commit" ] || fail 1 "the gate was of the commit $of, and this is $commit"
    [ -z "$(git -C "$top" status --porcelain -- crates crates.txt HANDLES)" ] || fail 1 'crates were changed since the commit that the gate was of'
    tail -n 1 "$gate" | grep -Eqx '[1-9][0-9]* passed, 0 failed' || fail 1 "the gate didn't pass: $(tail -n 1 "$gate")"
}

# the sum of a file, and the name under which users have it
sum() {
    printf '    %s  %s\n' "$(sha256sum "$1" | cut -d ' ' -f 1)" "$2"
}

[ -z "$gate" ] || check_gate
changed=$(git -C "$top" status --porcelain 2>/dev/null | head -n 1)
printf 'deltat %s, of the commit\n%s%s\n\nSHA-256 sums of the program and of the archive that the libraries are linked from:\n\n' "$version" "$commit" "${changed:+, with changes}"
sum "$program" deltat
sum "$archive" libdt_c.a
[ -z "$wheel" ] || sum "$wheel" "${wheel##*/}"
printf '\n'
if [ -z "$gate" ]; then
    printf 'The gate was not run for this build: nothing is claimed of its code.\n'
    exit 0
fi
printf 'The gate of that commit was run from nothing, by\n%s\n\nIts last line was:\n\n    %s\n\n' "$(told toolchain)" "$(tail -n 1 "$gate")"
printf 'It counts the crates that were proved and tested, and the edits that the prover refused.\n'
printf 'docs/headline.md says what is proved, docs/guarantees.md what is not.\n\n'
printf 'The gate proves sources. That these two files were linked from them is a statement of\nwhoever made the package, and of nothing in it: ./build links them.\n'
