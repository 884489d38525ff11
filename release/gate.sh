#!/bin/sh
# Runs the gate of this commit, and writes what release/build.sh takes as its log.
#
#     release/gate.sh > LOG
#
# The first lines name the commit and the toolchain; then comes what `rt ci` writes, whose last line is
# `N passed, M failed`. It runs in a clone of its own, so nothing that lies here and isn't of the commit has a part in
# it, and takes as long as the gate. It ends with the gate's status, or with 2 where it can't begin.
set -eu
case ${1:-} in
    '') ;;
    -h | --help)
        sed -n '2,/^set -eu/{/^#/s/^# \{0,1\}//p;}' "$0"
        exit 0
        ;;
    *)
        echo 'usage: release/gate.sh > LOG' >&2
        exit 2
        ;;
esac
top=$(cd "$(dirname "$0")/.." && pwd)
fail() {
    printf 'gate.sh: %s\n' "$1" >&2
    exit 2
}
commit=$(git -C "$top" rev-parse HEAD 2>/dev/null) || fail 'this copy has no commits'
toolchain=$(rt version) || fail 'the toolchain (rt) is not there'
room=$(mktemp -d)
trap 'rm -rf "$room"' EXIT
git clone -q --no-checkout "$top" "$room/clone" && git -C "$room/clone" checkout -q "$commit" || fail 'the commit could not be cloned'
printf 'commit %s\ntoolchain %s\n\n' "$commit" "$(printf '%s' "$toolchain" | tr '\n' ' ')"
cd "$room/clone"
status=0
rt ci 2>&1 || status=$?
exit "$status"
