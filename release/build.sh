#!/bin/sh
# Makes the Debian packages, by debhelper, from the tarball that release/all.sh makes or has made.
#
#     release/build.sh [--tarball FILE | --program PATH --archive PATH --gate LOG] [--source] [--out FOLDER]
#
# FILE is such a tarball; without one it is made first, with --program, --archive and --gate as release/all.sh has them.
# The tarball's sum is compared, if FILE.sha256 is there. It is unpacked into a room of its own, in which
# dpkg-buildpackage runs, as it does in an unpacked tarball or in a clone. The prover isn't needed. The packages, the
# .changes and the .buildinfo come into FOLDER (out/); with --source the source package too. Packages are the same octets
# whenever they are made of the same tarball.
#
# Statuses: 0 the paths of the packages are written; 1 something is missing or failed; 2 the words are wrong.
set -eu
top=$(cd "$(dirname "$0")/.." && pwd)
tarball='' out=$top/out kind=--build=binary
made=''

fail() {
    printf 'build.sh: %s\n' "$2" >&2
    exit "$1"
}

room=$(mktemp -d)
trap 'rm -rf "$room"' EXIT
: >"$room/words"
while [ $# -gt 0 ]; do
    case $1 in
    -h | --help)
        sed -n '2,/^set -eu/{/^#/s/^# \{0,1\}//p;}' "$0"
        exit 0
        ;;
    --source)
        kind=--build=full
        shift
        ;;
    --tarball | --out | --program | --archive | --gate)
        [ $# -ge 2 ] || fail 2 "$1 wants a path behind it"
        case $1 in
        --tarball) tarball=$2 ;;
        --out) out=$2 ;;
        *)
            made=yes
            printf '%s\n%s\n' "$1" "$2" >>"$room/words"
            ;;
        esac
        shift 2
        ;;
    *) fail 2 "unknown word: $1; see release/build.sh --help" ;;
    esac
done
[ -z "$tarball" ] || [ -z "$made" ] || fail 2 'a tarball has its program and its archive already'
command -v dpkg-buildpackage >/dev/null || fail 1 'there is no dpkg-buildpackage: install dpkg-dev'
if [ -z "$tarball" ]; then
    while IFS= read -r it; do set -- "$@" "$it"; done <"$room/words"
    tarball=$("$top/release/all.sh" "$@" --out "$room/tarball") || exit 1
fi
[ -r "$tarball" ] || fail 1 "there is no tarball $tarball"
tarball=$(cd "$(dirname "$tarball")" && pwd)/${tarball##*/}
if [ -f "$tarball.sha256" ]; then
    (cd "${tarball%/*}" && sha256sum --quiet -c "${tarball##*/}.sha256") >&2 || fail 1 "$tarball isn't what its sum is of"
fi

mkdir "$room/build" "$room/unpacked"
tar -C "$room/unpacked" -xzf "$tarball"
tree=$room/unpacked/$(ls "$room/unpacked")
(cd "$tree" && sha256sum --quiet -c SHA256SUMS) >&2 || fail 1 "the files of $tarball aren't those that its SHA256SUMS has"
mv "$tree" "$room/build/"
tree=$room/build/${tree##*/}
cp "$tarball" "$room/build/deltat_$(cat "$tree/VERSION").orig.tar.gz"
(cd "$tree" && dpkg-buildpackage "$kind" --no-sign) >"$room/log" 2>&1 || {
    tail -n 40 "$room/log" >&2
    fail 1 'dpkg-buildpackage failed'
}
mkdir -p "$out"
find "$room/build" -maxdepth 1 -type f ! -name '*.orig.tar.gz' -exec cp {} "$out" \;
[ "$kind" = --build=binary ] || cp "$room"/build/*.orig.tar.gz "$out"
find "$room/build" -maxdepth 1 -name '*.deb' -printf "$out/%f\n" | LC_ALL=C sort
