#!/bin/sh
# Makes the tarball from which the library and the packages are built without the prover.
#
#     release/all.sh [--program PATH] [--archive PATH] [--gate LOG] [--out FOLDER]
#
# PATH are the program (crates/deltat/out/deltat) and the archive of the library (crates/dt_c/out/libdt_c.a), LOG what
# release/gate.sh wrote: the statement PROVED is made from it (release/proved.sh). The tarball has both, the headers, the
# C files of lib/, the bindings, the tools, the pages, the examples, debian/, a wheel for Python, PROVED, and SHA256SUMS,
# which has the sum of each other file. It needs a C compiler, make and python3. In FOLDER (out/) are then
#
#     deltat-VERSION-linux_ARCHITECTURE.tar.gz
#     deltat-VERSION-linux_ARCHITECTURE.tar.gz.sha256     its own sum, as sha256sum -c reads it
#
# Both are the same octets whenever they are made of the same files: their moments are SOURCE_DATE_EPOCH, or that of the
# commit, or 1970.
#
# Statuses: 0 the tarball's path is written; 1 something is missing or failed; 2 the words are wrong.
set -eu
top=$(cd "$(dirname "$0")/.." && pwd)
program=$top/crates/deltat/out/deltat archive=$top/crates/dt_c/out/libdt_c.a gate='' out=$top/out

fail() {
    printf 'all.sh: %s\n' "$2" >&2
    exit "$1"
}

while [ $# -gt 0 ]; do
    case $1 in
    -h | --help)
        sed -n '2,/^set -eu/{/^#/s/^# \{0,1\}//p;}' "$0"
        exit 0
        ;;
    --program | --archive | --gate | --out)
        [ $# -ge 2 ] || fail 2 "$1 wants a path behind it"
        case $1 in --program) program=$2 ;; --archive) archive=$2 ;; --gate) gate=$2 ;; *) out=$2 ;; esac
        shift 2
        ;;
    *) fail 2 'usage: release/all.sh [--program PATH] [--archive PATH] [--gate LOG] [--out FOLDER]' ;;
    esac
done
[ -f "$program" ] && [ -x "$program" ] || fail 1 "there is no program $program: ./build makes it"
[ -f "$archive" ] || fail 1 "there is no archive $archive: ./build --only dt_c makes it"
version=$(cat "$top/VERSION")
name=deltat-$version
tarball=deltat-$version-linux_$(dpkg --print-architecture 2>/dev/null || uname -m).tar.gz
epoch=${SOURCE_DATE_EPOCH:-$(git -C "$top" log -1 --format=%ct 2>/dev/null || echo 0)}

room=$(mktemp -d)
trap 'rm -rf "$room"' EXIT
tree=$room/$name
umask 022
mkdir -p "$tree/crates/deltat/out" "$tree/crates/dt_c/out" "$room/wheel"
for it in bindings debian docs examples include lib release tools CHANGES README.md VERSION; do
    cp -R "$top/$it" "$tree/$it"
done
# nothing that was made in the clone, so that its history has no part in the tarball
find "$tree" \( -name __pycache__ -o -name target -o -name out -path '*/bindings/*' -o -path '*/debian/made' -o -path '*/debian/tmp' \) -prune -exec rm -rf {} +
make -s -C "$tree/lib" clean
rm -rf "$tree"/debian/.debhelper "$tree"/debian/files "$tree"/debian/*.substvars "$tree"/debian/*.debhelper* "$tree"/examples/blocks/server "$tree"/examples/blocks/gateway
for it in $(sed -n 's/^Package: //p' "$top/debian/control"); do rm -rf "$tree/debian/$it"; done
install -m 755 "$program" "$tree/crates/deltat/out/deltat"
install -m 644 "$archive" "$tree/crates/dt_c/out/libdt_c.a"
[ ! -f "$top/crates.txt" ] || python3 -B "$top/docs/check.py" clauses >"$tree/docs/clauses.md"

# the wheel, of libraries that are linked as users link them
cp -R "$tree" "$room/linked"
make -s -C "$room/linked/lib" >/dev/null || fail 1 'the library could not be linked'
wheel=$(env -u DELTAT_LIBRARY -u DELTAT_UDP_LIBRARY "$room/linked/release/wheel.sh" "$room/wheel") || fail 1 'there is no wheel'
cp "$wheel" "$tree"

set -- --program "$program" --archive "$archive" --wheel "$wheel"
"$top/release/proved.sh" "$@" ${gate:+--gate "$gate"} >"$tree/PROVED" || exit 1
chmod -R u=rwX,go=rX "$tree"
(cd "$tree" && find . -type f ! -name SHA256SUMS -print0 | LC_ALL=C sort -z | xargs -0 sha256sum) >"$room/sums"
install -m 644 "$room/sums" "$tree/SHA256SUMS"
mkdir -p "$out"
tar -C "$room" --sort=name --format=gnu --owner=0 --group=0 --numeric-owner --mtime="@$epoch" -cf - "$name" | gzip -n9 >"$room/$tarball"
(cd "$room" && sha256sum "$tarball") >"$out/$tarball.sha256"
mv "$room/$tarball" "$out/$tarball"
printf '%s\n' "$out/$tarball"
