#!/bin/sh
# Puts what `make -C lib install` doesn't install into a folder, for the Debian packages: debian/rules calls it.
#
#     release/stage.sh FOLDER LIBDIR PROGRAM PROVED
#
# LIBDIR is the folder of libraries below FOLDER (usr/lib/x86_64-linux-gnu), PROVED the statement of release/proved.sh.
# It needs the pages, the tools and the bindings of this tree, and python3. docs/clauses.md is made if the crates are
# there; a tarball of release/all.sh has it. Ends with 1 if something fails, and with 2 if the words are wrong.
set -eu
case ${1-} in
-h | --help)
    sed -n '2,/^set -eu/{/^#/s/^# \{0,1\}//p;}' "$0"
    exit 0
    ;;
esac
[ $# -eq 4 ] || {
    echo 'usage: release/stage.sh FOLDER LIBDIR PROGRAM PROVED' >&2
    exit 2
}
top=$(cd "$(dirname "$0")/.." && pwd)
root=$1 libdir=$2 program=$3 proved=$4
doc=$root/usr/share/doc/deltat
umask 022

install -D -m 755 "$program" "$root/usr/bin/deltat"
install -d "$root/etc/deltat" "$root/usr/lib" "$doc/include"

# tools, and the dissector where Wireshark looks
cp -R "$top/tools" "$root/usr/lib/deltat"
rm -rf "$root/usr/lib/deltat/wireshark"
install -D -m 644 "$top/tools/wireshark/deltat.lua" "$root/$libdir/wireshark/plugins/deltat.lua"
for unit in deltat-node@ deltat-gateway@ deltat-counters; do
    install -D -m 644 "$top/release/$unit.service" "$root/lib/systemd/system/$unit.service"
done
install -D -m 644 "$top/release/deltat.bash" "$root/usr/share/bash-completion/completions/deltat"
install -D -m 644 "$top/release/_deltat" "$root/usr/share/zsh/vendor-completions/_deltat"
install -D -m 644 "$top/release/deltat.rules.yml" "$root/usr/share/deltat/prometheus/deltat.rules.yml"
install -D -m 644 "$top/release/deltat-dashboard.json" "$root/usr/share/deltat/grafana/deltat-dashboard.json"

# bindings: the Python package, and crates by path, whose build finds the library by its deltat.pc
install -d "$root/usr/lib/python3/dist-packages/deltat"
install -m 644 "$top"/bindings/python/deltat/*.py "$top/bindings/python/deltat/py.typed" "$root/usr/lib/python3/dist-packages/deltat"
cp -R "$top/bindings/rust" "$root/usr/share/deltat/rust"
rm -rf "$root/usr/share/deltat/rust/target"

# README, pages and examples, and links by which their commands can be tried in a copy of the folder
cp -R "$top/README.md" "$top/VERSION" "$top/CHANGES" "$top/docs" "$top/examples" "$doc"
find "$doc/docs" -name '*.py' -delete
[ ! -f "$top/crates.txt" ] || python3 -B "$top/docs/check.py" clauses >"$doc/docs/clauses.md"
ln -s ../../../bin/deltat "$doc/deltat"
ln -s ../../../lib/deltat "$doc/tools"
# (libdeltat-dev has these links; here they are for the pages that name the headers)
for header in deltat.h deltat.hpp deltat_udp.h; do
    ln -s "../../../../include/$header" "$doc/include/$header"
done
python3 -B "$top/release/pages.py" "$doc"
rm -r "$doc/include"
find "$root" -name __pycache__ -prune -exec rm -rf {} +
for package in deltat libdeltat2 libdeltat-dev; do
    install -D -m 644 "$proved" "$root/usr/share/doc/$package/PROVED"
done
