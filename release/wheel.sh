#!/bin/sh
# Makes the wheel of the Python package `deltat`, with the shared libraries inside, from what `make -C lib` made.
#
#   release/wheel.sh [FOLDER]       writes FOLDER/deltat-VERSION-py3-none-linux_MACHINE.whl (FOLDER is ., if none is named)
#
# DELTAT_LIBRARY names another library than that of lib/; libdeltat-udp is beside it, or where DELTAT_UDP_LIBRARY says. `pip install --no-index FILE` installs the wheel; it needs
# Python 3.11, the C library and nothing else. Prints the wheel's path. Ends with 1 if there is no library, and with 2 if
# the words are wrong.
set -eu

top=$(cd "$(dirname "$0")/.." && pwd)
case ${1-} in
-h | --help)
    sed -n '2,/^set /{/^#/s/^# \{0,1\}//p;}' "$0"
    exit 0
    ;;
esac
if [ $# -gt 1 ] || { [ $# -eq 1 ] && [ ! -d "$1" ]; }; then
    echo "wheel.sh: one folder that exists is named, or none; see release/wheel.sh --help" >&2
    exit 2
fi
python3 -B - "$top/bindings/python" "${1:-.}" <<'END'
import sys
sys.path.insert(0, sys.argv[1])
import build_wheel
try:
    print(f"{sys.argv[2]}/{build_wheel.build_wheel(sys.argv[2])}")
except build_wheel.NoLibrary as why:
    print(f"wheel.sh: {why}", file=sys.stderr)
    sys.exit(1)
END
