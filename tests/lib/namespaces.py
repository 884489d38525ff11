"""Network namespaces of a test's own, so that nothing leaves this machine."""
import os
import shutil

from .places import skip

# the loopback of a new namespace is down
UP = 'ip link set lo up && exec "$0" "$@"'


def in_own_network(words: list[str]) -> list[str]:
    """The words of a command in a network namespace of its own, which has a loopback. Ends the test where that can't
    be had."""
    if os.geteuid() or not shutil.which("unshare") or not shutil.which("ip"):
        skip("only root can make a network namespace for it, with unshare and ip")
    return ["unshare", "--net", "sh", "-c", UP, *words]
