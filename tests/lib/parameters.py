"""The parameters of a network, as the tools have them: `Params` of tools/deltat_tools."""
import sys

from .places import TOP

if str(TOP / "tools") not in sys.path:
    sys.path.insert(0, str(TOP / "tools"))

from deltat_tools.parameters import Params  # noqa: E402

__all__ = ["Params", "WORKED"]

# those of the worked schedules
WORKED = Params(1000, 3000, 200, 500, 800, 100, 4096, 4096, 4096, 2**31)
