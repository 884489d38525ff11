"""What the watch of a driver found out about a peer (docs/watch.md)."""

from __future__ import annotations

import enum
import logging

_log = logging.getLogger("deltat")


class Alarm(enum.IntEnum):
    """Why nothing of a peer passes: `enum dt_udp_alarm`."""

    CLOCK = 1
    """Its clock or this machine's stood, was set, or is wrong by more than 100 parts in a million."""
    PARAMETERS = 2
    """It has other parameters."""
    WATCH = 3
    """It has a watch and this end has none, or the other way round."""


_WHAT_TO_DO = {
    Alarm.CLOCK: "its clock or this machine's stood or was set; open the end again whose clock it was, or both",
    Alarm.PARAMETERS: "it has other parameters; open all nodes with the same ones",
    Alarm.WATCH: "it has a watch and this end has none, or the other way round; open both with one, or both without",
}


class Alarms(dict[int, Alarm]):
    """The last alarm of each peer, by its node's number. Each is a warning of the logger, too."""

    def ring(self, node: int, peer: int, alarm: Alarm) -> None:
        self[peer] = alarm
        _log.warning("node %d: nothing of node %d passes: %s", node, peer, _WHAT_TO_DO[alarm])
