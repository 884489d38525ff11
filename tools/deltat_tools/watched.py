"""Counters files of running nodes as metrics, over restarts of the nodes and of their machine."""
import logging
import os
import time
from collections.abc import Iterator
from pathlib import Path

from deltat_tools import counted
from deltat_tools.metrics import Family, Labels

log = logging.getLogger("counters")
ENDING = ".counters"
_Key = tuple[str, Labels]
# (what is counted up, beside the file's counters)
_OPENINGS: _Key = ("openings", ())


def _totals(it: counted.Reading) -> dict[_Key, int]:
    """All that only grows: counters, and the numbers of histograms."""
    found: dict[_Key, int] = {_OPENINGS: it.openings}
    for name, value in it.counters():
        found[name.metric, name.labels] = value
    for which, name in enumerate(counted.HISTOGRAMS):
        counts, total = it.histogram(which)
        found.update({(name.metric, (("le", str(at)),)): value for at, value in enumerate([*counts, total])})
    return found


class Watched:
    """One file. Its counters continue where they were if the file is lost and made anew."""

    def __init__(self, path: Path) -> None:
        self.path = path
        self.name = path.name.removesuffix(ENDING)
        self.last: counted.Reading | None = None
        self.torn = 0
        self._base: dict[_Key, int] = {}
        self._seen: dict[_Key, int] = {}
        self._fault = ""

    def look(self) -> None:
        """Reads the file. If it can't be read, what was read last stays, and `fault` says why."""
        try:
            it = counted.read(self.path)
        except (OSError, counted.NoCounters) as why:
            if self._fault != str(why):
                log.warning("%s", why)
            self._fault = str(why)
            return
        self._fault = ""
        self.torn += not it.is_whole
        totals = _totals(it)
        is_new = self.last is not None and self.last.created != it.created
        if is_new or any(value < self._seen.get(key, 0) for key, value in totals.items()):
            log.warning("%s was made anew: its counters continue from %d openings", self.path, self._seen[_OPENINGS])
            for key, value in self._seen.items():
                self._base[key] = self._base.get(key, 0) + value
        self._seen, self.last = totals, it

    @property
    def fault(self) -> bool:
        """Whether the last look found no counters."""
        return bool(self._fault)

    def total(self, metric: str, labels: Labels = ()) -> int:
        key = metric, labels
        return self._base.get(key, 0) + self._seen.get(key, 0)

    def histogram(self, metric: str) -> tuple[list[int], float]:
        """How many were in each bucket, and the sum in seconds."""
        count = len(counted.BOUNDS_US) + 1
        *counts, total = (self.total(metric, (("le", str(at)),)) for at in range(count + 1))
        return counts, total / 1_000_000

    @property
    def is_open(self) -> bool:
        """Whether a driver has the file open, and its process is there."""
        return self.last is not None and self.last.process > 0 and os.path.exists(f"/proc/{self.last.process}")


class Files:
    """All files that are watched: those that were named, and those in folders that were named."""

    def __init__(self, paths: list[Path]) -> None:
        self._paths, self._watched = paths, dict[Path, Watched]()

    def look(self) -> list[Watched]:
        """Reads all of them."""
        for path in self._paths:
            for it in sorted(path.rglob(f"*{ENDING}")) if path.is_dir() else [path]:
                self._watched.setdefault(it, Watched(it))
        for each in self._watched.values():
            each.look()
        return list(self._watched.values())

    def families(self) -> Iterator[Family]:
        """The metrics of all files, as they are now."""
        files = self.look()
        known: _Known = [(it, (("node", str(it.last.node)), ("file", it.name))) for it in files if it.last]
        yield from _of_files(files, known)
        yield from _states(known)
        made: dict[str, Family] = {}
        for name in counted.COUNTERS:
            family = made.setdefault(name.metric, Family(f"deltat_udp_{name.metric}", "counter", name.about))
            for it, labels in known:
                family.add(it.total(name.metric, name.labels), (*labels, *name.labels))
        yield from made.values()
        for at, name in enumerate(counted.GAUGES):
            family = Family(f"deltat_udp_{name.metric}", "gauge", name.about)
            for it, labels in known:
                family.add(it.last.words[counted.FIRST_GAUGE + at] if it.last else 0, labels)
            yield family
        for name in counted.HISTOGRAMS:
            family = Family(f"deltat_udp_{name.metric}", "histogram", name.about)
            for it, labels in known:
                counts, total = it.histogram(name.metric)
                family.add_histogram([bound / 1_000_000 for bound in counted.BOUNDS_US], counts, total, labels)
            yield family


_Known = list[tuple[Watched, Labels]]


def _of_files(files: list[Watched], known: _Known) -> Iterator[Family]:
    unreadable = Family("deltat_udp_unreadable", "gauge", "1: the counters file can't be read now")
    for it in files:
        unreadable.add(int(it.fault), (("file", it.name),))
    torn = Family("deltat_udp_torn_reads", "counter", "Looks at a file that found it in the midst of a write each time")
    for it, labels in known:
        torn.add(it.torn, labels)
    yield unreadable
    yield torn


def _states(known: _Known) -> Iterator[Family]:
    """What isn't counted: lives, moments, and whether the driver is open."""
    now_ms = time.time_ns() // 1_000_000
    up = Family("deltat_udp_open", "gauge", "1: a driver has the file open, and its process is there")
    openings = Family("deltat_udp_openings", "counter", "How often the node was opened")
    life = Family("deltat_udp_life", "gauge", "The life of the last opening")
    opened = Family("deltat_udp_opened_seconds", "gauge", "When the node was opened last, in seconds since 1970")
    age = Family("deltat_udp_written_seconds_ago", "gauge", "How long ago the driver wrote the file last")
    quiet = Family("deltat_udp_quiet_seconds", "gauge", "For how long the node is still silent after its start")
    for it, labels in known:
        assert it.last is not None
        up.add(int(it.is_open), labels)
        openings.add(it.total(*_OPENINGS), labels)
        life.add(it.last.life, labels)
        opened.add(it.last.opened_ms / 1000, labels)
        age.add(max(now_ms - it.last.written_ms, 0) / 1000, labels)
        quiet.add(max(it.last.quiet_until_ms - now_ms, 0) / 1000, labels)
    yield from (up, openings, life, opened, age, quiet)
