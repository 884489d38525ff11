"""Metrics as text: OpenMetrics 1.0, and Prometheus' older format for those that don't ask for it."""
from collections.abc import Iterable, Iterator
from dataclasses import dataclass, field

OPENMETRICS = "application/openmetrics-text"
TYPES = {True: f"{OPENMETRICS}; version=1.0.0; charset=utf-8", False: "text/plain; version=0.0.4; charset=utf-8"}
Labels = tuple[tuple[str, str], ...]


@dataclass
class Family:
    """A metric: its name without `_total`, what it is, and its samples: a suffix, labels and a value each."""

    name: str
    kind: str
    about: str
    samples: list[tuple[str, Labels, int | float]] = field(default_factory=list)

    def add(self, value: int | float, labels: Labels = ()) -> None:
        """Adds the sample of a counter or a gauge."""
        self.samples.append(("_total" if self.kind == "counter" else "", labels, value))

    def add_histogram(self, bounds: Iterable[float], counts: Iterable[int], total: float, labels: Labels = ()) -> None:
        """Adds the samples of a histogram. `counts`: of each bucket alone; one more than there are bounds."""
        below = 0
        for bound, count in zip([*map(number, bounds), "+Inf"], counts):
            below += count
            self.samples.append(("_bucket", (*labels, ("le", bound)), below))
        self.samples.append(("_count", labels, below))
        self.samples.append(("_sum", labels, total))


def number(value: int | float) -> str:
    """A number as both formats have it."""
    return str(value) if isinstance(value, int) else f"{value:.6f}".rstrip("0").rstrip(".")


def _quoted(value: str) -> str:
    escaped = value.replace("\\", r"\\").replace('"', r"\"").replace("\n", r"\n")
    return f'"{escaped}"'


def _lines(family: Family, is_open: bool) -> Iterator[str]:
    name = family.name if is_open or family.kind != "counter" else f"{family.name}_total"
    # (OpenMetrics wants the type first)
    yield f"# TYPE {name} {family.kind}\n# HELP {name} {family.about}\n"
    for suffix, labels, value in family.samples:
        inner = ",".join(f"{key}={_quoted(it)}" for key, it in labels)
        yield f"{family.name}{suffix}{f'{{{inner}}}' if inner else ''} {number(value)}\n"


def text_of(families: Iterable[Family], is_open: bool) -> str:
    """The text of all families; `is_open`: in OpenMetrics, else in Prometheus' format."""
    text = "".join(line for family in families for line in _lines(family, is_open))
    return text + "# EOF\n" if is_open else text
