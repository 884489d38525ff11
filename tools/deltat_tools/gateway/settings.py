"""The settings of a gateway, from one file of TOML. Every error names the field and what it must be."""
import tomllib
from collections.abc import Mapping
from dataclasses import dataclass, field
from pathlib import Path
from typing import Any
from urllib.parse import urlsplit

# how long a datagram may wait at a gateway, if the settings don't say it: other processes have their turn meanwhile
WAIT_MS = 50
# the most octets of an order's path, type and number, which are part of its call
MOST_HEAD = 2_048


class SettingsError(ValueError):
    """The file can't be read, or a field is missing, unknown or out of range."""


@dataclass(frozen=True)
class Target:
    """A service that programs call by `POST /NAME`: its node and port, the caller's ports that the calls take turns on,
    how many seconds a call may take, and whether an order needs a key."""

    name: str
    node: int
    port: int
    from_ports: tuple[int, ...]
    timeout: float = 10.0
    keys: bool = True


@dataclass(frozen=True)
class Backend:
    """The HTTP server that gets the requests of a port, each at most once, and the seconds that it has for one."""

    port: int
    host: str
    tcp_port: int
    path: str
    timeout: float = 10.0


@dataclass(frozen=True)
class Settings:
    """All of a gateway: its node and folder, its addresses, what is known of the network, and its two sides."""

    node: int
    state: Path
    bind: tuple[str, int]
    network: Mapping[str, int]
    peers: Mapping[int, tuple[str, int]]
    listen: tuple[str, int] | Path | None = None
    targets: Mapping[str, Target] = field(default_factory=dict)
    backends: Mapping[int, Backend] = field(default_factory=dict)
    sync: bool = True
    keep_hours: float = 24.0
    counters: Path | None = None


class _Table:
    """A table of the file, of which each field is taken once; what is left over is an error."""

    def __init__(self, name: str, value: Any) -> None:
        if not isinstance(value, dict):
            raise SettingsError(f"{name} must be a table")
        self.name, self.left = name, dict(value)

    def _where(self, key: str) -> str:
        return f"{self.name}.{key}" if self.name else key

    def take(self, key: str, kind: type | tuple[type, ...], default: Any = None) -> Any:
        where = self._where(key)
        if key not in self.left:
            if default is None:
                raise SettingsError(f"{where} is missing")
            return default
        value = self.left.pop(key)
        if not isinstance(value, kind) or isinstance(value, bool) and kind is not bool:
            wanted = kind.__name__ if isinstance(kind, type) else "number"
            raise SettingsError(f"{where} is {value!r}, but must be a {wanted}")
        return value

    def number(self, key: str, least: int, most: int, default: int | None = None) -> int:
        value = int(self.take(key, int, default))
        if not least <= value <= most:
            raise SettingsError(f"{self._where(key)} is {value}, but must be {least} to {most}")
        return value

    def seconds(self, key: str, default: float) -> float:
        value = float(self.take(key, (int, float), default))
        if not 0 < value <= 86_400:
            raise SettingsError(f"{self.name}.{key} is {value}, but must be above 0 and at most 86400 seconds")
        return value

    def end(self) -> None:
        if self.left:
            raise SettingsError(f"{self._where(sorted(self.left)[0])} is no field that is known")


def _address(where: str, text: str) -> tuple[str, int]:
    host, colon, port = text.rpartition(":")
    if not colon or not host or not port.isdigit() or not 1 <= int(port) <= 65_535:
        raise SettingsError(f"{where} is {text!r}, but must be HOST:PORT")
    return host.strip("[]"), int(port)


def _target(name: str, value: Any) -> Target:
    it = _Table(f"call.{name}", value)
    first = it.number("from_port", 0, 65_535, 1_000)
    flows = it.number("flows", 1, 1_000, 16)
    if first + flows > 65_536:
        raise SettingsError(f"call.{name}: from_port + flows is above 65536")
    keys = str(it.take("keys", str, "required"))
    if keys not in ("required", "optional"):
        raise SettingsError(f"call.{name}.keys is {keys!r}, but must be 'required' or 'optional'")
    made = Target(
        name,
        it.number("node", 0, 2**32 - 1),
        it.number("port", 0, 65_535),
        tuple(range(first, first + flows)),
        it.seconds("timeout", 10.0),
        keys == "required",
    )
    it.end()
    return made


def _backend(port: str, value: Any) -> Backend:
    if not port.isdigit() or int(port) > 65_535:
        raise SettingsError(f"serve.{port}: the name of the table is a port, 0 to 65535")
    it = _Table(f"serve.{port}", value)
    url = str(it.take("url", str))
    parts = urlsplit(url)
    if parts.scheme != "http" or not parts.hostname:
        raise SettingsError(f"serve.{port}.url is {url!r}, but must be http://HOST:PORT/PATH")
    made = Backend(int(port), parts.hostname, parts.port or 80, parts.path.rstrip("/"), it.seconds("timeout", 10.0))
    it.end()
    return made


def _listen(text: str) -> tuple[str, int] | Path | None:
    if not text:
        return None
    return Path(text[5:]) if text.startswith("unix:") else _address("listen", text)


def _peers(value: Any) -> dict[int, tuple[str, int]]:
    found = {}
    for number, address in _Table("peers", value).left.items():
        if not number.isdigit() or not isinstance(address, str):
            raise SettingsError(f"peers.{number} must be NODE = 'HOST:PORT'")
        found[int(number)] = _address(f"peers.{number}", address)
    return found


def read(path: str) -> Settings:
    """Reads a file. Raises SettingsError with what is wrong in it."""
    try:
        with open(path, "rb") as file:
            it = _Table("", tomllib.load(file))
    except (OSError, tomllib.TOMLDecodeError) as why:
        raise SettingsError(f"{path}: {why}") from why
    network = {"wait_ms": WAIT_MS, **_Table("network", it.take("network", dict)).left}
    if not all(isinstance(value, int) for value in network.values()):
        raise SettingsError("network: every value is a whole number")
    calls, serves = it.take("call", dict, {}), it.take("serve", dict, {})
    made = Settings(
        it.number("node", 0, 2**32 - 1),
        Path(it.take("state", str)),
        _address("bind", it.take("bind", str)),
        network,
        _peers(it.take("peers", dict)),
        _listen(it.take("listen", str, "")),
        {name: _target(name, value) for name, value in calls.items()},
        {it.port: it for it in (_backend(port, value) for port, value in serves.items())},
        bool(it.take("sync", bool, True)),
        float(it.take("keep_hours", (int, float), 24.0)),
        Path(counters) if (counters := str(it.take("counters", str, ""))) else None,
    )
    it.end()
    _check(made)
    return made


def _check(made: Settings) -> None:
    """Raises SettingsError where fields contradict one another."""
    if made.targets and made.listen is None:
        raise SettingsError("listen is missing: where programs ask, as '127.0.0.1:8080' or 'unix:/run/gateway.sock'")
    if not made.targets and not made.backends:
        raise SettingsError("there is neither a table call.NAME nor a table serve.PORT: the gateway has nothing to do")
    owners: dict[int, str] = {port: f"serve.{port}" for port in made.backends}
    for target in made.targets.values():
        if target.node not in made.peers:
            raise SettingsError(f"call.{target.name}.node is {target.node}, which is none of the peers")
        for port in target.from_ports:
            if port in owners:
                used = f"port {port} is used by {owners[port]}"
                raise SettingsError(f"call.{target.name}: {used}; choose another from_port")
            owners[port] = f"call.{target.name}"
