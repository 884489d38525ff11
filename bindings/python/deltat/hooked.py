"""Nodes whose class has functions of its own in the place of the library's, as `Recorded` has: a socket calls these."""

from __future__ import annotations

import ctypes
from typing import TYPE_CHECKING, TypeAlias

from . import _c, _c_udp
from ._c import Status

if TYPE_CHECKING:
    from .node import AnyNode

    _ToDatagram: TypeAlias = ctypes._Pointer[_c_udp.Datagram]
    _ToOut: TypeAlias = ctypes._Pointer[_c.Datagram]

_OWN = ("receive", "tick", "wake", "datagrams", "not_sent")


def is_hooked(node: AnyNode) -> bool:
    """Whether the class of a node has functions of its own."""
    return any(getattr(type(node), name) is not getattr(node._plain(), name) for name in _OWN)


class Hooked:
    """The functions of a node, for the driver. What one raises is kept in `failures`, and the driver stops."""

    def __init__(self, node: AnyNode, failures: list[BaseException]) -> None:
        self._node, self._failures = node, failures
        self.hooks = _c_udp.Hooks(
            _c_udp.HooksReceive(self._receive),
            _c_udp.HooksTick(self._tick),
            _c_udp.HooksWake(self._wake),
            _c_udp.HooksNextDatagram(self._next_datagram),
            _c_udp.HooksNotSent(self._not_sent),
        )

    def _failed(self, why: BaseException) -> int:
        self._failures.append(why)
        return Status.STOPPED

    def _receive(self, _: object, at: _ToDatagram) -> int:
        it = at.contents
        try:
            return self._node.receive(it.link, ctypes.string_at(it.octets, it.len), it.waited_ms, it.now)
        except BaseException as why:
            return self._failed(why)

    def _tick(self, _: object, now: int) -> int:
        try:
            self._node.tick(now)
        except BaseException as why:
            return self._failed(why)
        return Status.OK

    def _wake(self, _: object) -> int:
        it = self._node.wake
        return _c.NEVER if it is None else it

    def _next_datagram(self, _: object, room: int, out: _ToOut) -> int:
        it = next(self._node.datagrams(), None)
        if it is None:
            return Status.NONE
        ctypes.memmove(room, it.octets, len(it.octets))
        out.contents.to, out.contents.link, out.contents.len = it.to, it.link, len(it.octets)
        return Status.OK

    def _not_sent(self, _: object) -> None:
        self._node.not_sent()
