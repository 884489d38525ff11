"""The library's functions of orders against the model: in each step of its random runs the octets that stand for the
state before it are handed to the library, which must answer as the model did, and leave the octets of the state after.

The octets are written here from docs/formats.md."""
import ctypes
import struct
from typing import Any

import model
from deltat._c import Order, OrdersLane, OrdersLook, OrdersServer, Status
from deltat._library import library

WORDS = {
    "done": Order.DONE,
    "never": Order.NEVER,
    "at work": Order.AT_WORK,
    "not now": Order.NOT_NOW,
    "old": Order.OLD,
    "stale": Order.STALE,
    "forked": Order.FORKED,
    "hello": Order.HELLO,
}
KINDS = {model.ORDER: 1, model.CANCEL: 2, model.ASK: 3}
FATES = {Order.DONE, Order.NEVER, Order.UNKNOWN}
# numbers of records: those of a lane before a step and after it
OLD, NEW = 5, 9
SEEDS = 400

Known = tuple[int, int, int] | None
compared = 0


def words(*numbers: int) -> bytes:
    return struct.pack(f">{len(numbers)}Q", *numbers)


def same(what: str, found: object, wanted: object) -> None:
    global compared
    compared += 1
    shown = [it.hex() if isinstance(it, bytes) else repr(it) for it in (found, wanted)]
    model.holds(found == wanted, f"{what}: the library has {shown[0]}, the model {shown[1]}")


def known(it: Known) -> tuple[int, int, int]:
    return it or (0, 0, 0)


def maybe(it: Known) -> tuple[int, int, int, int]:
    return (it is not None, *known(it))


def uid_of(uid: Any) -> int:
    return 1_000_000 + int(uid[1]) if isinstance(uid, tuple) else int(uid)


# --- what the octets are of the model's states


def numbers_of(state: Any) -> bytes:
    return words(state.k, state.h, len(state.chain) - 1, state.chain[-1][0]) if state.chain else bytes(32)


def row_of(reg: Any) -> bytes:
    if reg is None:
        return bytes(40)
    number, tag, value, stamp, born = reg
    return words(1 if value is model.AT_WORK else 2 if value is model.CANCELLED else 3, number, tag, stamp, born)


def opening_of(state: Any, number: int) -> bytes:
    if number >= len(state.chain):
        return bytes(16)
    nonce, first = state.chain[number]
    return words(first, nonce)


def request_of(msg: Any, is_only: bool) -> bytes:
    kind, lane, number, tag, since, _, attempt, knows = msg
    return words(KINDS[kind], lane, number, tag, *known(since), *attempt, *maybe(knows), is_only)


def answer_of(reply: Any, said: int, attempt: tuple[int, int]) -> bytes:
    word, value, heard, _ = reply
    return words(said - 64, value if word == "stale" else 0, *heard, *attempt)


def server_of(state: Any, key: Any, msg: Any) -> OrdersServer:
    since = known(msg[4])[0]
    knows = known(msg[7] or msg[4])[0]
    openings = b"".join(opening_of(state, it) for it in (since, since + 1, knows, knows + 1))
    return filled(OrdersServer(), numbers=numbers_of(state), row=row_of(state.regs.get(key)), openings=openings)


def filled(it: Any, **octets: bytes) -> Any:
    for name, value in octets.items():
        setattr(it, name, (ctypes.c_uint8 * len(value)).from_buffer_copy(value))
    return it


def bare(lane: Any) -> bytes:
    """The octets of a lane without its last number, if it has an order: only the order's number counts then (the model
    raises the last number when an order gets another one, and the library when that order has its fate)."""
    octets = bytes(lane)
    return octets[:8] + octets[16:] if octets[23] else octets


class Twin(model.Node):
    """A node of the model that has the library do the same."""

    # the server's half

    def opening(self) -> Any:
        turn = filled(OrdersServer(), numbers=numbers_of(self.state))
        new = super().opening()
        same("open", library.dt_orders_open(turn, new.nonce), Status.OK)
        same("numbers of an opening", bytes(turn.numbers), numbers_of(new))
        same("an opening", bytes(turn.openings)[:16], opening_of(new, len(new.chain) - 1))
        return new

    def handle(self, wire: Any, flow: int, number: Any, msg: Any, zombie: bool = False, fails: bool = False) -> None:
        if zombie:
            return super().handle(wire, flow, number, msg, zombie, fails)
        if not self.is_mine():
            self.reopen()
        before, key, had = self.state, (wire.client.key, msg[1]), len(wire.replies)
        super().handle(wire, flow, number, msg, zombie, fails)
        reply = (wire.replies[-1] if len(wire.replies) > had else self.pending[-1][1])[2]
        self.judged(before, key, msg, reply)

    def judged(self, before: Any, key: Any, msg: Any, reply: Any) -> None:
        turn, octets, word = server_of(before, key, msg), request_of(msg, False), reply[0]
        look, strict = OrdersLook(), self.run.is_strict
        same("look up", library.dt_orders_look_up(octets, len(octets), look), Status.OK)
        wanted = (KINDS[msg[0]], msg[1], known(msg[4])[0], known(msg[7] or msg[4])[0])
        same("what is looked up", (look.kind, look.lane, look.since, look.knows), wanted)
        said = library.dt_orders_judge(turn, octets, len(octets), strict)
        if said == Order.EXECUTE:
            same("an order is executed", word in ("done", "at work", "not now"), True)
            if word != "not now":
                done = word == "done"
                same("executed", library.dt_orders_executed(turn, octets, len(octets), strict, done), Status.OK)
            said = WORDS[word]
        elif said == Order.READ:
            said = Order.HELLO
        same("what is said", said, WORDS[word])
        after = self.state
        same(f"numbers after {word}", bytes(turn.numbers), numbers_of(after))
        same(f"row after {word}", bytes(turn.row), row_of(after.regs.get(key)))
        same("answer", library.dt_orders_answer(turn, octets, len(octets), said), Status.OK)
        same("octets of the answer", bytes(turn.answer), answer_of(reply, said, msg[6]))

    def forget(self, key: Any) -> None:
        before = self.state
        super().forget(key)
        if key in before.regs and self.is_mine():
            turn = filled(OrdersServer(), numbers=numbers_of(before), row=row_of(before.regs[key]))
            said = library.dt_orders_forget(turn)
            same("forget", said, Status.OK if self.state is not before else Status.NONE)
            same("numbers after a row is forgotten", bytes(turn.numbers), numbers_of(self.state))
            same("the row that is forgotten", bytes(turn.row), row_of(self.state.regs.get(key)))

    # the client's half

    def client_octets(self) -> bytes:
        return words(self.nonce, self.run.once, *maybe(self.known), *maybe(self.stopped))

    def lane_octets(self, lane: int, record: int, **flags: bool) -> bytes:
        last, order = self.state.lanes.get(lane, model.NOTHING)
        spelled = (1, uid_of(order[0]), *order[1:3], *known(order[3])) if order else (0,) * 7
        is_now = {
            "fresh": lane in self.fresh,
            "cancelled": lane in self.cancels,
            "calling": lane in self.calling,
            **flags,
        }
        return words(lane, last, *spelled, is_now["fresh"], is_now["cancelled"], is_now["calling"], record)

    def lane_of(self, lane: int, **flags: bool) -> OrdersLane:
        it: OrdersLane = filled(OrdersLane(), client=self.client_octets(), lane=self.lane_octets(lane, OLD, **flags))
        return it

    def note(self, uid: Any, lane: int) -> bool:
        it = self.lane_of(lane)
        is_noted: bool = super().note(uid, lane)
        said = library.dt_orders_give(it, uid_of(uid), NEW)
        same("give", said, Status.OK if is_noted else Status.NONE)
        if is_noted:
            wanted = self.lane_octets(lane, NEW, cancelled=False, calling=False)
            same("the lane of a new order", bytes(it.lane), wanted)
        return is_noted

    def attempt(self, lane: int, how: str = "made") -> Any:
        it, is_fresh = self.lane_of(lane), lane in self.fresh
        last, order = self.state.lanes.get(lane, model.NOTHING)
        kept = self.disk.durable.state.lanes.get(lane, model.NOTHING)[1]
        number = super().attempt(lane, how)
        if self.known is None or how not in ("made", "declined"):
            return number
        said = library.dt_orders_call(it, OLD if kept == order else OLD - 1, max(self.attempts, 1))
        if how == "made":
            same("call", said, Status.OK if number else Status.NONE)
        if number:
            same("the request", bytes(it.request), request_of(self.waiting[number][2], is_fresh))
            same("made", library.dt_orders_made(it, True), Status.OK)
            same("the lane that is called", bytes(it.lane), self.lane_octets(lane, OLD))
        return number

    def cancel(self, lane: int) -> None:
        it, had = self.lane_of(lane), self.state.lanes.get(lane, model.NOTHING)[1]
        super().cancel(lane)
        now = self.state.lanes.get(lane, model.NOTHING)[1]
        said = library.dt_orders_cancel(it)
        same("cancel", said, Status.NONE if had is None else Status.OK if now else Order.NEVER)
        if had:
            same("the lane that is cancelled", bytes(it.lane), self.lane_octets(lane, OLD, **({} if now else NO_ORDER)))

    def answered(self, number: Any, reply: Any) -> None:
        _, lane, msg, is_first = self.waiting[number]
        it, is_ask, had = self.lane_of(lane), msg[0] == model.ASK, self.state.fates
        filled(it, request=request_of(msg, is_first))
        octets = answer_of(reply, WORDS[reply[0]], reply[3])
        order, known_before = self.state.lanes.get(lane, model.NOTHING)[1], self.stopped
        super().answered(number, reply)
        said = library.dt_orders_hear(it, octets, len(octets), NEW)
        if known_before is None or self.stopped == known_before:
            same("what the client knows", bytes(it.client), self.client_octets())
        ended = next((uid for uid in self.state.fates if uid not in had), None)
        same("whether it has a fate", said in FATES, ended is not None)
        if ended is not None:
            fate = self.state.fates[ended][0]
            wanted = Order.NEVER if fate == model.NEVER else Order.UNKNOWN if fate == model.UNKNOWN else Order.DONE
            same("the fate", said, wanted)
        if is_ask:
            return
        is_other = self.state.lanes.get(lane, model.NOTHING)[1] != order
        flags = NO_ORDER if ended is not None else {"calling": False}
        # (an order that is renewed may be as it was: then either number is right)
        record = NEW if is_other and ended is None else struct.unpack_from(">Q", it.lane, 96)[0]
        same("the lane after an answer", bare(it.lane), bare(self.lane_octets(lane, record, **flags)))

    def adopt(self) -> None:
        it = self.lane_of(0)
        super().adopt()
        same("adopt", library.dt_orders_adopt(it), Status.OK)
        same("the client after an alarm", bytes(it.client), self.client_octets())


NO_ORDER = {"fresh": False, "cancelled": False, "calling": False}


def run(seeds: range) -> str:
    """Why a run of these fails: nothing if all hold."""
    plain, model.Node = model.Node, Twin
    try:
        for seed in seeds:
            try:
                model.Run(seed, model.Rules()).go()
            except model.Broken as why:
                return f"run {seed}: {why}"
    finally:
        model.Node = plain
    return ""


def refused() -> str:
    """Which octets that spell nothing aren't refused."""
    good = words(1, 0, 1, 2, 0, 3, 4, 5, 6, 1, 0, 3, 4, 1)
    bad = [
        b"",
        good[:-1],
        good + b"\0",
        *(
            good[:at] + octets + good[at + 8 :]
            for at, octets in (
                (0, words(0)),
                (0, words(4)),
                (8, words(1 << 32)),
                (16, words(1 << 63)),
                (32, words(1 << 32)),
                (64, words(1 << 32)),
                (72, words(2)),
                (80, words(1 << 32)),
                (104, words(2)),
            )
        ),
    ]
    if library.dt_orders_look_up(good, len(good), OrdersLook()) != Status.OK:
        return "a good request is refused"
    return ", ".join(it.hex() for it in bad if library.dt_orders_look_up(it, len(it), OrdersLook()) != Status.INVALID)


def cases() -> list[tuple[str, bool, str]]:
    why, bad = run(range(SEEDS)), refused()
    return [
        (f"the library is as the model in {SEEDS} runs ({compared} comparisons)", not why, why),
        ("requests that spell nothing are refused", not bad, bad),
    ]
