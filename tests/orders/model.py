#!/usr/bin/env python3
"""Orders: a plain model of the layer over calls (docs/orders.md), an adversary that does whatever it may, and the
theorems.

    model.py [--runs N] [--first SEED] [--tries N] [--seconds S]     runs; then each defence, and each premise, taken
    away
    model.py worked [NAME]                                           the worked runs, told line by line

A run is of one of three kinds.

L: the wire keeps L1 to L3 (class Wire): of the calls of a flow some are handed out, each once at most and in the
order of
their making, over all lives of both ends, also long after their client was told that they are unsure, or died (L1); an
answer is what the service gave to the call of that number, where lives differ (L2); a call has one end: answered,
unsure at
any moment, or declined, and then nothing was sent (L3). Nothing else is asked of it. Stores of servers and of
clients may be
set back, registers forgotten; a server's old process may go on.

W: any wire. Calls that were made are handed out in any order, as often as the adversary likes, and so are replies. A
client
doesn't count on the only call of an order (`once`). Two clients may have one name. No server's store is set back.

S: as W, and servers' stores may be set back; a server takes only what was called by who knows its present opening
(`strict`).

What is durable (class Disk): a store is a chain of commits. A process that dies leaves them all, though not all are
durable; a machine that dies leaves those that were synced, and any first part of the others. A store that is set
back (a
backup, a standby that takes over) is an old durable commit again, with its process or beneath it.

Ends with 1 where a theorem fails in a run, or where no run fails without some defence or premise."""
import argparse
import random
import sys
import time
from collections import Counter


class Broken(Exception):
    """A theorem doesn't hold."""


def holds(is_so, what):
    if not is_so:
        raise Broken(what)


# --- the defences: each is there unless a mutant takes it away

DEFENCES = {
    "note_first": "a call of an order is made when its note is durable, not before",
    "since_durable": "so is a call with a newer `since`",
    "tell_durable": "a fate is told when it is durable, not before",
    "known_with_fate": "what a client knows of its server is written with a fate, not later",
    "one_transaction": "effect and register are one transaction, not the effect first",
    "register_not_first": "nor the register first",
    "reply_durable": "a reply leaves when what it tells is durable",
    "reads_wait": "so does one that wrote nothing, but read what isn't durable yet",
    "server_opening_syncs": "a server that opens writes and syncs before it answers",
    "client_opening_syncs": "a client that opens writes and syncs before it calls or tells",
    "register_read": "an order whose number isn't above the register's isn't executed",
    "born": "nor where its register is younger: made when the horizon was above the order's `since`",
    "proves": "without a register an order is executed only where the horizon proves that it wasn't done",
    "horizon_raised": "forgetting a register raises the horizon to its stamp",
    "since_of_note": "`since` is what was known when the order was noted, not what is known now",
    "only_call": "refused for want of a register: not done, if it was the only call; not after an unsure end",
    "only_call_of_this_life": "nor where a former life noted the order",
    "memory_is_made": "a call that found no memory counts as made",
    "one_under_way": "a lane has one order without a fate at most",
    "bound_flow": "all calls of a lane go on one flow for good",
    "in_order": "a server handles the requests of a flow in their order",
    "fence": "a transaction of a process that isn't the one that opened the store last does nothing (zombies)",
    "fence_clock": "a process that finds the clock elsewhere than it left it opens the store anew (set back "
    "beneath it)",
    "tags": "a register's tag is compared, not its number alone",
    "attempts": "an answer names its attempt, and is compared",
    "cancel_asks": "an order that may have been sent is NEVER only by an answer",
    "tombstone": "a cancel is written into the register",
    "touch": "a number that is refused as stale leaves a register with a stamp above its `since`",
    "stale_is_unknown": "an order of a former life whose number is stale is UNKNOWN, and gets no new number",
    "path": "a server refuses who knows what isn't in its store's history",
    "path_nonces": "it compares the openings' nonces, not the clock alone",
    "path_leaving": "and where each opening was left",
    "since_path": "an order's `since` counts as far as it is of this store's history",
    "same_opening": "an answer of another opening than the known one is used only if its call carried what is "
    "known now",
    "forked_now": "a refusal for a set back counts only if its call carried what is known now",
    "alarm_last": "what was written as a fate before a set back was noticed is told before the alarm",
    "strict": "(S) a server takes only what was called by who knows its present opening",
    "chain_one_transaction": "what a handler orders elsewhere is noted in the transaction of its effect",
}
PREMISES = {
    "L1 holds where clients count on it": "L",
    "a server's store is set back only under L1, or with `strict`": "W",
    "nonces of openings differ": "L",
    "what was synced stays": "L",
    "what stays of a store is a first part of its commits": "L",
}


class Rules:
    def __init__(self, without=None):
        for name in DEFENCES:
            setattr(self, name, name != without)
        self.broken = without if without in PREMISES else None


# --- durable state


class State:
    """Of a node's store. Both halves: openings, the nonce of the last one. Server: clock `k`, horizon `h`, chain of
    openings
    (nonce, clock at its beginning), registers {(client, lane): (number, tag, result, stamp, born)}, the effects
    {order: result}.
    Client: what it knows of its server, lanes {lane: (last number, order or None)}, fates. `waits`: for what
    registers the
    orders are that handlers gave."""

    __slots__ = ("k", "h", "chain", "regs", "done", "opens", "nonce", "known", "lanes", "fates", "waits")

    def __init__(self):
        self.k = self.h = self.opens = self.nonce = 0
        self.chain, self.known = (), None
        self.regs, self.done, self.lanes, self.fates, self.waits = {}, {}, {}, {}, {}

    def copy(self):
        new = State.__new__(State)
        new.k, new.h, new.chain, new.regs, new.done = self.k, self.h, self.chain, self.regs, self.done
        new.opens, new.nonce, new.known, new.lanes, new.fates, new.waits = (
            self.opens,
            self.nonce,
            self.known,
            self.lanes,
            self.fates,
            self.waits,
        )
        return new


class Commit:
    __slots__ = ("parent", "state", "depth")

    def __init__(self, parent, state):
        self.parent, self.state, self.depth = parent, state, parent.depth + 1 if parent else 0


def is_on(old, new):
    """Whether a commit is on the path to another."""
    while new.depth > old.depth:
        new = new.parent
    return new is old


class Disk:
    def __init__(self):
        self.tip = self.durable = Commit(None, State())

    def lose_power(self, run):
        """A first part of what wasn't synced is left."""
        left, last = [self.tip], self.durable
        if run.rules.broken == "what was synced stays" and last.parent and last.parent.state.opens and run.pick() < 0.5:
            last = last.parent
        while left[-1] is not last:
            left.append(left[-1].parent)
        kept = left[int(run.pick() * len(left))]
        if run.rules.broken == "what stays of a store is a first part of its commits" and kept is not last:
            new = kept.state.copy()
            new.fates = last.state.fates
            kept = Commit(last, new)
        self.tip = self.durable = kept


# --- the wire


class Wire:
    """From a client to a server: the calls of each flow, in the order of their making, and the replies that were
    given."""

    def __init__(self, client, server, flows):
        self.client, self.server = client, server
        self.calls = [[] for _ in range(flows)]
        self.next = [0] * flows
        self.replies = []


# --- a node: both halves over one store

ORDER, CANCEL, ASK = "ORDER", "CANCEL", "ASK"
AT_WORK, CANCELLED = None, ("cancelled",)
NEVER, UNKNOWN = ("never",), ("unknown",)
NOTHING = (0, None)


class Node:
    def __init__(self, run, name, lanes=0, flow_of=(), key=None):
        self.run, self.name, self.rules, self.disk = run, name, run.rules, Disk()
        self.lanes, self.flow_of, self.key = lanes, flow_of, key or name
        self.out, self.ins, self.zombies = None, [], []
        self.up = False

    @property
    def state(self):
        return self.disk.tip.state

    def open(self):
        """A new life: an opening with a nonce of its own, which is durable before anything else is done."""
        self.up = True
        self.calling, self.waiting, self.count, self.attempts = {}, {}, 0, 0
        # lanes whose order this life noted and never called; those whose only call waits; those that the program
        # cancels
        self.fresh, self.only, self.cancels = set(), {}, set()
        self.stopped, self.untold, self.inbox, self.pending = None, [], [], []
        new = self.opening()
        self.known = new.known
        self.run.opened(self)
        if self.rules.client_opening_syncs if self.out else self.rules.server_opening_syncs:
            self.disk.durable = self.disk.tip
        self.is_dirty = False
        self.run.say(self, f"opens {at((len(new.chain) - 1, new.nonce, new.k))}, synced")
        if self.out:
            for uid, fate in new.fates.items():
                self.run.told(self, uid, *fate)

    def opening(self):
        new = self.state.copy()
        new.opens, new.nonce, new.k = new.opens + 1, self.run.nonce(new), new.k + 1
        new.chain += ((new.nonce, new.k),)
        self.commit(new)
        return new

    def commit(self, new):
        self.disk.tip = Commit(self.disk.tip, new)
        self.nonce, self.k, self.is_dirty = new.nonce, new.k, True
        self.run.commits.setdefault((new.nonce, new.k), self.disk.tip)

    def reopen(self):
        """The store isn't as this process left it: it opens it anew, and replies by nothing that it did before."""
        self.pending = []
        new = self.opening()
        self.disk.durable = self.disk.tip
        self.is_dirty = False
        self.run.counts["opened anew"] += 1
        self.run.say(
            self,
            f"finds its store set back, and opens it anew: {at((len(new.chain) - 1, new.nonce, new.k))}, synced",
        )

    def is_mine(self):
        """Whether the store is as this process left it."""
        state = self.state
        return not self.rules.fence_clock or state.nonce == self.nonce and state.k == self.k

    def sync(self):
        if self.ins and not self.is_mine():
            return self.reopen()
        self.disk.durable = self.disk.tip
        self.is_dirty = False
        self.run.say(self, "syncs")
        for wire, it in self.pending:
            self.leaves(wire, it)
        self.pending = []
        for it in self.untold:
            self.run.told(self, *it)
        self.untold = []

    # the client's half

    def note(self, uid, lane):
        """An order is written down. A client that never heard of its server gives none."""
        last, order = self.state.lanes.get(lane, NOTHING)
        if order and self.rules.one_under_way or self.known is None or self.stopped:
            return False
        if order:
            last = order[1]
            self.run.given_over.append(order[0])
        new = self.state.copy()
        new.lanes = {**new.lanes, lane: (last, (uid, last + 1, new.nonce, self.known))}
        new.known = self.known
        self.commit(new)
        self.fresh.add(lane)
        self.run.say(self, f"notes order {uid}: lane {lane} number {last + 1} tag {new.nonce} since {at(self.known)}")
        return True

    def attempt(self, lane, how="made"):
        """A call of the lane's order. `how`: made, declined, memory (it was made), memory (it wasn't)."""
        if lane in self.calling or self.stopped:
            return None
        order = self.state.lanes.get(lane, NOTHING)[1]
        if self.known is None:
            return self.call((ASK, lane, 0, 0, None, None), how)
        if order is None:
            return None
        uid, number, tag, since = order
        kept = self.disk.durable.state.lanes.get(lane, NOTHING)[1]
        if (
            self.rules.note_first
            and (kept is None or kept[:3] != order[:3])
            or self.rules.since_durable
            and kept
            and kept[:3] == order[:3]
            and kept[3] != since
        ):
            return None
        kind = CANCEL if lane in self.cancels else ORDER
        return self.call((kind, lane, number, tag, since if self.rules.since_of_note else self.known, uid), how)

    def call(self, body, how="made"):
        if how == "declined":
            return None
        run, rules, lane = self.run, self.rules, body[1]
        self.attempts += 1
        msg = body + ((self.nonce, self.attempts), self.known)
        flow = self.flow_of[lane] if rules.bound_flow else int(run.pick() * len(self.out.calls))
        number = (self.state.opens, self.count)
        self.count += 1
        if how != "no memory, not made":
            self.out.calls[flow].append((number, msg))
        is_first = lane in self.fresh or body[0] != ASK and not rules.only_call_of_this_life
        if body[0] != ASK and (how == "made" and rules.only_call or how != "made" and rules.memory_is_made):
            self.fresh.discard(lane)
        run.say(self, f"calls {show(msg)}" + ("" if how == "made" else f": {how}"))
        if how != "made":
            return number
        self.waiting[number] = flow, lane, msg, is_first
        self.calling[lane] = number
        return number

    def ends(self, number):
        """Unsure, or answered: it waits no longer."""
        it = self.waiting.pop(number)
        if self.calling.get(it[1]) == number:
            del self.calling[it[1]]
        return it

    def cancel(self, lane):
        """The program doesn't want the lane's order any more."""
        if self.state.lanes.get(lane, NOTHING)[1] is None:
            return
        if lane in self.fresh or not self.rules.cancel_asks:
            self.finish(lane, NEVER, None)
        else:
            self.cancels.add(lane)

    def finish(self, lane, fate, heard, last=0):
        """The lane's order has its fate: one commit with what waited for it."""
        uid, number = self.state.lanes[lane][1][:2]
        new = self.state.copy()
        new.lanes = {**new.lanes, lane: (max(number, last), None)}
        new.fates = {**new.fates, uid: (fate, heard)}
        if self.rules.known_with_fate:
            new.known = self.known
        if uid in new.waits:
            key, n, tag = new.waits[uid]
            reg = new.regs.get(key)
            if reg and reg[:3] == (n, tag, AT_WORK):
                new.k += 1
                new.regs = {**new.regs, key: (n, tag, ("chain", uid, fate), new.k, reg[4])}
        self.commit(new)
        self.fresh.discard(lane)
        self.cancels.discard(lane)
        self.run.say(self, f"writes: order {uid} is {text(fate)[1:]}")
        if self.rules.tell_durable:
            self.untold.append((uid, fate, heard))
        else:
            self.run.told(self, uid, fate, heard)

    def changed(self, lane, last, order):
        new = self.state.copy()
        new.lanes = {**new.lanes, lane: (last, order)}
        new.known = self.known
        self.commit(new)

    def answered(self, number, reply):
        flow, lane, msg, is_first = self.ends(number)
        word, value, heard, attempt = reply
        run, rules, counts = self.run, self.rules, self.run.counts
        if attempt != msg[6] and rules.attempts:
            counts["strange answers"] += 1
            return
        run.say(self, f"hears {word}{text(value)} at {at(heard)}")
        known = self.known
        if word == "forked":
            if msg[7] == known or not rules.forked_now:
                counts["told forked"] += 1
                run.alarmed(self)
                self.stopped = heard
            return
        if known and heard[:2] != known[:2] and msg[7] != known and rules.same_opening:
            counts["answers of another opening"] += 1
            return
        run.accepted(self, heard)
        if known is None or heard[:2] != known[:2] or heard[2] > known[2]:
            self.known = heard
        last, order = self.state.lanes.get(lane, NOTHING)
        if msg[0] == ASK or order is None or rules.attempts and order[1:3] != msg[2:4]:
            return
        counts["answer " + word] += 1
        is_first = is_first and run.once
        if word == "done":
            self.finish(lane, ("done", value), heard)
        elif word == "never":
            self.finish(lane, NEVER, heard)
        elif word == "not now" or word == "old" and is_first:
            # it wasn't done as of `heard`
            self.changed(lane, last, order[:3] + (heard,))
        elif word == "old":
            self.finish(lane, UNKNOWN, heard)
        elif word == "stale" and (is_first or not rules.stale_is_unknown):
            # its only call was refused: the order gets the next number
            self.changed(lane, value, (order[0], value + 1, self.nonce, heard))
            self.fresh.add(lane)
        elif word == "stale":
            self.finish(lane, UNKNOWN, heard, value)

    def adopt(self):
        """The program is told that the server's store was set back, behind all fates, and goes on with what it is
        now."""
        if self.untold and self.rules.alarm_last:
            self.sync()
        self.known, self.stopped = self.stopped, None
        new = self.state.copy()
        new.known = self.known
        self.commit(new)
        self.run.adopted(self)

    # the server's half

    def is_path(self, knows, state):
        """Whether what somebody knows is part of this store's history."""
        if knows is None or not self.rules.path:
            return True
        opening, nonce, k = knows
        chain = state.chain
        if not self.rules.path_nonces:
            return k <= state.k
        if opening >= len(chain) or chain[opening][0] != nonce:
            return False
        if not self.rules.path_leaving:
            return k <= state.k
        return k < chain[opening + 1][1] if opening + 1 < len(chain) else k <= state.k

    def shared(self, since, state):
        """The last clock up to which the history that `since` is of is this store's too, at least."""
        opening, nonce, k = since
        chain = state.chain
        if not self.rules.since_path:
            return k
        if opening >= len(chain) or chain[opening][0] != nonce:
            return 0
        return min(k, chain[opening + 1][1] - 1) if opening + 1 < len(chain) else k

    def handle(self, wire, flow, number, msg, zombie=False, fails=False):
        """One request: a transaction, and a reply that waits until it is durable."""
        rules, run = self.rules, self.run
        if zombie and rules.fence:
            run.counts["fenced"] += 1
            run.say(self, f"an old process handles {show(msg)}: the store was opened anew, and it does nothing")
            return
        if not zombie and not self.is_mine():
            self.reopen()
        before, mine = self.disk.tip, self.k
        state = before.state
        kind, lane, n, tag, since, uid, attempt, knows = msg
        key = wire.client.key, lane
        reg = state.regs.get(key)
        floor = 0 if not rules.proves else state.h if not reg else reg[4] if rules.born else 0
        is_path = self.is_path(knows, state)
        run.judged(self, knows, is_path)
        value = None
        if not is_path:
            word = "forked"
        elif kind == ASK or run.is_strict and rules.strict and (knows is None or knows[1] != state.nonce):
            word = "hello"
        elif reg and reg[0] == n and (reg[1] == tag or not rules.tags):
            value = reg[2]
            word = "at work" if value is AT_WORK else "never" if value is CANCELLED else "done"
            value = None if word == "never" else value
        elif reg and reg[0] >= n and rules.register_read:
            word, value = "stale", reg[0]
            if rules.touch and reg[3] <= self.shared(since, state):
                self.register(key, *reg[:3])
        elif floor > self.shared(since, state):
            word = "old"
        elif kind == CANCEL:
            word = "never"
            if rules.tombstone:
                self.register(key, n, tag, CANCELLED)
        else:
            word, value = self.execute(wire, key, n, tag, uid, fails)
        if zombie:
            self.k = mine
            return
        now = self.state
        reply = word, value, (len(now.chain) - 1, now.nonce, now.k), attempt
        run.say(
            self,
            f"handles {show(msg)}: {word}{text(value)}"
            + (f", commits :{now.k}" if self.disk.tip is not before else ""),
        )
        if not rules.reply_durable or not self.is_dirty or self.disk.tip is before and not rules.reads_wait:
            self.leaves(wire, (flow, number, reply))
        else:
            self.pending.append((wire, (flow, number, reply)))

    def leaves(self, wire, it):
        wire.replies.append(it)
        self.run.say(self, f"replies {it[2][0]}{text(it[2][1])} at {at(it[2][2])}")

    def register(self, key, n, tag, value):
        new = self.state.copy()
        new.k += 1
        new.regs = {**new.regs, key: (n, tag, value, new.k, self.born(key, new))}
        self.commit(new)

    def born(self, key, state):
        """The horizon when the lane's register was made."""
        return state.regs[key][4] if key in state.regs else state.h

    def execute(self, wire, key, n, tag, uid, fails):
        run, rules, state = self.run, self.rules, self.state
        to = None
        if uid in run.chained and self.out:
            to = next((it for it in range(self.lanes) if state.lanes.get(it, NOTHING)[1] is None), None)
            fails = fails or to is None or self.known is None or self.stopped
        if fails:
            return "not now", None
        run.executes(wire, uid, state)
        result = run.result()
        new = state.copy()
        new.k += 1
        new.done = {**new.done, uid: result}
        value = AT_WORK if to is not None else result
        regs = {**new.regs, key: (n, tag, value, new.k, self.born(key, new))}
        if not rules.one_transaction:
            self.commit(new)
            new = new.copy()
        if not rules.register_not_first:
            first = state.copy()
            first.k, first.regs = new.k, regs
            self.commit(first)
        new.regs = regs
        if to is not None:
            run.sub_orders += 1
            sub = ("sub", run.sub_orders)
            run.ordered_by[sub] = uid
            if not rules.chain_one_transaction:
                self.commit(new)
                new = new.copy()
            last = new.lanes.get(to, NOTHING)[0]
            new.lanes = {**new.lanes, to: (last, (sub, last + 1, new.nonce, self.known))}
            new.waits = {**new.waits, sub: (key, n, tag)}
            new.known = self.known
            self.fresh.add(to)
        self.commit(new)
        return ("at work" if value is AT_WORK else "done"), value

    def forget(self, key):
        state = self.state
        reg = state.regs.get(key)
        if reg is None or reg[2] is AT_WORK or not self.is_mine():
            return
        new = state.copy()
        new.k += 1
        new.regs = {it: had for it, had in state.regs.items() if it != key}
        if self.rules.horizon_raised:
            new.h = max(new.h, reg[3])
        self.commit(new)
        self.run.forgot += 1
        self.run.say(self, f"forgets the register of lane {key[1]}, horizon {new.h}")


def at(heard):
    """opening.nonce:clock"""
    return f"{heard[0]}.{heard[1]}:{heard[2]}" if heard else "nothing"


def show(msg):
    kind, lane, n, tag, since, uid, attempt, knows = msg
    if kind == ASK:
        return f"ASK knows {at(knows)}"
    return f"{kind} lane {lane} number {n} tag {tag} since {at(since)} knows {at(knows)}"


def text(value):
    return "" if value is None else " " + " ".join(map(str, value)) if isinstance(value, tuple) else f" {value}"


# --- a run: the adversary, and what is checked


class Run:
    def __init__(self, seed, rules, flags=None):
        chance = random.Random(seed)
        self.pick = pick = chance.random
        self.rules, self.seed, self.log = rules, seed, None
        self.counts = Counter()
        self.nonces = self.results = self.sub_orders = self.forgot = self.orders = 0
        self.commits, self.tells, self.heard, self.executed, self.ordered_by = {}, {}, {}, {}, {}
        self.chained, self.set_back_nodes, self.given_over = set(), set(), []
        x = pick()
        self.kind = "L" if x < 0.6 else "W" if x < 0.8 else "S"
        if flags:
            self.kind = flags["kind"]
        if rules.broken:
            self.kind = PREMISES[rules.broken]
        self.is_wild = self.kind != "L" or rules.broken == "L1 holds where clients count on it"
        self.once = self.kind == "L"
        self.is_strict = self.kind == "S"
        self.has_chain = pick() < 0.25
        self.failing = 0.4 if pick() < 0.2 else 0.1
        self.may_set_back_client = pick() < 0.35
        self.may_set_back_server = pick() < 0.4 and (self.kind != "W" or rules.broken)
        self.has_twin = self.is_wild and not self.has_chain and not self.once and pick() < 0.3
        lanes = 1 + (pick() < 0.6)
        flows = 1 if lanes == 1 or pick() < 0.5 else 2
        if not rules.bound_flow:
            flows = 2
        if flags:
            self.has_chain, self.has_twin, lanes, flows, self.log = flags.get("chain", False), False, 2, 1, []
        flow_of = tuple(int(pick() * flows) for _ in range(lanes))
        self.a = Node(self, "a", lanes, flow_of)
        self.b = Node(self, "b", 1 if self.has_chain else 0, (0,))
        self.nodes, self.givers = [self.a, self.b], [self.a]
        self.wires = [self.join(self.a, self.b, flows)]
        if self.has_chain:
            self.c = Node(self, "c")
            self.nodes.append(self.c)
            self.wires.append(self.join(self.b, self.c, 1))
        if self.has_twin:
            twin = Node(self, "a2", lanes, flow_of, "a")
            self.nodes.append(twin)
            self.givers.append(twin)
            self.wires.append(self.join(twin, self.b, flows))
        for node in self.nodes:
            node.open()

    def join(self, client, server, flows):
        client.out = Wire(client, server, flows)
        server.ins.append(client.out)
        return client.out

    def result(self):
        self.results += 1
        return self.results

    def nonce(self, state):
        if self.rules.broken == "nonces of openings differ":
            return state.opens
        self.nonces += 1
        return self.nonces

    def say(self, node, what):
        if self.log is not None:
            self.log.append(f"{node.name}: {what}")

    # the referee

    def executes(self, wire, uid, state):
        holds(uid not in state.done, f"order {uid} is executed a second time")
        told = self.tells.get(uid)
        holds(told != NEVER, f"order {uid} is executed after NEVER was told")
        holds(told != UNKNOWN, f"order {uid} is executed after UNKNOWN was told")
        self.executed[uid] = wire.client
        self.counts["executed"] += 1

    def judged(self, server, knows, is_path):
        """A server refuses exactly who knows what isn't in its store's history."""
        if server.name in self.set_back_nodes:
            is_so = knows is None or is_on(self.commits[knows[1:]], server.disk.tip)
            holds(
                is_so == is_path,
                f"{'refused, though' if is_so else 'served, though not'} all that it knows is in the store",
            )
        else:
            holds(is_path, "refused, though the store was never set back")

    def accepted(self, client, heard):
        """What a client was told DONE is in the history of what it hears, until it is told otherwise."""
        if client.out.server.name in self.set_back_nodes:
            new = self.commits[heard[1:]]
            for old in self.heard.get(client.name, ()):
                holds(is_on(old, new) or is_on(new, old), "a client isn't told that what it was told DONE is gone")

    def alarmed(self, client):
        server = client.out.server
        holds(
            not is_on(self.commits[client.known[1:]], server.disk.tip),
            "a client is told of a set back that took nothing from it",
        )

    def adopted(self, client):
        self.counts["adopted"] += 1
        self.heard[client.name] = []
        self.say(client, f"alarm: the server's store was set back; goes on, knowing {at(client.known)}")

    def told(self, client, uid, fate, heard):
        had = self.tells.get(uid)
        holds(had is None or had == fate, f"order {uid} is told {had} and then {fate}")
        if had is not None:
            return
        self.tells[uid] = fate
        self.counts["told " + fate[0]] += 1
        self.say(client, f"tells its program: order {uid} {text(fate)[1:].upper()}")
        server = client.out.server
        if fate[0] == "done":
            told_at = self.commits[heard[1:]]
            if isinstance(fate[1], tuple):
                holds(uid in told_at.state.done, f"order {uid} is told DONE and wasn't executed")
                sub, end = fate[1][1:]
                holds(self.ordered_by[sub] == uid, f"order {uid} has the result of another chain")
                if end[0] == "done" and "c" not in self.set_back_nodes:
                    holds(
                        self.c.disk.tip.state.done.get(sub) == end[1],
                        f"order {sub} of {uid} wasn't executed so",
                    )
            else:
                holds(
                    told_at.state.done.get(uid) == fate[1],
                    f"order {uid} is told DONE with a result that it hasn't",
                )
            self.heard.setdefault(client.name, []).append(told_at)
        elif fate == NEVER:
            holds(uid not in server.disk.tip.state.done, f"order {uid} is told NEVER and was executed")
        else:
            is_so = self.forgot or client.name in self.set_back_nodes or self.has_twin
            holds(is_so, f"order {uid} is UNKNOWN, though nothing was forgotten, nor was its client set back")

    def opened(self, node):
        state = node.state
        if node.out and node.name not in self.set_back_nodes:
            here = set(state.fates)
            here.update(order[0] for _, order in state.lanes.values() if order)
            for uid, client in self.executed.items():
                holds(
                    client is not node or uid in here,
                    f"order {uid} is executed, and its client doesn't know of it",
                )
        if node.ins and node.name not in self.set_back_nodes:
            for uid, fate in self.tells.items():
                if fate[0] == "done" and (node is self.b) != isinstance(uid, tuple):
                    holds(uid in state.done, f"order {uid} was told DONE, and isn't in the store any more")

    # what the adversary does

    def some(self, items):
        return items[int(self.pick() * len(items))]

    def clients(self):
        return [it for it in self.nodes if it.out and it.up]

    def servers(self):
        return [it for it in self.nodes if it.ins and it.up]

    def do_give(self):
        a = self.some(self.givers)
        if a.up and self.orders < 10:
            uid = self.orders + 1
            if self.has_chain and self.pick() < 0.75:
                self.chained.add(uid)
            if a.note(uid, int(self.pick() * a.lanes)):
                self.orders = uid

    def do_attempt(self):
        clients = self.clients()
        if clients:
            node = self.some(clients)
            x = self.pick()
            how = (
                "made"
                if x < 0.85
                else "declined"
                if x < 0.92
                else "no memory, made"
                if x < 0.96
                else "no memory, not made"
            )
            node.attempt(int(self.pick() * node.lanes), how)

    def do_ask(self):
        clients = self.clients()
        if clients:
            node = self.some(clients)
            lane = int(self.pick() * node.lanes)
            if lane not in node.calling and not node.stopped:
                node.call((ASK, lane, 0, 0, None, None))

    def do_sync(self):
        node = self.some(self.nodes)
        if node.up:
            node.sync()

    def do_sync_all(self):
        for node in self.nodes:
            if node.up:
                node.sync()

    def do_hand_out(self):
        wire = self.some(self.wires)
        if wire.server.up:
            flow = int(self.pick() * len(wire.calls))
            calls, first = wire.calls[flow], wire.next[flow]
            if self.is_wild:
                if calls:
                    at = min(int(self.pick() * len(calls) * 1.5), len(calls) - 1)
                    wire.server.inbox.append((wire, flow, *calls[at]))
            elif first < len(calls):
                at = first if self.pick() < 0.7 else first + int(self.pick() * (len(calls) - first))
                wire.next[flow] = at + 1
                wire.server.inbox.append((wire, flow, *calls[at]))

    def do_handle(self):
        servers = self.servers()
        if servers:
            self.handle_one(self.some(servers), self.pick() < self.failing)

    def handle_one(self, node, fails):
        inbox = node.inbox
        if not inbox:
            return
        at = int(self.pick() * len(inbox))
        if self.rules.in_order:
            # the first of the flow of the one that was picked
            it = inbox[at]
            at = next(i for i, other in enumerate(inbox) if other[0] is it[0] and other[1] == it[1])
        node.handle(*inbox.pop(at), fails=fails)

    def do_deliver(self):
        wire = self.some(self.wires)
        if wire.replies and wire.client.up:
            self.deliver(wire, int(self.pick() * len(wire.replies)), self.pick() < 0.25)

    def deliver(self, wire, at, drops):
        flow, number, reply = wire.replies[at]
        waits = wire.client.waiting.get(number)
        if waits and waits[0] == flow:
            if not self.is_wild or drops:
                wire.replies.pop(at)
            wire.client.answered(number, reply)
        elif drops:
            wire.replies.pop(at)

    def do_unsure(self):
        clients = self.clients()
        if clients:
            node = self.some(clients)
            if node.waiting:
                node.ends(self.some(list(node.waiting)))

    def do_cancel(self):
        a = self.some(self.givers)
        if a.up:
            lane = int(self.pick() * a.lanes)
            a.cancel(lane)
            if lane in a.calling and self.pick() < 0.5:
                a.ends(a.calling[lane])

    def do_adopt(self):
        for node in self.clients():
            if node.stopped:
                node.adopt()

    def do_round(self):
        """All goes well for a while, up to any point."""
        good = (
            self.do_give,
            self.do_sync_all,
            self.do_attempt,
            self.do_hand_out,
            self.do_handle,
            self.do_sync_all,
            self.do_deliver,
            self.do_sync_all,
        )
        for what in (good + good)[: int(self.pick() * 17)]:
            what()

    def do_crash(self):
        node = self.some(self.nodes)
        if not node.up:
            return node.open()
        self.kill(node, self.pick() < 0.5)

    def do_open(self):
        for node in self.nodes:
            if not node.up:
                node.open()

    def kill(self, node, power):
        self.counts["crashes"] += 1
        node.up = False
        if power:
            node.disk.lose_power(self)
            node.zombies = []
        elif node.ins and node.inbox and self.pick() < 0.6:
            node.zombies.append(list(node.inbox))
        self.say(node, "loses power" if power else "dies")

    def do_zombie(self):
        for node in self.nodes:
            if node.zombies and self.pick() < 0.5:
                inbox = self.some(node.zombies)
                if inbox:
                    node.handle(*inbox.pop(0), zombie=True)

    def do_forget(self):
        node = self.some(self.servers() or [self.a])
        if node.ins and node.state.regs:
            node.forget(self.some(list(node.state.regs)))

    def do_set_back(self):
        nodes = []
        if self.may_set_back_client:
            nodes.append(self.a)
        if self.may_set_back_server:
            nodes.append(self.c if self.has_chain else self.b)
        if nodes and self.pick() < 0.6:
            node = self.some(nodes)
            old = node.disk.durable
            for _ in range(1 + int(self.pick() * 6)):
                old = old.parent if old.parent and old.parent.state.opens else old
            self.set_back(node, old, node.ins and node.up and self.pick() < 0.4)

    def set_back(self, node, old, beneath=False):
        if old is node.disk.tip:
            return
        self.counts[("server" if node.ins else "client") + " set back"] += 1
        self.set_back_nodes.add(node.name)
        node.disk.tip = node.disk.durable = old
        self.say(node, f"its store is set back to :{old.state.k}" + (" beneath it" if beneath else ""))
        if beneath:
            return
        node.up = False
        if node.out:
            # nothing is promised of fates that were told and are forgotten now
            kept = old.state.fates
            mine = (
                {uid for uid in self.tells if uid not in kept and not isinstance(uid, tuple)}
                if node is self.a
                else set()
            )
            mine -= set(self.nodes[-1].state.fates) if self.has_twin else set()
            self.tells = {uid: it for uid, it in self.tells.items() if uid not in mine}
            # and of what it was told DONE, an alarm that it still has came behind what isn't of the history that it
            # knows
            knows = self.commits[old.state.known[1:]] if old.state.known else None
            told = [self.commits[it[1][1:]] for it in kept.values() if it[0][0] == "done"]
            self.heard[node.name] = [it for it in told if knows and is_on(it, knows)]

    EACH = (
        [do_give] * 7
        + [do_attempt] * 14
        + [do_sync] * 14
        + [do_hand_out] * 13
        + [do_handle] * 13
        + [do_deliver] * 10
        + [do_unsure] * 6
        + [do_round] * 8
        + [do_cancel] * 2
        + [do_adopt] * 2
        + [do_crash] * 3
        + [do_open] * 8
        + [do_zombie] * 2
        + [do_forget] * 3
        + [do_set_back] * 2
        + [do_ask] * 3
    )
    TEMPERS = (
        EACH,
        EACH,
        EACH + [do_forget] * 8,
        EACH + [do_crash] * 4,
        EACH + [do_cancel] * 5,
        EACH + [do_set_back] * 6 + [do_ask] * 6 + [do_adopt] * 4,
        EACH + [do_set_back] * 5 + [do_forget] * 6 + [do_ask] * 6 + [do_adopt] * 6,
    )

    def go(self):
        pick = self.pick
        steps = self.some(self.TEMPERS)
        size = len(steps)
        if pick() < 0.85:
            self.warm_up()
        for _ in range(30 + int(pick() * 90)):
            steps[int(pick() * size)](self)
        self.settle()
        self.counts["runs " + self.kind] += 1
        return self.counts

    def warm_up(self):
        """Clients have heard of their servers once."""
        for node in self.clients():
            node.attempt(0)
            wire = node.out
            for flow, calls in enumerate(wire.calls):
                for it in calls:
                    wire.server.handle(wire, flow, *it)
                wire.next[flow] = len(calls)
            wire.server.sync()
            self.deliver(wire, 0, True)

    def settle(self):
        """From now on nothing dies, nothing is lost and handlers don't fail: each order gets its fate."""
        self.do_open()
        for _ in range(40):
            for node in self.nodes:
                node.sync()
                if node.stopped:
                    node.adopt()
                    node.sync()
            for node in self.clients():
                for lane in range(node.lanes):
                    node.attempt(lane)
            self.do_zombie()
            for wire in self.wires:
                for flow, calls in enumerate(wire.calls):
                    if self.is_wild and calls:
                        wire.server.inbox.append((wire, flow, *self.some(calls)))
                    wire.server.inbox.extend((wire, flow, *it) for it in calls[wire.next[flow] :])
                    wire.next[flow] = len(calls)
            for node in self.servers():
                while node.inbox:
                    self.handle_one(node, False)
                node.sync()
            for wire in self.wires:
                for at in range(len(wire.replies) - 1, -1, -1):
                    self.deliver(wire, at, True)
                for number in list(wire.client.waiting):
                    wire.client.ends(number)
            if not any(order for node in self.clients() for _, order in node.state.lanes.values()):
                break
        else:
            raise Broken("an order has no fate")
        for node in self.nodes:
            node.sync()
            self.kill(node, True)
            node.open()
        if self.is_wild:
            # what comes still
            for wire in self.wires:
                for flow, calls in enumerate(wire.calls):
                    wire.server.inbox.extend((wire, flow, *self.some(calls)) for _ in range(min(3, len(calls))))
            for node in self.servers():
                while node.inbox:
                    self.handle_one(node, False)
        self.at_the_end()

    def at_the_end(self):
        for node in self.clients():
            server, state = node.out.server, node.state
            done = server.state.done
            for uid, (fate, heard) in state.fates.items():
                holds(self.tells.get(uid) == fate, f"order {uid} has a fate that wasn't told")
                if server.name not in self.set_back_nodes and fate != UNKNOWN:
                    holds(
                        (uid in done) == (fate[0] == "done"),
                        f"order {uid} ended {fate[0]}, and that isn't so",
                    )
            for uid in self.given_over:
                holds(uid in state.fates or node is not self.a, f"order {uid} has no fate")
            if node is self.b and "c" not in self.set_back_nodes:
                noted = [*state.fates, *(order[0] for _, order in state.lanes.values() if order)]
                subs = Counter(self.ordered_by[sub] for sub in noted)
                for uid in state.done:
                    if uid in self.chained:
                        holds(subs[uid] == 1, f"order {uid} was executed, and {subs[uid]} orders of it were noted")


# --- single runs, told line by line


class Script(Run):
    """A run whose steps are written down."""

    def __init__(self, without=None, **flags):
        super().__init__(0, Rules(without), {"kind": "L", **flags})

    def meet(self):
        """Clients have heard of their servers once."""
        self.warm_up()
        self.log.clear()
        return self

    def give(self, uid, lane=0):
        holds(self.a.note(uid, lane), "the script notes an order")
        self.orders = max(self.orders, uid)
        self.a.sync()

    def hand(self, at=None, wire=0):
        """The next call, or that of this place, is handed out."""
        wire = self.wires[wire]
        at = wire.next[0] if at is None else at
        wire.next[0] = max(wire.next[0], at + 1)
        wire.server.inbox.append((wire, 0, *wire.calls[0][at]))

    def serve(self, at=None, wire=0, fails=False, syncs=True):
        """It is handed out, handled, made durable and answered."""
        self.hand(at, wire)
        server = self.wires[wire].server
        self.handle_one(server, fails)
        if syncs:
            server.sync()

    def answer(self, wire=0, syncs=True):
        """The last reply comes, and what it leads to is made durable."""
        self.deliver(self.wires[wire], len(self.wires[wire].replies) - 1, True)
        if syncs:
            self.wires[wire].client.sync()

    def lose(self, lane=0, node=None):
        """The lane's call ends unsure; replies to it are lost."""
        node = node or self.a
        node.ends(node.calling[lane])
        node.out.replies.clear()
        self.say(node, f"lane {lane}: unsure")

    def all_goes_well(self, lane=0):
        self.a.attempt(lane)
        self.serve()
        self.answer()

    def die(self, node, keeps=None):
        """It dies, or where `keeps` says what is kept, it loses power."""
        self.kill(node, False)
        self.log.pop()
        node.zombies = []
        if keeps:
            node.disk.tip = node.disk.durable = next(it for it in chain_of(node.disk.tip) if keeps(it.state))
        self.say(node, "loses power" if keeps else "dies")
        node.open()

    def back(self, node, keeps, beneath=False):
        self.set_back(node, next(it for it in chain_of(node.disk.durable) if keeps(it.state)), beneath)
        if not beneath:
            node.open()


def run_good(it):
    """All goes well: one round trip; the client syncs the note and the fate, the server once."""
    it.meet()
    it.give(1)
    it.all_goes_well()


def run_request_lost(it):
    """The request is lost: the same order is called again, and executed then."""
    it.meet()
    it.give(1)
    it.a.attempt(0)
    it.wires[0].next[0] += 1
    it.lose()
    it.all_goes_well()


def run_reply_lost(it):
    """The reply is lost: the register answers."""
    it.meet()
    it.give(1)
    it.a.attempt(0)
    it.serve()
    it.lose()
    it.all_goes_well()


def run_late(it):
    """The first call is slow and comes after a second one was made: it is executed, and the second one is told so."""
    it.meet()
    it.give(1)
    it.a.attempt(0)
    it.lose()
    it.a.attempt(0)
    it.serve(1)
    it.serve(2)
    it.answer()


def run_server_dies(it):
    """The server loses power between commit and sync: it is executed when it is called again. Then its process dies
    between the
    two: the commit is there, its opening makes it durable, and the register answers."""
    it.meet()
    it.give(1)
    it.a.attempt(0)
    it.serve(syncs=False)
    it.die(it.b, lambda state: not state.done)
    it.lose()
    it.a.attempt(0)
    it.serve(syncs=False)
    it.die(it.b)
    it.lose()
    it.all_goes_well()


def run_client_dies(it):
    """The client dies when its call was made, and again when it has heard the answer and not written it."""
    it.meet()
    it.give(1)
    it.a.attempt(0)
    it.serve()
    it.die(it.a)
    it.wires[0].replies.clear()
    it.a.attempt(0)
    it.serve()
    it.answer(syncs=False)
    it.die(it.a, lambda state: not state.fates)
    it.all_goes_well()


def run_cancel(it):
    """An order that was never called is NEVER at once; one that may have been sent is by an answer, and a call of it
    that comes
    later (on a wire without L1) isn't executed; a third was executed before it was cancelled."""
    it.meet()
    it.give(1)
    it.a.cancel(0)
    it.a.sync()
    it.give(2)
    it.a.attempt(0)
    it.lose()
    it.a.cancel(0)
    it.a.attempt(0)
    it.serve(2)
    it.answer()
    it.serve(1)
    it.wires[0].replies.clear()
    it.give(3)
    it.a.attempt(0)
    it.serve()
    it.lose()
    it.a.cancel(0)
    it.all_goes_well()


def run_forgotten(it):
    """A register is forgotten. Who asks about an order from before that is told UNKNOWN; the next order of the lane
    is as good
    as any; and an order from after it is called again without a register."""
    it.meet()
    it.give(1)
    it.a.attempt(0)
    it.serve()
    it.lose()
    it.b.forget(("a", 0))
    it.b.sync()
    it.all_goes_well()
    it.give(2)
    it.a.attempt(0)
    it.wires[0].next[0] += 1
    it.lose()
    it.all_goes_well()


def run_not_now(it):
    """A handler fails; by its answer the order's `since` is newer, so that what is forgotten then does no harm."""
    it.meet()
    it.give(1, lane=0)
    it.give(2, lane=1)
    it.all_goes_well(1)
    it.a.attempt(0)
    it.serve(fails=True)
    it.answer()
    it.b.forget(("a", 1))
    it.b.sync()
    it.all_goes_well(0)


def run_server_set_back(it):
    """The server's store is set back to before an order that was told DONE: who was told so is told of that first. A
    client
    that knows nothing of what was lost is served."""
    it.meet()
    it.give(1)
    it.all_goes_well()
    it.give(2, lane=1)
    it.back(it.b, lambda state: not state.done)
    it.a.attempt(1)
    it.serve()
    it.answer()
    it.a.adopt()
    it.a.sync()
    it.all_goes_well(1)


def run_beneath(it):
    """A standby takes over beneath the running server, without its last commit, which was replied to already."""
    it.meet()
    it.give(1)
    it.a.attempt(0)
    it.serve()
    it.back(it.b, lambda state: not state.done, beneath=True)
    it.give(2, lane=1)
    it.a.attempt(1)
    it.serve()
    it.answer()
    it.deliver(it.wires[0], 0, True)
    it.a.sync()
    it.a.attempt(0)
    it.serve()
    it.answer()


def run_client_set_back(it):
    """The client's store is set back: its next order has a number that was used. It is refused, and gets the next
    one."""
    it.meet()
    it.give(1)
    it.all_goes_well()
    it.back(it.a, lambda state: not state.lanes)
    it.a.call((ASK, 0, 0, 0, None, None))
    it.serve()
    it.answer()
    it.give(2)
    it.all_goes_well()
    it.all_goes_well()


def run_chain(it):
    """The handler gives an order to a third service, noted in the transaction of its effect. The server dies in
    between."""
    it.meet()
    it.chained.add(1)
    it.give(1)
    it.a.attempt(0)
    it.serve()
    it.answer()
    it.die(it.b)
    it.b.attempt(0)
    it.serve(wire=1)
    it.answer(wire=1)
    it.all_goes_well()


def chain_of(commit):
    while commit:
        yield commit
        commit = commit.parent


WORKED = {
    it.__name__[4:]: it
    for it in (
        run_good,
        run_request_lost,
        run_reply_lost,
        run_late,
        run_server_dies,
        run_client_dies,
        run_cancel,
        run_forgotten,
        run_not_now,
        run_server_set_back,
        run_beneath,
        run_client_set_back,
        run_chain,
    )
}


def worked(names):
    for name in names or WORKED:
        it = Script(chain=name == "chain")
        if name == "cancel":
            it = Script(kind="W")
        WORKED[name](it)
        print(f"{name}: {' '.join(WORKED[name].__doc__.split())}\n")
        print("\n".join("    " + line for line in it.log) + "\n")


# --- single runs for defences that few runs need


def case_since_durable(it):
    """The order's `since` is newer by an answer; that is lost with the power, and an older one is refused."""
    it.meet()
    it.give(1, lane=0)
    it.give(2, lane=1)
    it.all_goes_well(1)
    it.a.attempt(0)
    it.serve(fails=True)
    it.answer(syncs=False)
    durable = it.a.disk.durable.state
    if it.a.attempt(0) is None:
        it.a.sync()
        durable = it.a.disk.durable.state
        it.a.attempt(0)
    it.lose()
    it.die(it.a, lambda state: state is durable)
    it.b.forget(("a", 1))
    it.b.sync()
    it.a.attempt(0)
    it.serve(len(it.wires[0].calls[0]) - 1)
    it.answer()
    it.serve(len(it.wires[0].calls[0]) - 2)


def case_touch(it):
    """A number that was used by a former client is refused; then its register is forgotten, and the refused call
    comes again."""
    it.meet()
    it.give(1)
    it.all_goes_well()
    it.back(it.a, lambda state: not state.lanes)
    it.a.call((ASK, 0, 0, 0, None, None))
    it.serve()
    it.answer()
    it.give(2)
    it.all_goes_well()
    it.b.forget(("a", 0))
    it.b.sync()
    it.serve(len(it.wires[0].calls[0]) - 1)


def case_in_order(it):
    """A call and its cancel stand side by side, and between the two the store is set back beneath its process."""
    it.meet()
    it.give(1)
    it.a.attempt(0)
    it.lose()
    it.a.cancel(0)
    it.a.attempt(0)
    it.hand(1)
    it.hand(2)
    it.b.handle(*it.b.inbox.pop(0 if it.rules.in_order else 1))
    it.b.sync()
    it.answer()
    it.back(it.b, lambda state: not state.regs, beneath=True)
    it.b.handle(*it.b.inbox.pop(0))


def case_fence(it):
    """An old process has a call, its order is cancelled, and the store is set back to before that."""
    it.meet()
    it.give(1)
    it.a.attempt(0)
    it.hand()
    old = list(it.b.inbox)
    it.die(it.b)
    it.b.zombies.append(old)
    it.lose()
    it.a.cancel(0)
    it.all_goes_well()
    it.back(it.b, lambda state: not state.regs)
    it.b.handle(*old.pop(0), zombie=True)


def case_alarm_last(it):
    """An answer of a history that is lost was heard and isn't durable when the client is told that it is lost."""
    it.meet()
    it.give(1, lane=0)
    it.a.attempt(0)
    it.serve()
    it.answer(syncs=False)
    it.back(it.b, lambda state: not state.done)
    it.a.call((ASK, 1, 0, 0, None, None))
    it.serve()
    it.answer(syncs=False)
    it.a.adopt()
    it.a.sync()
    it.give(2, lane=1)
    it.all_goes_well(1)


# of each its kind of run
CASES = {
    "since_durable": (case_since_durable, "W"),
    "touch": (case_touch, "W"),
    "in_order": (case_in_order, "L"),
    "fence": (case_fence, "L"),
    "alarm_last": (case_alarm_last, "L"),
}


def case_fails(name, without):
    case, kind = CASES[name]
    try:
        case(Script(without, kind=kind))
    except Broken as why:
        return str(why)
    return None


# --- the runs, and what is taken away


def first_failure(rules, tries, until):
    for seed in range(tries):
        if time.process_time() > until:
            return None
        try:
            Run(seed, rules).go()
        except Broken as why:
            return seed, str(why)
    return None


def taken_away(tries, seconds, names):
    right = True
    for name in names:
        begun = time.process_time()
        found = first_failure(Rules(name), tries, begun + seconds)
        told = f"run {found[0]} fails: {found[1]}" if found else f"none of {tries} runs fails"
        if found is None and name in CASES:
            found = case_fails(name, name)
            told += f"; its single run fails: {found}, and {'fails' if case_fails(name, None) else 'holds'} with it"
        right &= found is not None
        what = f"defence {name} ({DEFENCES[name]})" if name in DEFENCES else f"premise ({name})"
        print(f"without {what}: {told}; {time.process_time() - begun:.1f} s", flush=True)
    return right


def runs(count, first, seconds):
    totals, rules, begun, done = Counter(), Rules(), time.process_time(), 0
    for seed in range(first, first + count):
        try:
            for name, it in Run(seed, rules).go().items():
                totals[name] += it
        except Broken as why:
            print(f"run {seed} fails: {why}")
            return False
        done += 1
        if seed % 1000 == 0 and time.process_time() - begun > seconds:
            break
    print(
        f"{done} runs hold, {time.process_time() - begun:.0f} s of a processor: "
        + ", ".join(f"{name} {it}" for name, it in sorted(totals.items())),
        flush=True,
    )
    return True


def main():
    reads = argparse.ArgumentParser(description=__doc__, formatter_class=argparse.RawDescriptionHelpFormatter)
    reads.add_argument("what", nargs="?")
    reads.add_argument("name", nargs="?")
    reads.add_argument("--runs", type=int, default=200_000)
    reads.add_argument("--first", type=int, default=0)
    reads.add_argument("--tries", type=int, default=20_000)
    reads.add_argument("--only", action="append", help="of what is taken away, this alone")
    reads.add_argument("--seconds", type=float, default=400.0, help="of a processor, for the runs at most")
    given = reads.parse_args()
    if given.what == "worked":
        worked([given.name] if given.name else [])
        return 0
    right = runs(given.runs, given.first, given.seconds)
    return 0 if taken_away(given.tries, 20.0, given.only or (*DEFENCES, *PREMISES)) and right else 1


if __name__ == "__main__":
    sys.exit(main())
