"""The model holds, and doesn't without any one of its defences and premises."""
import model

# a run that fails without each; of those that a random run shows too seldom there is a written one (model.CASES)
SEEDS = {
    "note_first": 168,
    "tell_durable": 100,
    "known_with_fate": 272,
    "one_transaction": 132,
    "register_not_first": 0,
    "reply_durable": 144,
    "reads_wait": 1676,
    "server_opening_syncs": 652,
    "client_opening_syncs": 2067,
    "register_read": 56,
    "born": 1859,
    "proves": 0,
    "horizon_raised": 0,
    "since_of_note": 0,
    "only_call": 0,
    "only_call_of_this_life": 3,
    "memory_is_made": 259,
    "one_under_way": 0,
    "bound_flow": 7960,
    "fence_clock": 51,
    "tags": 44,
    "attempts": 1484,
    "cancel_asks": 0,
    "tombstone": 118,
    "touch": 26561,
    "stale_is_unknown": 385,
    "path": 8,
    "path_nonces": 45,
    "path_leaving": 51,
    "since_path": 9095,
    "same_opening": 4247,
    "forked_now": 1340,
    "strict": 3910,
    "chain_one_transaction": 1165,
    "L1 holds where clients count on it": 244,
    "a server's store is set back only under L1, or with `strict`": 830,
    "nonces of openings differ": 22,
    "what was synced stays": 11,
    "what stays of a store is a first part of its commits": 105,
}
RUNS = 2_000


def fails(name: str | None, seed: int) -> str:
    """Why a run fails, without a defence or a premise: nothing if it holds."""
    try:
        model.Run(seed, model.Rules(name)).go()
    except model.Broken as why:
        return str(why)
    return ""


def without(name: str) -> bool:
    """Whether its run fails without it, and holds with it."""
    if name in SEEDS:
        return bool(fails(name, SEEDS[name])) and not fails(None, SEEDS[name])
    return bool(model.case_fails(name, name)) and not model.case_fails(name, None)


def cases() -> list[tuple[str, bool, str]]:
    broken = {seed: why for seed in range(RUNS) if (why := fails(None, seed))}
    names = [*model.DEFENCES, *model.PREMISES]
    return [
        (f"{RUNS} runs of the model hold", not broken, str(broken)[:300]),
        *((f"without {name} a run fails", without(name), "") for name in names),
    ]
