"""The files that the calls are measured on: the porter file, files of 10 to 256 actions made from a fixed seed, two of them
with a set of situations for each action, one of them with eight crews, and the longest file with one crew and with eight. Each has
a straight plan for crew 0. And a chart, an access log and rides for each of them."""

import random
import sys
from pathlib import Path

ROOT = Path(__file__).resolve().parents[1]
sys.path.insert(0, str(ROOT / "tests"))
import oracle  # noqa: E402
import study  # noqa: E402

SIZES = [10, 20, 30, 60, 128, 256]
WITH_SETS = [30, 256]
WITH_CREWS = [30]


def walk_lengths(rng, actions, variables):
    """How many of the actions each variable's walk has: at least one, at most 12, some four fifths of them all."""
    lengths = [1] * variables
    while sum(lengths) < actions * 4 // 5:
        v = rng.randrange(variables)
        if lengths[v] < 12:
            lengths[v] += 1
    return lengths


def conditions(rng, state, own):
    """What up to four other variables have now."""
    others = [u for u in range(len(state)) if u != own]
    chosen = rng.sample(others, min(len(others), rng.choice([0, 1, 1, 2, 2, 3, 4])))
    return [(u, state[u]) for u in sorted(chosen)]


def made(actions, seed):
    """A study that was walked through once, in a drawn order: each action asks for what others had when it was done. One in
    five is on no walk, since it leaves the goal or leads to a value that is not wanted."""
    rng = random.Random(seed)
    variables = max(3, min(32, actions // 5))
    lengths = walk_lengths(rng, actions, variables)
    counts = [min(16, k + 4) for k in lengths]
    values = [rng.sample(range(c), c) for c in counts]
    state = [values[v][0] for v in range(variables)]
    done = [0] * variables
    out = []
    order = [v for v, k in enumerate(lengths) for _ in range(k)]
    rng.shuffle(order)
    for v in order:
        pre, post = values[v][done[v]], values[v][done[v] + 1]
        out.append(study.Action(v, pre, post, conditions(rng, state, v)))
        done[v] += 1
        state[v] = post
    spare = [(v, post) for v in range(variables) for post in values[v][lengths[v] + 1 :]]
    for v, post in rng.sample(spare, actions - len(out)):
        pre = rng.choice([q for q in range(counts[v]) if q != post])
        out.append(study.Action(v, pre, post, conditions(rng, state, v)))
    rng.shuffle(out)
    starts = [values[v][0] for v in range(variables)]
    crew = study.Crew(starts, state, rng.randrange(1, study.LARGEST_SEED + 1))
    return study.written(study.Study(counts, out, [crew]))


def with_sets(data, situation=2):
    """The same study in a situation, each action with a set that has it."""
    rng = random.Random(situation)
    said = study.read(data)
    for action in said.actions:
        action.situations = rng.randrange(128) | 1 << situation
    said.situation = situation
    return study.written(said)


def with_crews(data, many):
    """The same study with so many crews: the first as it is, the others at rest."""
    said = study.read(data)
    first = said.crews[0]
    said.crews = [first] + [study.Crew(first.starts, first.starts, number) for number in range(1, many)]
    return study.written(said)


def files():
    """Name and bytes of each."""
    yield "porter", study.PORTER
    for actions in SIZES:
        yield f"{actions} actions", made(actions, actions)
    for actions in WITH_SETS:
        yield f"{actions} with sets", with_sets(made(actions, actions))
    for actions in WITH_CREWS:
        yield f"{actions}, 8 crews", with_crews(made(actions, actions), study.MOST_CREWS)
    longest = (ROOT / "studies" / "longest.bin").read_bytes()
    yield "longest, 1 crew", with_crews(longest, 1)
    yield "longest", with_crews(longest, study.MOST_CREWS)


def log(data, plan, events):
    """An access log of crew 0, of which a part is held: three events in four are the next step of the plan, and behind its end one that
    may be done, as long as there is one."""
    rng = random.Random(events)
    said = oracle.heard(data, 0)
    state, tick, left, out = oracle.start_state(said), rng.randrange(oracle.ROUND), list(plan), []
    numbers = [number for number in range(len(said.actions)) if oracle.usable(said, number)]
    for _ in range(events):
        ready = [number for number in numbers if oracle.may_be_done(state, said.actions[number])]
        barred = [number for number in numbers if number not in ready]
        number = rng.choice((left[:1] or ready or barred) if rng.random() < 0.75 else barred or ready)
        if number in ready:
            state, left = oracle.done(state, said.actions[number]), left[1:]
        out.append((tick, number))
        tick = (tick + rng.randrange(2000)) % oracle.ROUND
    return oracle.log_of(out)


def chart(data, plan):
    """The actions and the pairs of a file's own chart: all direct orders. Where these are too many, the plan as a chain, and of the
    direct orders as many as make up the most pairs that a chart may have."""
    said = oracle.heard(data, 0)
    orders = sorted(oracle.comes_before(said, [oracle.walk_of(said, v) for v in range(len(said.counts))]))
    if len(orders) > oracle.MOST_PAIRS:
        rng = random.Random(len(orders))
        chain = list(zip(plan, plan[1:]))
        orders = chain + rng.sample(sorted(set(orders) - set(chain)), oracle.MOST_PAIRS - len(chain))
        rng.shuffle(orders)
    return bytes(sorted(plan)), bytes(action for pair in orders for action in pair)


def rides(data):
    """A ride for every other action of a file, between eight floors, so that some begin where the person is."""
    actions = len(oracle.heard(data, 0).actions)
    rng = random.Random(actions)
    return bytes(number for action in range(0, actions, 2) for number in (action, *rng.sample(range(8), 2)))
