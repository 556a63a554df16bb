"""Checks studies/: each NAME.bin is what bin/make-study makes of NAME.study, and each NAME.out what the oracle says that the
program prints for NAME.bin, each NAME.explained what the explainer of tests/explain says; each NAME.names and NAME.why has these
lines with the table's words; each NAME.charted is what the oracle says of NAME.chart, in words; each NAME.compared leads from one
plan to another by straight plans, in as few exchanges as there are pairs that differ; each NAME.replayed is what the oracle says of
NAME.log, event by event, in words, each NAME.travelled what it says of NAME.rides; and bin/make-study itself: its mistakes, the
refusals that it shows, --names and --show. It proves and builds the writer where that is still to be done. The last line is
'N passed, M failed'.

    python3 tests/studies_check.py             checks
    python3 tests/studies_check.py --write     writes every file but tables, charts, logs and rides anew, then checks
"""

import importlib.util
import json
import random
import re
import subprocess
import sys
import tempfile
from collections import Counter
from importlib.machinery import SourceFileLoader
from pathlib import Path

sys.dont_write_bytecode = True

import oracle
from explain import explainer

ROOT = Path(__file__).resolve().parent.parent
STUDIES = ROOT / "studies"
MAKE_STUDY = ROOT / "bin" / "make-study"

# The first line of what each is to print. 'longest' has no table: bin/make-study --longest makes it.
FIRST_LINES = {
    "porter": "plan 4",
    "horse-breeder": "refused 11 5 1",
    "horse-breeder-fed": "plan 2",
    "hotel": "plan 20",
    "hotel-crews": "plan 8",
    "night-porter": "plan 6",
    "courier": "plan 6",
    "porter-morning": "plan 9",
    "no-walk": "refused 10 1 255",
    "cart-back": "refused 10 1 0",
    "kerbside": "refused 10 0 255",
    "off-walk": "refused 11 1 2",
    "wrong-badge": "refused 11 0 1",
    "ring": "refused 12 1 0",
    "two-keys": "refused 12 0 0",
    "airlock": "refused 12 1 0",
    "doorman": "refused 12 0 0",
    "linen-waits": "refused 12 0 0",
    "longest": "plan 256",
}

# Tables of which the writer makes no study: what bin/make-study says of each is stored.
REFUSED = ["courier-second-pass"]

# The studies whose plans are stored in words too.
IN_WORDS = ["porter", "hotel", "night-porter", "hotel-crews"]

# The studies with more than one crew, and the crews' names.
CREWS = {"hotel-crews": ["housekeepers", "porters"]}

# The studies of which what bin/variety prints, for 64 seeds from 1, is stored.
VARIED = ["porter", "hotel"]

# The charts, and the studies and crews that they are of: what bin/chart prints of each is stored.
CHARTED = {"porter": ("porter", 0), "hotel": ("hotel", 0), "hotel-short": ("hotel", 0), "hotel-crews": ("hotel-crews", 1)}

# The lists of rides, and the studies and crews that they are of: what bin/journeys prints of each is stored.
TRAVELLED = {"hotel": ("hotel", 0), "hotel-crews": ("hotel-crews", 1), "hotel-twice": ("hotel", 0)}

# The studies of which what bin/compare prints is stored: the crew, and the two seeds.
COMPARED = {"porter": (0, 1, 3), "hotel": (0, 1, 2), "hotel-crews": (1, 1, 2)}

# The studies with an access log of crew 0: what bin/replay --names prints of each is stored.
REPLAYED = ["porter-morning"]

# The studies whose explanations are stored in words too: each kind of line is among them.
WHY = ["porter", "night-porter", "no-walk", "cart-back", "wrong-badge", "doorman", "hotel-crews"]

# Of each kind of line but a step's and the first, what its numbers are and its words: actions i and j, a variable v and its values
# p and q; n is no name.
LINES_IN_WORDS = {
    "after next": ("nivq", "after {i}, which sets {v} = {q}: this leaves it"),
    "after sets": ("nivq", "after {i}, which sets {v} = {q}: this wants it"),
    "after leaves": ("nivq", "after {i}, which wants {v} = {q}: this leaves it"),
    "goal": ("vq", "the goal is {v} = {q}"),
    "set": ("vqip", "{i} sets {v} = {q} and leaves {p}"),
    "unset": ("vq", "no action in force sets {v} = {q}"),
    "round": ("vq", "this is back at {v} = {q}, and the start was not met"),
    "wants": ("ivq", "{i} wants {v} = {q}, which is none of these:"),
    "start": ("vq", "the start is {v} = {q}"),
    "walk": ("vipq", "{i}: {v} {p} -> {q}"),
    "ring next": ("ijvq", "{i} before {j}: it sets {v} = {q}, which {j} leaves"),
    "ring sets": ("ijvq", "{i} before {j}: it sets {v} = {q}, which {j} wants"),
    "ring leaves": ("ijvq", "{i} before {j}: it wants {v} = {q}, which {j} leaves"),
}
FIRST_IN_WORDS = {
    "10": ("vq", "{v} has no walk: no action sets it to {q}"),
    "10 255": ("vn", "{v} has no walk: its trace comes round"),
    "11": ("iv", "{i} wants a value that {v} does not pass"),
    "12": ("nn", "actions wait for each other in a ring; neither in a ring nor behind one: {n}"),
}

# The rules of each ring, in the order in which it is told.
RINGS = {
    "ring": ["sets", "sets"],
    "two-keys": ["sets", "sets"],
    "airlock": ["leaves", "leaves"],
    "doorman": ["sets", "leaves", "sets", "next"],
    "linen-waits": ["sets", "sets"],
}

HEAD = "variables\n  a: x, y\n  b: x, y, z\nactions\n"
TAIL = "tasks\n  a x -> y\n  b x -> z\nseed 5\n"

# Tables that cannot be made sense of: the line, and a word of what is said.
MISTAKES = {
    "": (0, "no seed"),
    "a: x, y\n": (1, "begins with"),
    "variables\n  a x, y\n": (2, "':'"),
    "variables\n  a: x, x\n": (2, "already"),
    "variables\n  a: x, y,\n": (2, "after the last"),
    "variables\n  a: x; y\n": (2, "cannot read"),
    "variables\n  a: x, y\n  a: x, y\n": (3, "already"),
    "variables\n  a: " + ", ".join(f"x{q}" for q in range(256)) + "\n": (2, "a byte"),
    HEAD + "  go: c x -> y\n" + TAIL: (5, "no variable 'c'"),
    HEAD + "  go: a x -> z\n" + TAIL: (5, "no value of a 'z'"),
    HEAD + "  go: a x y\n" + TAIL: (5, "'->'"),
    HEAD + "  go: a x ->\n" + TAIL: (5, "value of a"),
    HEAD + "  go: a x -> y if b = x\n" + TAIL: (5, "nothing should come"),
    HEAD + "  go: a x -> y when b x\n" + TAIL: (5, "'='"),
    HEAD + "  go: a x -> y when\n" + TAIL: (5, "variable's name"),
    HEAD + "  go: a x -> y\n  go: a y -> x\n" + TAIL: (6, "already"),
    HEAD + "  go: a x -> y when " + ", ".join(["b = x"] * 256) + "\n" + TAIL: (5, "a byte"),
    HEAD + TAIL + "tasks\n": (9, "comes after"),
    HEAD + "crew\n": (5, "crew's name"),
    HEAD + "crew one\ncrew two\n": (6, "comes after"),
    HEAD + "crew one\n  a x -> y\n": (6, "begin with the line 'tasks'"),
    HEAD + "crew one\n" + TAIL + "crew one\n": (10, "crew 'one' already"),
    HEAD + TAIL + "crew 0\n": (9, "crew '0' already"),
    HEAD + TAIL + "crew two\n": (9, "no seed"),
    HEAD + TAIL + "crew two\n" + TAIL.replace("seed 5\n", ""): (12, "no seed"),
    HEAD + TAIL + "crew two\n" + TAIL.replace("a x -> y", "a x -> z"): (11, "no value of a 'z'"),
    HEAD + TAIL.replace("seed 5\n", "crew two\n"): (8, "comes after"),
    HEAD + TAIL + "crew two: x, y\n": (9, "after the seed"),
    HEAD + TAIL + "  a x -> y\n": (9, "after the seed"),
    HEAD + TAIL.replace("seed 5\n", ""): (7, "no seed"),
    HEAD + TAIL.replace("5", "4294967296"): (8, "four bytes"),
    HEAD + TAIL.replace("5", "five"): (8, "four bytes"),
    "situations\n": (1, "':'"),
    "situations:\n": (1, "one to eight"),
    "situations: a, b, a\n": (1, "already"),
    "situations: a, b, c, d, e, f, g, h, i\n": (1, "one to eight"),
    "situation 8\n": (1, "no situation '8'"),
    "situations: day, night\nsituation 1\n": (2, "no situation '1'"),
    "situation 1\nsituations: day, night\n": (2, "comes after"),
    "situation 1\nsituation 1\n": (2, "comes after"),
    HEAD + "situation 1\n": (5, "':'"),
    HEAD + "  go: a x -> y during\n" + TAIL: (5, "situation's name"),
    HEAD + "  go: a x -> y during 1 2\n" + TAIL: (5, "','"),
    HEAD + "  go: a x -> y during noon\n" + TAIL: (5, "no situation 'noon'"),
    HEAD + "  go: a x -> y never when b = x\n" + TAIL: (5, "nothing should come"),
}

MANY_VARIABLES = "variables\n" + "".join(f"  a{v}: x, y\n" for v in range(33))
MANY_VALUES = "variables\n" + "".join(f"  v{v}: {', '.join(map(str, range(16)))}\n" for v in range(17)) + "actions\n"
SETTERS = "".join(f"  go{v}-{q}: v{v} {(q + 1) % 16} -> {q}\n" for v in range(16) for q in range(16))
GO = "  go: a x -> y when b = x\n"

# Tables that the writer refuses: the line, the refusal, and a word of what is said.
REFUSALS = {
    "seed 1\n": (1, (3, 0, 0), "no variable"),
    HEAD + GO + TAIL.replace("  b x -> z\n", ""): (8, (3, 15, 0), "no task"),
    HEAD + GO + TAIL.replace("tasks\n", "tasks\n  b x -> y\n"): (9, (3, 19, 0), "already"),
    MANY_VARIABLES + "seed 1\n": (34, (4, 64, 0), "too many variables"),
    MANY_VALUES + SETTERS + "  more: v16 0 -> 1\nseed 1\n": (276, (4, 1058, 0), "too many actions"),
    "variables\n  a: x\ntasks\n  a x -> x\nseed 1\n": (2, (5, 0, 0), "too few values"),
    "variables\n  a: x, y\n  b: " + ", ".join(f"x{q}" for q in range(17)) + "\nseed 1\n": (3, (5, 2, 0), "or too many"),
    HEAD + TAIL.replace("  a x -> y\n", ""): (6, (5, 4, 0), "next variable's"),
    HEAD + TAIL.replace("  b x -> z\n", "  a y -> x\n"): (7, (5, 8, 0), "twice"),
    HEAD + GO + TAIL.replace("5", "0"): (9, (5, 19, 0), "the seed is 0"),
    HEAD + GO + TAIL + "crew two\n" + TAIL.replace("5", "0"): (14, (5, 33, 0), "the seed is 0"),
    HEAD + GO + TAIL + "crew two\n" + TAIL.replace("  b x -> z\n", ""): (13, (3, 29, 0), "no task"),
    HEAD + GO + TAIL + "crew two\nseed 1\n": (11, (3, 25, 0), "no task"),
    HEAD + GO + TAIL + "crew two\n" + TAIL.replace("  a x -> y\n", ""): (12, (5, 25, 0), "next variable's"),
    HEAD + GO + TAIL + "".join(f"crew c{c}\n" + TAIL for c in range(8)): (45, (4, 122, 0), "too many crews"),
    HEAD + TAIL.replace("5", "2147483647"): (8, (5, 12, 0), "too large"),
    HEAD + GO + "  stay: b x -> x\n" + TAIL: (6, (6, 11, 0), "are the same"),
    HEAD + "  go: a x -> y when a = x\n" + TAIL: (5, (6, 8, 0), "own variable"),
    HEAD + "  go: a x -> y when b = x, b = y\n" + TAIL: (5, (6, 11, 0), "same variable"),
    HEAD + "  go: a x -> y\n" + TAIL: (3, (21, 1, 0), "no condition names it"),
    HEAD + "  go: b x -> y\n" + TAIL: (2, (21, 0, 0), "no action changes"),
    HEAD + TAIL: (2, (21, 0, 0), "no action changes"),
    "situation 3\n" + HEAD + "  go: a x -> y during 2\n" + TAIL: (4, (21, 1, 0), "no action changes"),
    HEAD + GO + "\n  back: b x -> y\n  come: b z -> y\n" + TAIL: (8, (7, 15, 0), "earlier action"),
    HEAD + GO + "  back: b x -> y during 0, 1\n  come: b z -> y\n" + TAIL: (7, (7, 17, 0), "in this situation"),
    "situation 2\n" + HEAD + "  go: b x -> y during 1\n  back: b x -> y\n  come: b z -> y during 2\n" + TAIL: (
        8,
        (7, 16, 0),
        "in this situation",
    ),
}

PORTER_NAMES = {
    "variables": ["pass", "cart", "ride"],
    "values": [["desk", "worn"], ["store", "lobby", "landing"], ["none", "booked"]],
    "actions": ["take-pass", "fetch-cart", "ride-up", "book-ride", "return-pass"],
    "situations": [str(number) for number in range(8)],
    "crews": ["0"],
}

passed = failed = 0


def expect(fine, what):
    global passed, failed
    if fine:
        passed += 1
    else:
        failed += 1
        print(f"FAILED: {what}")


def attempt(check, *inputs):
    """A check that cannot go on is a failed one."""
    try:
        check(*inputs)
    except Exception as error:
        expect(False, f"{check.__name__}{inputs[:1]} stopped: {error!r}")


def make_study_module():
    """bin/make-study, as a module."""
    loader = SourceFileLoader("make_study", str(MAKE_STUDY))
    module = importlib.util.module_from_spec(importlib.util.spec_from_loader("make_study", loader))
    sys.modules["make_study"] = module
    loader.exec_module(module)
    return module


def command(*arguments):
    return subprocess.run([sys.executable, str(MAKE_STUDY), *map(str, arguments)], capture_output=True)


def made(name):
    """The bytes that bin/make-study makes."""
    if name == "longest":
        return command("--longest", "-o", "-").stdout
    return command(STUDIES / f"{name}.study", "-o", "-").stdout


def stored(name, suffix):
    return (STUDIES / (name + suffix)).read_bytes()


def actions_in_words(name):
    """The actions as the table has them, without conditions and situations. They are taken from its lines."""
    part = re.split(r"\n(?:crew .*|tasks)\n", stored(name, ".study").decode().split("\nactions\n")[1])[0]
    lines = [line.split(" when ")[0].split(" during ")[0] for line in part.splitlines() if line.strip()]
    return [" ".join(line.split()) for line in lines]


def variety(name):
    """What bin/variety prints of a study that has several plans, by the oracle's report."""
    actions = [action.split(": ") for action in actions_in_words(name)]
    (_, length, _), figures = oracle.report(stored(name, ".bin"), 0, 1, 64, bytes(65541))
    positions = (length - 5) // len(actions)
    lines = [f"{name}.study, 64 seeds from 1: {figures[0]} plans of {positions} steps, {figures[4]} different"]
    width = max(len(action) for action, _ in actions)
    for position in range(positions):
        row = figures[5 + len(actions) * position :][: len(actions)]
        stood = sorted((number for number in range(len(actions)) if row[number]), key=lambda number: -row[number])
        for number in stood:
            place = "%4d" % position if number == stood[0] else " " * 4
            lines.append("%s  %3d  %s  %s" % (place, row[number], actions[number][0].ljust(width), actions[number][1]))
    return "".join(f"{line}\n" for line in lines)


def in_words(name):
    """What bin/plan --names prints for a study that has plans: behind each step its action as the table has it, without the
    conditions, and behind each plan's length the crew, where there is more than one. It is taken from the table's lines and
    shares nothing with bin/make-study."""
    actions, crews = actions_in_words(name), iter(CREWS.get(name, []))
    text = ""
    for line in stored(name, ".out").decode().splitlines():
        said = next(crews, "") if line.startswith("plan") else actions[int(line.split()[1])]
        text += f"{line}  {said}".rstrip() + "\n"
    return text


def named(name, letters, numbers):
    """What the numbers of a line are called, by letter. It is taken from the table's lines too."""
    part = stored(name, ".study").decode().split("variables\n")[1].split("\nactions\n")[0]
    variables = [line.strip().split(": ") for line in part.splitlines() if line.strip()]
    found = dict(zip(reversed(letters), reversed(numbers)))  # of two without a name the first
    for letter, number in found.items():
        if letter in "ij":
            found[letter] = actions_in_words(name)[number].split(":")[0]
        elif letter in "pq":
            found[letter] = variables[dict(zip(letters, numbers))["v"]][1].split(", ")[number]
    return {**found, "v": variables[found["v"]][0]} if "v" in found else found


def line_in_words(name, line):
    words, numbers = [], []
    for word in line.split():
        (numbers if word.isdecimal() else words).append(word)
    if words == ["plan"]:
        return line
    if words == ["crew"]:
        return f"{line}  {CREWS[name][int(numbers[0])]}"
    if not words:
        return f"{line}  {actions_in_words(name)[int(numbers[1])]}"
    if words == ["refused"]:
        number = numbers.pop(0)
        letters, form = FIRST_IN_WORDS[f"{number} 255" if numbers[1] == "255" else number]
    else:
        letters, form = LINES_IN_WORDS[" ".join(words)]
    return f"{line}  {form.format(**named(name, letters, list(map(int, numbers))))}"


def why(name):
    """What bin/explain prints of a table."""
    return "".join(f"{line_in_words(name, line)}\n" for line in stored(name, ".explained").decode().splitlines())


def chart_lines(name):
    """The lines of a chart, by number, as lists of names. Those of studies/ are chains all."""
    lines = enumerate(stored(name, ".chart").decode().splitlines(), 1)
    return {number: line.split(" before ") for number, line in lines if line and not line.startswith("#")}


def charted(name):
    """What bin/chart prints of a chart that is accepted or lacks an order, by the oracle; nothing is shared with bin/chart."""
    study, crew = CHARTED[name]
    numbers = {action.split(":")[0]: number for number, action in enumerate(actions_in_words(study))}
    first_lines, pairs = {}, []
    for number, chain in chart_lines(name).items():
        for action in chain:
            first_lines.setdefault(action, number)
        pairs += zip(chain, chain[1:])
    lent = [bytes(numbers[action] for action in first_lines), bytes(numbers[action] for pair in pairs for action in pair)]
    (answer, *more), _ = oracle.chart(stored(study, ".bin"), crew, *lent)
    if answer == 0:
        return "chart {} {}  accepted: every order that keeps these {} pairs is a straight plan\n".format(*more, len(pairs))
    assert answer == 28, f"{name}.chart is refused with {answer}"
    one, other = (list(numbers)[number] for number in more)
    lines = [f"refused 28 {more[0]} {more[1]}  {one} must come before {other}, and no chain of pairs says so"]
    lines += [f"studies/{name}.chart:{first_lines[action]}: {action} is first named here" for action in (one, other)]
    return "".join(f"{line}\n" for line in lines)


def rides_lines(name):
    """Of a list of rides the floors' numbers by name, the start, and by number the lines of rides, as lists of words."""
    floors, start, rides = {}, None, {}
    for number, line in enumerate(stored(name, ".rides").decode().splitlines(), 1):
        words = line.split("#")[0].split()
        if words[:1] == ["floor"]:
            floors[words[1]] = int(words[2])
        elif words[:1] == ["start"]:
            start = words[1]
        elif words:
            rides[number] = words
    return floors, start, rides


def travelled(name):
    """What bin/journeys prints of rides that are in order or of which one is an action's second, by the oracle; nothing is shared with
    bin/journeys."""
    study, crew = TRAVELLED[name]
    data = stored(study, ".bin")
    numbers = {action.split(":")[0]: number for number, action in enumerate(actions_in_words(study))}
    floors, start, lines = rides_lines(name)
    floor = lambda word: floors[word] if word in floors else int(word)  # noqa: E731
    called = lambda number: {value: key for key, value in floors.items()}.get(number, str(number))  # noqa: E731
    rides = bytes(n for action, _, begins, _, ends in lines.values() for n in (numbers[action], floor(begins), floor(ends)))
    heard = oracle.heard(data, crew)
    ranks = bytes(oracle.drawn(heard.seed, len(heard.actions))[0])
    (answer, first, _), left = oracle.journeys(data, crew, ranks, rides, floor(start), bytes(1536))
    if answer:
        assert answer == 7, f"{name}.rides is refused with {answer}"
        line = list(lines)[first]
        told = f"{lines[line][0]} has a ride already"
        return f"refused 7 {first} 0  {told}\nstudies/{name}.rides:{line}: {told}\n"
    (_, many, _), plan = oracle.plan(data, crew, ranks, bytes(256))
    rows = [tuple(left[at : at + 3]) for at in range(0, 3 * first, 3)]
    ridden = [k for k in range(first) if k + 1 == first or rows[k + 1][0] != rows[k][0]]
    also = f", and {first - len(ridden)} to where one begins" if len(ridden) < first else ""
    text = f"journeys {first}  {len(ridden)} rides in {many} steps{also}\n"
    for k, (step, begins, ends) in enumerate(rows):
        action, way = list(numbers)[plan[step]], f"{called(begins)} -> {called(ends)}"
        text += f"{step} {begins} {ends}  " + (f"{action}: {way}\n" if k in ridden else f"{way}, to where {action} begins\n")
    return text


def bringing(action, steps):
    """The lists on the way while an action is brought to the front, as crates/swaps/specs/Swaps.antt has it."""
    if steps[0] == action:
        return []
    return [[steps[0], *rest] for rest in bringing(action, steps[1:])] + [[action, *(step for step in steps if step != action)]]


def chain(first, second):
    """The lists on the way from one plan to another, by the same page."""
    if not second:
        return []
    action, *rest = second
    return bringing(action, first) + [[action, *steps] for steps in chain([step for step in first if step != action], rest)]


def compared_plans(name):
    """The two plans, by the oracle."""
    crew, *seeds = COMPARED[name]
    data = stored(name, ".bin")
    count = len(oracle.heard(data, crew).actions)
    plans = [oracle.plan(data, crew, bytes(oracle.drawn(seed, count)[0]), bytes(256)) for seed in seeds]
    return [list(plan[: numbers[1]]) for numbers, plan in plans]


def compared(name):
    """What bin/compare prints of two plans that differ; nothing is shared with it."""
    crew, *seeds = COMPARED[name]
    first, second = compared_plans(name)
    lists = [first, *chain(first, second)]
    title = ", ".join([f"{name}.study", *CREWS.get(name, [])[crew : crew + 1], "seeds {} and {}".format(*seeds)])
    text = f"{title}: plans of {len(first)} steps, {len(lists) - 1} exchange{'s' * (len(lists) > 2)} apart\n"
    actions = [action.split(":")[0] for action in actions_in_words(name)]
    for before, after in zip(lists, lists[1:]):
        at = next(place for place in range(len(before)) if before[place] != after[place])
        one, other = before[at : at + 2]
        words = [actions[number] for number in (one, other, other, one)]
        text += "{} {} {}  {} before {}: now {} before {}\n".format(at, one, other, *words)
    return text


def log_lines(name):
    """The events of a log, as (tick, name of the action)."""
    lines = [line.split("#")[0].split() for line in stored(name, ".log").decode().splitlines()]
    return [(int(tick), action) for tick, action in filter(None, lines)]


def log_bytes(name):
    actions = [action.split(":")[0] for action in actions_in_words(name)]
    return oracle.log_of((tick, actions.index(action)) for tick, action in log_lines(name))


def in_state(name, variable, value):
    names = named(name, "vq", [variable, value])
    return f"{names['v']} = {names['q']}"


def replayed(name):
    """What bin/replay --names prints of a log that is not refused: each event by the oracle's record of the log cut behind it; nothing
    is shared with bin/replay."""
    data, log, actions = stored(name, ".bin"), log_bytes(name), actions_in_words(name)
    (_, done, held), record = oracle.replay(data, 0, log, bytes(40))
    lines = [f"replayed {done} {held}  {done + held} events: {done} done, {held} held"]
    for index, (tick, action) in enumerate(log_lines(name)):
        _, after = oracle.replay(data, 0, log[: 4 * index + 4], bytes(40))
        number = log[4 * index + 3]
        if after[36]:
            lines.append(f"{tick} {number} held {after[37]} {after[38]}  {action} waits for {in_state(name, after[37], after[38])}")
        else:
            lines.append(f"{tick} {number} done  {actions[number]}")
    variables = len(oracle.heard(data, 0).counts)
    values = ", ".join(in_state(name, v, record[v]) for v in range(variables))
    ticks = record[32] + 256 * record[33]
    assert not record[36], f"{name}.log does not end idle"
    lines.append(f"end {ticks} idle  idle after {ticks} ticks, with {values}")
    return "".join(f"{line}\n" for line in lines)


def refusal_of(name):
    """What bin/make-study says of a table that it makes no study of."""
    said = command(STUDIES / f"{name}.study", "-o", "-")
    expect(said.returncode == 1 and not said.stdout, f"{name}.study makes a study")
    return said.stderr.decode().replace(str(STUDIES) + "/", "")


def check_refused(name):
    expect(stored(name, ".refused").decode() == refusal_of(name), f"{name}.refused is not what bin/make-study says")


def check_courier():
    """The slip: the courier's table with one variable and its task more, which nobody uses."""
    courier = oracle.heard(stored("courier", ".bin"), 0)
    slip = oracle.replace(courier, counts=[*courier.counts, 2], tasks=[*courier.tasks, (0, 0)])
    expect(oracle.check(oracle.file_of(slip))[0] == (21, 3, 0), "the courier's slip is not told")
    lines = stored("courier-second-pass", ".study").decode().splitlines()
    at = next(number for number, line in enumerate(lines, 1) if line.startswith("  badge:"))
    expect(f":{at}: refused 21 3 0: " in stored("courier-second-pass", ".refused").decode(), "the line of the second pass")


def write_all():
    for name in FIRST_LINES:
        data = made(name)
        (STUDIES / f"{name}.bin").write_bytes(data)
        (STUDIES / f"{name}.out").write_text(oracle.printed(data))
        (STUDIES / f"{name}.explained").write_text(explainer.explained(data))
    for name in REFUSED:
        (STUDIES / f"{name}.refused").write_text(refusal_of(name))
    for name in WHY:
        (STUDIES / f"{name}.why").write_text(why(name))
    for name in IN_WORDS:
        (STUDIES / f"{name}.names").write_text(in_words(name))
    for name in VARIED:
        (STUDIES / f"{name}.variety").write_text(variety(name))
    for name in CHARTED:
        (STUDIES / f"{name}.charted").write_text(charted(name))
    for name in COMPARED:
        (STUDIES / f"{name}.compared").write_text(compared(name))
    for name in REPLAYED:
        (STUDIES / f"{name}.replayed").write_text(replayed(name))
    for name in TRAVELLED:
        (STUDIES / f"{name}.travelled").write_text(travelled(name))


def check_study(name, first_line):
    data, out = stored(name, ".bin"), stored(name, ".out").decode()
    expect(data == made(name), f"{name}.bin is not what bin/make-study makes")
    expect(out == oracle.printed(data), f"{name}.out is not what the oracle says")
    expect(stored(name, ".explained").decode() == explainer.explained(data), f"{name}.explained is not what the explainer says")
    expect(out.split("\n")[0] == first_line, f"{name}.out does not begin with '{first_line}'")
    expect(oracle.check(data)[0][0] == 0, f"{name}.bin does not load")


def check_words(name):
    expect(stored(name, ".names").decode() == in_words(name), f"{name}.names is not {name}.out with the table's words")


def check_why(name):
    expect(stored(name, ".why").decode() == why(name), f"{name}.why is not {name}.explained with the table's words")


def check_variety(name):
    expect(stored(name, ".variety").decode() == variety(name), f"{name}.variety is not what the oracle's report says")


def check_charted(name):
    expect(stored(name, ".charted").decode() == charted(name), f"{name}.charted is not what the oracle says of the chart")


def check_compared(name):
    """The lines, followed one by one, lead by straight plans from the first plan to the second, and fewer cannot."""
    text = stored(name, ".compared").decode()
    expect(text == compared(name), f"{name}.compared is not what the plans of the oracle give")
    crew, data, (steps, second) = COMPARED[name][0], stored(name, ".bin"), compared_plans(name)
    differing = sum(second.index(one) > second.index(other) for at, one in enumerate(steps) for other in steps[at + 1 :])
    lines = text.splitlines()[1:]
    expect(len(lines) == differing > 0, f"{name}.compared has {len(lines)} exchanges, and {differing} pairs differ")
    for line in lines:
        at, one, other = map(int, line.split()[:3])
        expect(steps[at : at + 2] == [one, other], f"{name}.compared: '{line}' exchanges what does not stand there")
        steps = [*steps[:at], other, one, *steps[at + 2 :]]
        expect(oracle.run(data, crew, bytes(steps), bytes(32))[0][0] == 0, f"{name}.compared: no straight plan after '{line}'")
    expect(steps == second, f"{name}.compared does not lead to the second plan")


def check_replayed(name):
    expect(stored(name, ".replayed").decode() == replayed(name), f"{name}.replayed is not what the oracle says of the log")


def check_logs():
    """What the logs are there for, and the program's own example."""
    name = "porter-morning"
    lines = stored(name, ".replayed").decode().splitlines()
    held = [line for line in lines if " held " in line.split("  ")[0]]
    expect(len(held) == 1 and "waits for lift = " in held[0], f"held are {held}")
    ticks = [tick for tick, _ in log_lines(name)]
    expect(any(after < before for before, after in zip(ticks, ticks[1:])), "the ticks do not roll over")
    actions = log_bytes(name)[3::4]
    expect(len(set(actions)) < len(actions), "no action is done twice")
    log = oracle.log_of([(480, 1), (482, 3), (485, 0), (490, 3), (505, 2)])
    example = ROOT / "crates" / "trail"
    given = bytes(8) + len(log).to_bytes(4, "big") + log + oracle.PORTER
    expect((example / "stdin").read_bytes() == given, "crates/trail/stdin is not the porter's log")
    records = [oracle.replay(oracle.PORTER, 0, log[:at], bytes(40))[1] for at in range(0, len(log) + 1, 4)]
    expect((example / "stdout").read_bytes() == b"replayed 4 1\n" + b"".join(records), "crates/trail/stdout is not its trail")
def check_travelled(name):
    expect(stored(name, ".travelled").decode() == travelled(name), f"{name}.travelled is not what the oracle says of the rides")


def check_rides():
    """What the rides are there for: of the hotel's some begin where the person is and some do not, and one is of no plan; the second
    ride of the other list is of an action that no plan has. And what the program is run on."""
    floors, _, lines = rides_lines("hotel")
    steps = [line.split() for line in stored("hotel", ".travelled").decode().splitlines()[1:]]
    expect(0 < sum("where" in words for words in steps) < len(steps) / 2, "the hotel's rides are all preceded, or none is")
    expect(len(lines) == len([words for words in steps if "where" not in words]) + 1, "not one of the hotel's rides is in no plan")
    expect("stow-cart" in lines[max(lines)] and stored("hotel-twice", ".travelled").decode().count("stow-cart") == 2, "the slip")
    data = (ROOT / "crates" / "dispatch" / "stdin").read_bytes()
    head = bytes([0, 5, 0, 3, 0, 0, 0, 5, 0, 1, 2, 3, 4, 2, 0, 7])
    expect(data == head + oracle.PORTER, "crates/dispatch/stdin is not the porter with a ride")
    expect((ROOT / "crates" / "dispatch" / "stdout").read_bytes() == b"journeys 2\n" + bytes([3, 5, 0, 3, 0, 7]), "crates/dispatch/stdout")


def check_charts():
    """What the charts are there for: the partner's has fewer pairs than the study has direct orders, and the short one lacks a
    single order, by rule (c), of two actions of different variables of which neither sets what the other wants."""
    hotel = oracle.heard(stored("hotel", ".bin"), 0)
    direct = oracle.comes_before(hotel, [oracle.walk_of(hotel, v) for v in range(len(hotel.counts))])
    chains = {name: sum(len(chain) - 1 for chain in chart_lines(name).values()) for name in CHARTED}
    expect((len(direct), chains["hotel"], chains["hotel-short"]) == (45, 22, 21), f"{len(direct)} direct orders, and pairs {chains}")
    first, second = stored("hotel-short", ".charted").decode().split()[2:4]
    one, other = (hotel.actions[int(number)] for number in (first, second))
    expect(one.variable != other.variable and (one.variable, one.post) not in other.conditions, "the order that lacks is (a) or (b)")
    expect((other.variable, other.pre) in one.conditions, "the order that lacks is not (c)")
    porter = oracle.heard(oracle.PORTER, 0)
    own = oracle.comes_before(porter, [oracle.walk_of(porter, v) for v in range(len(porter.counts))])
    data = (ROOT / "crates" / "vet" / "stdin").read_bytes()
    head = bytes([0, 4, 0, 10, 0, 0, 0, 1, 2, 3])
    expect(data[:10] == head and data[20:] == oracle.PORTER, "crates/vet/stdin is no chart of the porter")
    expect({*oracle.pairs_in(data[10:20])} == {*own}, "crates/vet/stdin does not have the porter's own orders")
    expect((ROOT / "crates" / "vet" / "stdout").read_text() == "chart 4 5\n", "crates/vet/stdout")


def check_folder():
    """Nothing is left over in the folder."""
    named = {name + suffix for name in FIRST_LINES for suffix in (".study", ".bin", ".out", ".explained")} - {"longest.study"}
    named |= {name + suffix for name in REFUSED for suffix in (".study", ".refused")}
    named |= {f"{name}.names" for name in IN_WORDS} | {f"{name}.variety" for name in VARIED} | {f"{name}.why" for name in WHY}
    named |= {name + suffix for name in CHARTED for suffix in (".chart", ".charted")}
    named |= {f"{name}.compared" for name in COMPARED}
    named |= {name + suffix for name in REPLAYED for suffix in (".log", ".replayed")}
    named |= {name + suffix for name in TRAVELLED for suffix in (".rides", ".travelled")}
    there = {path.name for path in STUDIES.iterdir()} - {"README.md"}
    expect(named == there, f"studies/ lacks {sorted(named - there)} or has {sorted(there - named)} too many")


def check_particulars():
    """What the studies are there for."""
    expect(stored("porter", ".bin") == oracle.PORTER, "porter.bin is not document 01's file")
    expect(stored("porter", ".out").decode() == oracle.PORTER_PRINTED, "porter.out is not what document 01 prints")
    expect(stored("horse-breeder", ".bin") == oracle.horse_breeder(), "horse-breeder.bin is not source 004's Table 1")
    expect(len(stored("longest", ".bin")) == oracle.LONGEST_FILE, "longest.bin is not the longest")
    plans = [line for line in stored("longest", ".out").decode().splitlines() if line.startswith("plan")]
    expect(plans == [f"plan {steps}" for steps in (256, *range(1, 8))], f"the longest study's crews have {plans}")
    hotel = oracle.heard(stored("hotel", ".bin"), 0)
    plans = oracle.straight_plans(hotel, 100000)
    expect(len(plans) == 1416, f"the hotel has {len(plans)} straight plans and not 1,416")
    ranks, _ = oracle.drawn(hotel.seed, len(hotel.actions))
    first = oracle.first_in_dictionary_order(plans, ranks)
    steps = [int(line.split()[1]) for line in stored("hotel", ".out").decode().splitlines()[1:]]
    expect(steps == list(first), "hotel.out is not the first of all straight plans by the drawn ranks")
    firsts = {oracle.first_in_dictionary_order(plans, oracle.drawn(seed, len(hotel.actions))[0]) for seed in range(1, 21)}
    expect(len(firsts) > 10, f"20 seeds give the hotel {len(firsts)} plans only")


def check_crews():
    """Two crews of one table: each has a plan of its own, with actions that the other's has not, and each alone has the same."""
    data = stored("hotel-crews", ".bin")
    roster = oracle.read(data)
    expect(len(roster.crews) == 2, "the hotel has not two crews")
    studies = [oracle.study_of(roster, crew) for crew in range(2)]
    plans = [oracle.plan_seeded(data, crew, bytes(16)) for crew in range(2)]
    expect([numbers for numbers, _ in plans] == [(0, 8, 0)] * 2, f"the crews' plans: {plans}")
    housekeepers, porters = (set(plan[:8]) for _, plan in plans)
    expect(housekeepers - porters and porters - housekeepers and housekeepers & porters, "the crews' plans do not differ and share")
    many = [len(oracle.straight_plans(study, 100000)) for study in studies]
    expect(many == [9, 49], f"the crews have {many} straight plans")
    for study, plan in zip(studies, plans):
        expect(oracle.plan_seeded(oracle.file_of(study), 0, bytes(16)) == plan, "a crew alone has another plan")
    chart = chart_lines("hotel-crews").values()
    direct = oracle.comes_before(studies[1], [oracle.walk_of(studies[1], v) for v in range(len(studies[1].counts))])
    expect(sum(len(chain) - 1 for chain in chart) < len(direct), "the porters' chart has as many pairs as direct orders")


def check_explanations():
    """What the studies of refusals are there for."""
    worked = {
        "cart-back": oracle.porter((1, 0, 1), start=(0, 2, 0)),  # case 9
        "two-keys": oracle.two_wanting(1),  # case 13
        "airlock": oracle.two_wanting(0, more=True),
        "kerbside": oracle.coming_round(),  # case 14
    }
    for name, data in worked.items():
        expect(stored(name, ".bin") == data, f"{name}.bin is not the worked case")
    rings = {name: [line.split()[1:] for line in stored(name, ".explained").decode().splitlines()[1:]] for name in RINGS}
    for name, rules in RINGS.items():
        expect([rule for rule, *_ in rings[name]] == rules, f"the ring of {name} is {rings[name]}")
    lowest = min(explainer.stuck(oracle.heard(stored("linen-waits", ".bin"), 0)))
    expect(str(lowest) not in [one for _, one, *_ in rings["linen-waits"]], "the ring of linen-waits has no tail")
    lines = [line for name in WHY for line in stored(name, ".explained").decode().splitlines()]
    kinds = {" ".join(word for word in line.split() if not word.isdecimal()) for line in lines}
    expect(kinds == {*LINES_IN_WORDS, "plan", "refused", "crew", ""}, f"the explanations in words have the lines {sorted(kinds)}")
    example = ROOT / "crates" / "explain"
    expect((example / "stdin").read_bytes() == oracle.PORTER, "crates/explain/stdin is not the porter")
    expect((example / "stdout").read_bytes() == stored("porter", ".explained"), "crates/explain/stdout is not its explanation")


def check_pages():
    """The explanations, charts, comparisons, replays and journeys that the pages show are those of the studies."""
    for page, names in {"README.md": ["ring"], "docs/EXPLAIN.md": ["porter", "doorman"]}.items():
        shown = re.findall(r"```\n\$ bin/explain studies/(\S+)\.study\n(.*?)```", (ROOT / page).read_text(), re.DOTALL)
        expect(shown == [(name, why(name)) for name in names], f"{page} does not show what bin/explain prints of {names}")
    for page, names in {"README.md": ["hotel-short"], "docs/CHARTS.md": ["porter", "hotel", "hotel-short"]}.items():
        shown = re.findall(r"```\n\$ bin/chart studies/(\S+)\.study studies/(\S+)\.chart\n(.*?)```", (ROOT / page).read_text(), re.DOTALL)
        wanted = [(CHARTED[name][0], name, charted(name)) for name in names]
        expect(shown == wanted, f"{page} does not show what bin/chart prints of {names}")
    for page, names in {"README.md": ["porter"], "docs/COMPARE.md": ["porter", "hotel"]}.items():
        shown = re.findall(r"```\n\$ bin/compare studies/(\S+)\.study (\d+) (\d+)\n(.*?)```", (ROOT / page).read_text(), re.DOTALL)
        wanted = [(name, *map(str, COMPARED[name][1:]), compared(name)) for name in names]
        expect(shown == wanted, f"{page} does not show what bin/compare prints of {names}")
    shown = re.findall(r"```\n\$ bin/replay --names studies/(\S+)\.study studies/\S+\.log\n(.*?)```", (ROOT / "docs/REPLAY.md").read_text(), re.DOTALL)
    expect(shown == [(name, replayed(name)) for name in REPLAYED], "docs/REPLAY.md does not show what bin/replay prints")
    for page, names in {"README.md": ["hotel"], "docs/JOURNEYS.md": ["hotel", "hotel-twice"]}.items():
        shown = re.findall(r"```\n\$ bin/journeys studies/(\S+)\.study --rides studies/(\S+)\.rides\n(.*?)```", (ROOT / page).read_text(), re.DOTALL)
        wanted = [(TRAVELLED[name][0], name, travelled(name)) for name in names]
        expect(shown == wanted, f"{page} does not show what bin/journeys prints of {names}")


def check_night_porter():
    """By day and by night one table, the situation's record apart: both have a plan, and the loading differs."""
    table = STUDIES / "night-porter.study"
    by_night, by_day = stored("night-porter", ".bin"), command(table, "--situation", "day", "-o", "-").stdout
    expect(by_night == b"\x08\x01" + by_day, "by day and by night more differs than the situation")
    steps = [oracle.plan_seeded(data, 0, bytes(16)) for data in (by_night, by_day)]
    expect([numbers for numbers, _ in steps] == [(0, 6, 0)] * 2, f"the night porter: {steps}")
    night, day = (set(plan[:6]) for _, plan in steps)
    expect((night - day, day - night) == ({4}, {3}), "the cart is not loaded from the store by night, at the dock by day")
    for situation in ("noon", "2", ""):
        expect(command(table, "--situation", situation, "-o", "-").returncode == 1, f"a situation '{situation}'")


def check_mistakes(make_study):
    for text, (line, word) in MISTAKES.items():
        try:
            make_study.study_of_table(text, "T")
            said = "nothing"
        except make_study.Mistake as mistake:
            said = str(mistake)
        told = said.startswith(f"T:{line}: ") and word in said
        expect(told, f"a mistake on line {line}, '{word}': {said!r} is said of {text!r}")


def told_of(make_study, text):
    """What is said of a table that the writer refuses, or the bytes that it makes."""
    try:
        return make_study.bytes_of(make_study.study_of_table(text, "T"), "T")
    except make_study.Mistake as mistake:
        return str(mistake)


def check_refusals(make_study):
    for text, (line, numbers, word) in REFUSALS.items():
        said = told_of(make_study, text)
        told = str(said).startswith("T:%d: refused %d %d %d: " % (line, *numbers)) and word in said
        expect(told, f"line {line}, refused {numbers}, '{word}': {said!r} is said of {text[-300:]!r}")


def faulty_table(make_study, rng):
    """A table with a fault somewhere, and the study that it says."""
    while True:
        faulty = oracle.small_roster(rng)
        oracle.give_named_fault(rng, faulty)
        try:
            text = make_study.table_of(make_study.study_of_bytes(oracle.file_of(faulty)))
            return text, make_study.study_of_table(text, "T")
        except make_study.Mistake:
            continue


def line_of_record(text, study, before, kind):
    """The line of the record of a kind that comes behind so many of each."""
    lines = text.splitlines()
    crew = study.crews[before[oracle.CREW]] if before[oracle.CREW] < len(study.crews) else None
    if kind == oracle.VARIABLE:
        return 2 + before[oracle.VARIABLE] + before[oracle.SITUATION]
    if kind in (oracle.ACTION, oracle.CONDITION):
        return 3 + before[oracle.VARIABLE] + before[oracle.ACTION] - (kind == oracle.CONDITION) + before[oracle.SITUATION]
    if kind == oracle.CREW:
        return 1 + lines.index(f"crew {1 + before[oracle.CREW]}")
    seeds = [number for number, line in enumerate(lines, 1) if line.startswith("seed ")]
    if kind == oracle.SEED:
        return seeds[before[oracle.SEED]]
    return crew.tasks[before[oracle.TASK] - sum(len(other.tasks) for other in study.crews[: before[oracle.CREW]])].line


def check_refused_lines(make_study):
    """Of tables with a fault somewhere, the line that is told is that of the record where the oracle finds the fault."""
    rng = random.Random(2)
    told = Counter()
    while sum(told.values()) < 60:
        text, study = faulty_table(make_study, rng)
        situation, *lists = map(bytes, make_study.lists_of(make_study.entries_of(study)))
        numbers, _ = oracle.write(situation[0], *lists, bytes(2000))
        if numbers[0] == 0:
            continue
        file, before, at = oracle.file_of_lists(situation[0], *lists), Counter(), 0
        place = numbers[1] if numbers[0] != 21 else 2 * numbers[1] + 2 * (file[0] == oracle.SITUATION)
        while at < place:
            before[file[at]] += 1
            at = oracle.record_at(file, at)[0][4]
        said = told_of(make_study, text)
        line = line_of_record(text, study, before, file[at])
        expect(str(said).startswith("T:%d: refused %d %d %d: " % (line, *numbers)), f"{numbers}: {said!r} of {text!r}")
        told[before[oracle.CREW] > 0] += 1
    expect(all(told.values()) and len(told) == 2, f"faults in the first crew and in later ones: {told}")


def check_order(make_study):
    """Conditions and tasks may stand in any order."""
    action = "  go: b x -> y when c = q, a = y\n"
    table = "variables\n  a: x, y\n  b: x, y\n  c: p, q\nactions\n" + action + "tasks\n{}seed 258\n"
    tasks = ["  a x -> y\n", "  b x -> y\n", "  c p -> q\n"]
    expected = bytes.fromhex("0102 0102 0102 02010001 030001 030201 04000001 04010001 04020001 0500000102 06")
    for order in (tasks, tasks[::-1]):
        data = told_of(make_study, table.format("".join(order)))
        expect(data == expected, f"a table makes {data.hex()}")


def check_shows(make_study):
    """What --show prints makes the same bytes again. Of a file that does not load it prints a table too, where there is one."""
    rng = random.Random(1)
    files = [stored(name, ".bin") for name in FIRST_LINES] + [oracle.file_of(oracle.small_roster(rng)) for _ in range(40)]
    for data in files:
        same = told_of(make_study, make_study.table_of(make_study.study_of_bytes(data))) == data
        expect(same, f"--show of {data[:100].hex()} makes other bytes")
    shown = 0
    for _ in range(2000):
        try:
            shown += bool(make_study.table_of(make_study.study_of_bytes(oracle.damaged_file(rng))))
        except make_study.Mistake:
            continue
    expect(shown > 500, f"--show of {shown} damaged files only")


def check_command():
    with tempfile.TemporaryDirectory() as folder:
        table, bad, file = Path(folder, "t.study"), Path(folder, "bad.study"), Path(folder, "t.bin")
        table.write_bytes(stored("porter", ".study"))
        expect(command(table).returncode == 0 and file.read_bytes() == oracle.PORTER, "the default target is not beside")
        names = command(table, "-o", file, "--names", "-")
        expect(names.returncode == 0 and json.loads(names.stdout) == PORTER_NAMES, f"--names says {names.stdout}")
        shown = command("--show", file)
        expect(shown.returncode == 0 and shown.stdout.startswith(b"variables\n  v0: 0, 1\n"), "--show")
        bad.write_text(HEAD + TAIL.replace("5", "0"))
        refused = command(bad, "-o", file)
        told = f"make-study: {bad}:8: refused 5 12 0: ".encode()
        expect(refused.returncode == 1 and refused.stderr.startswith(told), "a refusal is not told")
        expect(file.read_bytes() == oracle.PORTER, "a refusal alters the target")
        bad.write_text(HEAD + "  go: a x -> z\n" + TAIL)
        mistake = command(bad, "-o", file)
        expect(mistake.returncode == 1 and f"{bad}:5: ".encode() in mistake.stderr, "a mistake is not told")
        expect(file.read_bytes() == oracle.PORTER, "a mistake alters the target")
        file.write_bytes(oracle.PORTER[:54])
        cut = command("--show", file)
        expect(cut.returncode != 0 and b"place 50" in cut.stderr, "--show of a cut file")
        expect(command(Path(folder, "none.study")).returncode != 0, "a table that is not there")
        expect(command("--longest").returncode != 0, "--longest without a target")


def main():
    if sys.argv[1:] == ["--write"]:
        write_all()
    elif sys.argv[1:]:
        sys.exit("usage: python3 tests/studies_check.py [--write]")
    for name, first_line in FIRST_LINES.items():
        attempt(check_study, name, first_line)
    for name in IN_WORDS:
        attempt(check_words, name)
    for name in VARIED:
        attempt(check_variety, name)
    for name in WHY:
        attempt(check_why, name)
    for name in CHARTED:
        attempt(check_charted, name)
    for name in COMPARED:
        attempt(check_compared, name)
    for name in REPLAYED:
        attempt(check_replayed, name)
    attempt(check_logs)
    for name in TRAVELLED:
        attempt(check_travelled, name)
    attempt(check_rides)
    attempt(check_charts)
    attempt(check_folder)
    attempt(check_particulars)
    attempt(check_crews)
    attempt(check_explanations)
    attempt(check_pages)
    attempt(check_night_porter)
    for name in REFUSED:
        attempt(check_refused, name)
    attempt(check_courier)
    make_study = make_study_module()
    for check in (check_mistakes, check_refusals, check_refused_lines, check_order, check_shows):
        attempt(check, make_study)
    attempt(check_command)
    print(f"{passed} passed, {failed} failed")
    sys.exit(1 if failed else 0)


if __name__ == "__main__":
    main()
