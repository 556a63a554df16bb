"""The oracle: every call of document 01 and of the requests in document 02 that have landed, from the definitions alone.

It stands by itself and uses neither the Rattle code nor the other scripts. Two conventions are the project's and not the
documents': which five numbers a record that is not there gives (see record_at; crates/records/specs/Records.antt has it too),
and what stands for numbers that a writer's lists announce and do not hold (see UNLENT; docs/DECISIONS.md, 'Writing files').
Each call is a function of the call's name that takes the inputs in the call's order, buffers as bytes, and answers (numbers,
buffer afterwards). A file is read into a Roster; a Study is what one of its crews sees, and all planning is on that:

    record_at(file, at)          five numbers: number, kind, start of the body, its length, the place after it
    check(file)                  three numbers, as all that follow
    plan(file, crew, ranks, buffer)
    plan_seeded(file, crew, buffer)
    run(file, crew, steps, buffer)
    draw(seed, count, buffer)
    write(situation, variables, actions, conditions, crews, tasks, buffer)
    report(file, crew, first, count, buffer)
    chart(file, crew, actions, pairs)
    replay(file, crew, log, occupant)          the occupant's record is the buffer
    journeys(file, crew, ranks, rides, start, buffer)

record_at, check and chart write nothing; their buffer afterwards is b"". `printed(input)` is what the program prints.
`calls(seed, n)` yields n calls as (name, inputs), all but writes, reports, charts, replays and journeys; `writes(seed, n)`,
`reports(seed, n)`, `charts(seed, n)`, `replays(seed, n)` and `travels(seed, n)` yield n of these; `answer(name, inputs)` is what
such a call answers.

    python3 tests/oracle.py --self-test      document 01's worked cases; both ways of planning on random small files; where
                                             walks break, by following the trace; charts, by trying every order; crews
                                             beside others against crews alone; replays, against runs and by what moving the
                                             ticks, cutting the log and another record may not alter; journeys, by what joins
                                             them
"""

import itertools
import random
import sys
import time
from collections import Counter
from dataclasses import dataclass, field, replace

sys.dont_write_bytecode = True

VARIABLE, ACTION, CONDITION, TASK, SEED, END, SITUATIONS, SITUATION, CREW = 1, 2, 3, 4, 5, 6, 7, 8, 9
BODY_LENGTH = {VARIABLE: 1, ACTION: 3, CONDITION: 2, TASK: 3, SEED: 4, END: 0, SITUATIONS: 1, SITUATION: 1, CREW: 0}
MOST_VARIABLES, MOST_VALUES, MOST_ACTIONS, MOST_CREWS = 32, 16, 256, 8
LARGEST_SEED = 2147483646
MOST_SEEDS = 64
MOST_PAIRS = 4096
HIGHEST_FLOOR = 199
RIDE_LENGTH = 3
LONGEST_FILE = 26482
MOST_SITUATION = 7
ALWAYS = 255  # the set of all eight situations, which is not written
CAME_ROUND = 255  # the second number of 10 where the trace comes round
EVENT = 16  # a kind of logs alone
EVENT_LENGTH, MOST_EVENTS = 4, 16384
ROUND, WENT_BACK = 65536, 32768  # ticks are numbers of 16 bits; a step so long, or longer, went back
STATE_ROOM, OCCUPANT_LENGTH = 32, 40  # bytes of the occupant's record

# Planning tries every list if there are no more lists than this; the self-test tries many more.
LISTS_TO_TRY = 300

# A chart of no more actions than this is decided by trying every order too; the self-test tries some of one more.
ACTIONS_TO_TRY = 6


@dataclass
class Action:
    variable: int
    pre: int
    post: int
    conditions: list = field(default_factory=list)  # (variable, value)
    situations: int = ALWAYS  # bit s for situation s


@dataclass
class Crew:
    tasks: list = field(default_factory=list)  # by variable: (start, goal)
    seed: int = None


@dataclass
class Roster:
    """What a file says: what all crews share, and the crews."""

    counts: list = field(default_factory=list)  # by variable: how many values
    actions: list = field(default_factory=list)
    crews: list = field(default_factory=list)
    situation: int = 0
    ended: bool = field(default=False, compare=False)  # while a file is read
    places: list = field(default_factory=list, compare=False)  # of the actions' records


@dataclass
class Study:
    """What one crew sees of a file. Where a roster is wanted, it stands for the file in which that crew is alone."""

    counts: list
    actions: list
    tasks: list
    seed: int
    situation: int = 0

    def start(self, variable):
        return self.tasks[variable][0]

    def goal(self, variable):
        return self.tasks[variable][1]

    @property
    def crews(self):
        return [Crew(self.tasks, self.seed)]


class Refused(Exception):
    """The three numbers of a refusal."""

    def __init__(self, number, first, second=0):
        super().__init__(number, first, second)
        self.numbers = (number, first, second)


# ---------------------------------------------------------------------------------------------------------------------
# The study file


def record_at(file, at):
    """The record at a place: 0, kind, start of the body, its length, the place after it. Where none is there, 2 or 1 in
    that order, and an empty body at the place given (the file length if that is at or past the end). That the kind is then
    0, and start and next both that place, is the project's convention."""
    if at >= len(file):
        return (1, 0, len(file), 0, len(file)), b""
    kind = file[at]
    if kind not in BODY_LENGTH:
        return (2, 0, at, 0, at), b""
    start, length = at + 1, BODY_LENGTH[kind]
    if start + length > len(file):
        return (1, 0, at, 0, at), b""
    return (0, kind, start, length, start + length), b""


def may_come(roster, kind):
    """Whether a record of this kind is allowed after what was read: the situation or not; one or more variables; any number
    of actions, each followed by its conditions and then its situations or not; the crews, each with one task for each
    variable and one seed, and between two of them what opens the next; one end. A situation of 0 and a set of all eight are
    refused where they stand, so they tell that none was read."""
    some_variable, some_action, some_crew = bool(roster.counts), bool(roster.actions), bool(roster.crews)
    crew = roster.crews[-1] if some_crew else Crew()
    all_tasks = some_variable and len(crew.tasks) == len(roster.counts)
    manned = crew.seed is not None
    return {
        SITUATION: not some_variable and roster.situation == 0,
        VARIABLE: not some_action and not some_crew,
        ACTION: some_variable and not some_crew,
        CONDITION: some_action and not some_crew and roster.actions[-1].situations == ALWAYS,
        SITUATIONS: some_action and not some_crew and roster.actions[-1].situations == ALWAYS,
        TASK: some_variable and not all_tasks,
        SEED: all_tasks and not manned,
        CREW: manned,
        END: manned,
    }[kind]


def is_value(roster, variable, value):
    """There is such a variable and the value is not too large."""
    return variable < len(roster.counts) and value < roster.counts[variable]


def fault_in_variable(roster, count):
    if len(roster.counts) == MOST_VARIABLES:
        return 4
    if not 2 <= count <= MOST_VALUES:
        return 5
    return 0


def fault_in_action(roster, variable, pre, post):
    if len(roster.actions) == MOST_ACTIONS:
        return 4
    if not (is_value(roster, variable, pre) and is_value(roster, variable, post)):
        return 5
    if pre == post:
        return 6
    return 0


def fault_in_condition(roster, variable, value):
    action = roster.actions[-1]
    if not is_value(roster, variable, value):
        return 5
    if variable == action.variable or any(variable <= earlier for earlier, _ in action.conditions):
        return 6
    return 0


def fault_in_task(roster, variable, start, goal):
    next_variable = len(roster.crews[-1].tasks) if roster.crews else 0
    if variable != next_variable or not (is_value(roster, variable, start) and is_value(roster, variable, goal)):
        return 5
    return 0


def fault_in_seed(roster, seed):
    return 0 if 1 <= seed <= LARGEST_SEED else 5


def fault_in_situations(roster, situations):
    return 6 if situations == ALWAYS else 0


def fault_in_situation(roster, situation):
    if situation > MOST_SITUATION:
        return 5
    return 6 if situation == 0 else 0


def fault_in_crew(roster):
    return 4 if len(roster.crews) == MOST_CREWS else 0


def fault_of_record(roster, file, place):
    """The fault, in the order 2, 3, 1, 4, 5, 6, of the record at a place inside the file; 0 if it has none."""
    kind = file[place]
    if kind not in BODY_LENGTH:
        return 2
    if not may_come(roster, kind):
        return 3
    (number, _, start, length, _), _ = record_at(file, place)
    if number:
        return number
    body = file[start : start + length]
    if kind == VARIABLE:
        return fault_in_variable(roster, *body)
    if kind == ACTION:
        return fault_in_action(roster, *body)
    if kind == CONDITION:
        return fault_in_condition(roster, *body)
    if kind == TASK:
        return fault_in_task(roster, *body)
    if kind == SEED:
        return fault_in_seed(roster, int.from_bytes(body, "big"))
    if kind == SITUATIONS:
        return fault_in_situations(roster, *body)
    if kind == SITUATION:
        return fault_in_situation(roster, *body)
    if kind == CREW:
        return fault_in_crew(roster)
    return 0


def take(roster, kind, body):
    """Enters a record that has no fault."""
    if kind == VARIABLE:
        roster.counts.append(body[0])
    elif kind == ACTION:
        roster.actions.append(Action(*body))
    elif kind == CONDITION:
        roster.actions[-1].conditions.append(tuple(body))
    elif kind == TASK:
        roster.crews = roster.crews or [Crew()]
        roster.crews[-1].tasks.append((body[1], body[2]))
    elif kind == SEED:
        roster.crews[-1].seed = int.from_bytes(body, "big")
    elif kind == SITUATIONS:
        roster.actions[-1].situations = body[0]
    elif kind == SITUATION:
        roster.situation = body[0]
    elif kind == CREW:
        roster.crews.append(Crew())
    else:
        roster.ended = True


def in_force(study, action):
    return bool(action.situations >> study.situation & 1)


def first_repeat(study):
    """The earliest action in force that sets what an earlier one in force sets, or None."""
    for number, action in enumerate(study.actions):
        for earlier in study.actions[:number]:
            same = (earlier.variable, earlier.post) == (action.variable, action.post)
            if same and in_force(study, earlier) and in_force(study, action):
                return number
    return None


def unused(study):
    """The variables that no action changes and no condition names, in force or not."""
    used = {action.variable for action in study.actions} | {v for action in study.actions for v, _ in action.conditions}
    return [v for v in range(len(study.counts)) if v not in used]


def read(file):
    """What the file says; raises Refused with 1 to 8 or 21."""
    roster = Roster()
    place = 0
    while not roster.ended:
        if place == len(file):
            raise Refused(1, place)
        fault = fault_of_record(roster, file, place)
        if fault:
            raise Refused(fault, place)
        (_, kind, start, length, after), _ = record_at(file, place)
        take(roster, kind, file[start : start + length])
        if kind == ACTION:
            roster.places.append(place)
        place = after
    repeat = first_repeat(roster)
    if repeat is not None:
        raise Refused(7, roster.places[repeat])
    for variable in unused(roster):
        raise Refused(21, variable)
    if place < len(file):
        raise Refused(8, place)
    return roster


def study_of(roster, number):
    """What the crew of a number sees; raises Refused with 22 where it is not there."""
    if number >= len(roster.crews):
        raise Refused(22, number)
    crew = roster.crews[number]
    return Study(roster.counts, roster.actions, crew.tasks, crew.seed, roster.situation)


def heard(file, number):
    """What the file says to a crew; raises Refused with 1 to 8, 21 or 22."""
    return study_of(read(file), number)


# ---------------------------------------------------------------------------------------------------------------------
# States and straight plans


def may_be_done(state, action):
    return state[action.variable] == action.pre and all(state[v] == q for v, q in action.conditions)


def done(state, action):
    """The state after the action."""
    return tuple(action.post if v == action.variable else q for v, q in enumerate(state))


def start_state(study):
    return tuple(start for start, _ in study.tasks)


def goal_state(study):
    return tuple(goal for _, goal in study.tasks)


class TooMany(Exception):
    """There are more lists than were to be tried."""


def straight_plans(study, lists_to_try):
    """Every straight plan, by trying every list whose actions may be done one after another with no value held before."""
    found = []
    tried = 0

    def try_list(steps, state, held):
        nonlocal tried
        tried += 1
        if tried > lists_to_try:
            raise TooMany
        if state == goal_state(study):
            found.append(steps)
        for number, action in enumerate(study.actions):
            taken = (action.variable, action.post)
            if in_force(study, action) and may_be_done(state, action) and taken not in held:
                try_list(steps + (number,), done(state, action), held | {taken})

    start = start_state(study)
    try_list((), start, frozenset(enumerate(start)))
    return found


def first_in_dictionary_order(plans, ranks):
    return min(plans, key=lambda steps: [ranks[number] for number in steps])


# ---------------------------------------------------------------------------------------------------------------------
# Walks, 'comes before', rings


def setter(study, variable, value):
    """The one action in force that sets the variable to the value, or None."""
    for number, action in enumerate(study.actions):
        if in_force(study, action) and (action.variable, action.post) == (variable, value):
            return number
    return None


def walk_of(study, variable):
    """The walk, traced from the goal value back; None if there is none."""
    walk, passed = [], set()
    value = study.goal(variable)
    while value != study.start(variable):
        number = setter(study, variable, value)
        if number is None or value in passed:
            return None
        passed.add(value)
        walk.insert(0, number)
        value = study.actions[number].pre
    return walk


def where_it_breaks(study, variable):
    """Of a variable with no walk: the value that no action sets, of all that lead to the goal; if each of them is set, the trace
    comes round. One that is not set lies at the trace's end, so there are never two."""
    moves = [action for action in study.actions if in_force(study, action) and action.variable == variable]
    back = {study.goal(variable)}
    while more := {action.pre for action in moves if action.post in back} - back:
        back |= more
    unset = back - {action.post for action in moves}
    assert study.start(variable) not in back and len(unset) < 2, (study, variable)
    return unset.pop() if unset else CAME_ROUND


def values_on_walk(study, walks, variable):
    return {study.start(variable)} | {study.actions[number].post for number in walks[variable]}


def walk_actions(walks):
    return sorted(itertools.chain.from_iterable(walks))


def comes_before(study, walks):
    """All pairs (a, b) of walk actions in which a comes before b by one of the rules."""
    pairs = set()
    for walk in walks:  # (a)
        pairs |= set(zip(walk, walk[1:]))
    for number in walk_actions(walks):
        for v, q in study.actions[number].conditions:
            for other in walks[v]:
                if study.actions[other].post == q:  # (b)
                    pairs.add((other, number))
                if study.actions[other].pre == q:  # (c)
                    pairs.add((number, other))
    return pairs


def closure(pairs, members):
    """By member, as the bits of a number, all that come after it at any remove: the transitive closure."""
    after = {a: 0 for a in members}
    for a, b in pairs:
        after[a] |= 1 << b
    for middle in members:
        for a in members:
            if after[a] >> middle & 1:
                after[a] |= after[middle]
    return after


def on_rings(after):
    """The actions that come, at some remove, before themselves."""
    return {a for a in after if after[a] >> a & 1}


def free_of_rings(after):
    """The actions that are on no ring and come, at any remove, after no ring."""
    rings = on_rings(after)
    return {a for a in after if a not in rings and not any(after[ring] >> a & 1 for ring in rings)}


def off_walk_condition(study, walks):
    """The lowest walk action with a condition off its variable's walk, and its lowest such variable; or None."""
    for number in walk_actions(walks):
        for v, q in sorted(study.actions[number].conditions):
            if q not in values_on_walk(study, walks, v):
                return number, v
    return None


def least_ranks_first(after, ranks):
    """Again and again the action of least rank among those all of whose predecessors are done. No definition of document
    01 says so; that it gives the first plan in dictionary order is tested where every list can be tried."""
    steps = []
    left = set(after)
    while left:
        waiting = 0
        for a in left:
            waiting |= after[a]
        ready = [a for a in left if not waiting >> a & 1]
        steps.append(min(ready, key=lambda a: ranks[a]))
        left.remove(steps[-1])
    return tuple(steps)


# ---------------------------------------------------------------------------------------------------------------------
# Planning


def planned_by_walks(study, ranks):
    """The plan by walks and 'comes before'; raises Refused with 10, 11 or 12."""
    walks = [walk_of(study, v) for v in range(len(study.counts))]
    if None in walks:
        lowest = walks.index(None)
        raise Refused(10, lowest, where_it_breaks(study, lowest))
    off = off_walk_condition(study, walks)
    if off:
        raise Refused(11, *off)
    after = closure(comes_before(study, walks), walk_actions(walks))
    if on_rings(after):
        raise Refused(12, len(free_of_rings(after)))
    return least_ranks_first(after, ranks)


def planned(study, ranks, lists_to_try=LISTS_TO_TRY):
    """The plan; raises Refused with 10, 11 or 12. In a study that is small enough every list is tried, and both ways have
    to agree: the first straight plan in dictionary order, or a refusal exactly if there is no straight plan."""
    try:
        plans = straight_plans(study, lists_to_try)
    except TooMany:
        return planned_by_walks(study, ranks)
    try:
        by_walks = planned_by_walks(study, ranks)
    except Refused as refused:
        assert not plans, f"{refused.numbers}, but {plans[0]} is a straight plan of {study}"
        raise
    assert plans, f"{by_walks} is said to be a straight plan of {study}, which has none"
    assert len({len(steps) for steps in plans}) == 1, f"straight plans of unequal length: {study}"
    first = first_in_dictionary_order(plans, ranks)
    assert by_walks == first, f"{by_walks} is said to be first, but {first} is: {study}"
    return first


def test_ranks(ranks, count):
    """Raises Refused with 9, the length first."""
    if len(ranks) != count:
        raise Refused(9, len(ranks), 1)
    for index, rank in enumerate(ranks):
        if rank >= count or rank in ranks[:index]:
            raise Refused(9, index)


# ---------------------------------------------------------------------------------------------------------------------
# The calls


def next_number(last):
    return 16807 * last % 2147483647


def drawn(seed, count):
    """The rank list and the generator's last number."""
    ranks, last = list(range(count)), seed
    for i in range(count - 1, 0, -1):
        last = next_number(last)
        j = last % (i + 1)
        ranks[i], ranks[j] = ranks[j], ranks[i]
    return ranks, last


def filled(buffer, entries):
    """The buffer with its first bytes filled; raises Refused with 13 if it is too short."""
    if len(buffer) < len(entries):
        raise Refused(13, len(entries))
    return bytes(entries) + buffer[len(entries) :]


def check(file):
    try:
        roster = read(file)
    except Refused as refused:
        return refused.numbers, b""
    return (0, len(roster.actions), len(roster.counts)), b""


def plan(file, crew, ranks, buffer):
    try:
        study = heard(file, crew)
        test_ranks(ranks, len(study.actions))
        steps = planned(study, ranks)
        return (0, len(steps), 0), filled(buffer, steps)
    except Refused as refused:
        return refused.numbers, buffer


def plan_seeded(file, crew, buffer):
    try:
        study = heard(file, crew)
        ranks, _ = drawn(study.seed, len(study.actions))
        steps = planned(study, ranks)
        return (0, len(steps), 0), filled(buffer, steps)
    except Refused as refused:
        return refused.numbers, buffer


def failing_variable(state, action):
    """Why an action may not be done: its own variable if pre fails, else the lowest variable whose condition fails."""
    if state[action.variable] != action.pre:
        return action.variable
    return min(v for v, q in action.conditions if state[v] != q)


def end_state(study, steps):
    """The state after all steps, which is the goal; raises Refused with 14 to 17, or 20."""
    state = start_state(study)
    held = set(enumerate(state))
    for index, number in enumerate(steps):
        if number >= len(study.actions):
            raise Refused(14, index)
        action = study.actions[number]
        if not in_force(study, action):
            raise Refused(20, index)
        if not may_be_done(state, action):
            raise Refused(15, index, failing_variable(state, action))
        state = done(state, action)
        if (action.variable, action.post) in held:
            raise Refused(16, index, action.variable)
        held.add((action.variable, action.post))
    for v, goal in enumerate(goal_state(study)):
        if state[v] != goal:
            raise Refused(17, v)
    return state


def run(file, crew, steps, buffer):
    try:
        study = heard(file, crew)
        filled(buffer, bytes(len(study.counts)))  # 13 comes before the steps
        return (0, len(study.counts), 0), filled(buffer, end_state(study, steps))
    except Refused as refused:
        return refused.numbers, buffer


def draw(seed, count, buffer):
    try:
        if not 1 <= seed <= LARGEST_SEED:
            raise Refused(18, seed)
        if count > MOST_ACTIONS:
            raise Refused(19, count)
        ranks, last = drawn(seed, count)
        return (0, last, 0), filled(buffer, ranks)
    except Refused as refused:
        return refused.numbers, buffer


# What stands for each number of an entry that is cut short, and of a condition or task that is announced and not lent.
# Conditions that no action takes are those of one more action, all of whose numbers are this; so are all that an action that
# is cut short finds left. Tasks and crews likewise: the seed is then four such bytes.
UNLENT = 255
UNLENT_SEED = 0xFFFFFFFF


def entries_in(data, width):
    """The entries of a list of bytes, so many numbers each."""
    entries = [tuple(data[at : at + width]) for at in range(0, len(data), width)]
    return [entry if len(entry) == width else (UNLENT,) * width for entry in entries]


def lent_actions(actions, conditions):
    """The actions, each with its conditions, that two lists of bytes stand for."""
    left = entries_in(conditions, 2)
    lent = []
    for at in range(0, len(actions), 5):
        entry = actions[at : at + 5]
        variable, pre, post, situations, many = entry if len(entry) == 5 else (UNLENT, UNLENT, UNLENT, ALWAYS, len(left))
        missing = [(UNLENT, UNLENT)] * (many - len(left))
        lent.append(Action(variable, pre, post, left[:many] + missing, situations))
        left = left[many:]
    return lent + [Action(UNLENT, UNLENT, UNLENT, left)] * bool(left)


def lent_crews(crews, tasks):
    """The crews that two lists of bytes stand for: each the tasks, with the variables that they name, and the seed."""
    left = entries_in(tasks, 3)
    lent = []
    for at in range(0, len(crews), 5):
        entry = crews[at : at + 5]
        many, seed = (entry[0], int.from_bytes(entry[1:], "big")) if len(entry) == 5 else (len(left), UNLENT_SEED)
        missing = [(UNLENT,) * 3] * (many - len(left))
        lent.append((left[:many] + missing, seed))
        left = left[many:]
    return lent + [(left, UNLENT_SEED)] * bool(left)


def file_of_lists(situation, variables, actions, conditions, crews, tasks):
    """The bytes that the lists stand for: the records one after another in the file's order. Nothing is tested."""
    records = situation_records(situation) + [bytes([VARIABLE, count]) for count in variables]
    records += [record for action in lent_actions(actions, conditions) for record in action_records(action)]
    for number, (errands, seed) in enumerate(lent_crews(crews, tasks)):
        records += opening_records(number) + [bytes([TASK, *errand]) for errand in errands] + [seed_record(seed)]
    return b"".join(records) + bytes([END])


def write(situation, variables, actions, conditions, crews, tasks, buffer):
    """Refused exactly as the reader refuses the bytes; then 13."""
    file = file_of_lists(situation, variables, actions, conditions, crews, tasks)
    try:
        read(file)
        return (0, len(file), 0), filled(buffer, file)
    except Refused as refused:
        return refused.numbers, buffer


COUNTED_REFUSALS = [10, 11, 12]  # in the order in which planning tests them


def figures(study, outcomes):
    """The report's figures: outcomes are plans, as tuples, or the numbers of refusals."""
    plans = [outcome for outcome in outcomes if isinstance(outcome, tuple)]
    counts = [len(plans), *map(outcomes.count, COUNTED_REFUSALS), len(set(plans))]
    for position in range(len(plans[0]) if plans else 0):
        for number in range(len(study.actions)):
            counts.append(sum(plan[position] == number for plan in plans))
    return counts


def outcome_of_seed(study, seed):
    try:
        return tuple(planned(study, drawn(seed, len(study.actions))[0]))
    except Refused as refused:
        return refused.numbers[0]


def report(file, crew, first, count, buffer):
    try:
        study = heard(file, crew)
        if not 1 <= count <= MOST_SEEDS:
            raise Refused(19, count)
        seeds = range(first, first + count)
        for seed in seeds:
            if not 1 <= seed <= LARGEST_SEED:
                raise Refused(18, seed)
        counts = figures(study, [outcome_of_seed(study, seed) for seed in seeds])
        return (0, len(counts), 0), filled(buffer, counts)
    except Refused as refused:
        return refused.numbers, buffer


def pairs_in(data):
    """The pairs that bytes stand for, two each; a lone last byte pairs its action with itself."""
    return [(data[at], data[min(at + 1, len(data) - 1)]) for at in range(0, len(data), 2)]


def usable(study, number):
    return number < len(study.actions) and in_force(study, study.actions[number])


def amiss(walks, actions):
    """The actions that repeat in the list, are missing in it or are on no walk."""
    on_walks = set(walk_actions(walks))
    return {a for a in actions if actions.count(a) > 1 or a not in on_walks} | on_walks - set(actions)


def judge_chart(study, actions, pairs):
    """Raises Refused with 10 to 12, 19, 14 or 25 to 28."""
    planned(study, range(len(study.actions)))
    if len(actions) > MOST_ACTIONS:
        raise Refused(19, len(actions))
    if len(pairs) > MOST_PAIRS:
        raise Refused(19, len(pairs))
    for index, number in enumerate(actions):
        if not usable(study, number):
            raise Refused(14, index)
    walks = [walk_of(study, v) for v in range(len(study.counts))]
    if amiss(walks, actions):
        raise Refused(25, min(amiss(walks, actions)))
    for index, (a, b) in enumerate(pairs):
        if a == b or a not in actions or b not in actions:
            raise Refused(26, index)
    after = closure(pairs, actions)
    if on_rings(after):
        raise Refused(27, 0)
    for a, b in sorted(comes_before(study, walks)):
        if not after[a] >> b & 1:
            raise Refused(28, a, b)


def stands_before(a, b, order):
    return a in order and b in order[order.index(a) + 1 :]


def is_straight(study, steps):
    try:
        end_state(study, steps)
    except Refused:
        return False
    return True


def accepted(study, actions, pairs):
    """By trying every order of the list: some order keeps all pairs, and every one that does is a straight plan."""
    some = False
    for order in set(itertools.permutations(actions)):
        if all(stands_before(a, b, order) for a, b in set(pairs)):
            if not is_straight(study, order):
                return False
            some = True
    return some


def judged_chart(study, actions, pairs, actions_to_try=ACTIONS_TO_TRY):
    """The three numbers. Of a small chart within the limits every order is tried: it has to be accepted exactly if the number is 0."""
    numbers = 0, len(actions), len(pairs)
    try:
        judge_chart(study, actions, pairs)
    except Refused as refused:
        numbers = refused.numbers
    if numbers[0] != 19 and len(actions) <= actions_to_try:
        assert (numbers[0] == 0) == accepted(study, actions, pairs), f"{numbers} for {actions}, {pairs} of {study}"
    return numbers


def chart(file, crew, actions, pairs):
    try:
        study = heard(file, crew)
    except Refused as refused:
        return refused.numbers, b""
    return judged_chart(study, list(actions), pairs_in(pairs)), b""


def value_waited_for(state, action):
    """The variable and the value that an action which may not be done waits for."""
    variable = failing_variable(state, action)
    return variable, action.pre if variable == action.variable else dict(action.conditions)[variable]


@dataclass
class Occupant:
    """Somebody whose access log is replayed."""

    state: tuple
    waits_for: tuple = None  # a variable and a value, or None: idle
    ticks: int = 0  # all steps' sum
    done: int = 0
    held: int = 0

    def meets(self, action, step):
        """An event moves the occupant on."""
        self.ticks += step
        if may_be_done(self.state, action):
            self.state, self.waits_for, self.done = done(self.state, action), None, self.done + 1
        else:
            self.waits_for, self.held = value_waited_for(self.state, action), self.held + 1

    def record(self):
        """Its 40 bytes."""
        waiting = (0, 0, 0) if self.waits_for is None else (1, *self.waits_for)
        return bytes(self.state).ljust(STATE_ROOM, b"\0") + self.ticks.to_bytes(4, "little") + bytes([*waiting, 0])


def replayed(study, log):
    """The occupant after all events; raises Refused with 2, 1, 19, 14, 20 or 23."""
    occupant, last = Occupant(start_state(study)), None
    for at in range(0, len(log), EVENT_LENGTH):
        kind, *body = log[at : at + EVENT_LENGTH]
        if kind != EVENT:
            raise Refused(2, at)
        if len(body) < EVENT_LENGTH - 1:
            raise Refused(1, at)
        if occupant.done + occupant.held == MOST_EVENTS:
            raise Refused(19, at)
        high, low, number = body
        if number >= len(study.actions):
            raise Refused(14, at)
        if not in_force(study, study.actions[number]):
            raise Refused(20, at)
        tick = 256 * high + low
        step = 0 if last is None else (tick - last) % ROUND
        if step >= WENT_BACK:
            raise Refused(23, at)
        occupant.meets(study.actions[number], step)
        last = tick
    return occupant


def replay(file, crew, log, occupant):
    try:
        found = replayed(heard(file, crew), log)
        return (0, found.done, found.held), found.record()
    except Refused as refused:
        return refused.numbers, occupant
def ride_by_action(study, data, start):
    """Where the ride of each action that has one begins and ends; raises Refused with 5 for the start floor, then ride by ride with 1,
    14, 5, 6 or 7."""
    if start > HIGHEST_FLOOR:
        raise Refused(5, len(data) // RIDE_LENGTH)
    rides = {}
    for index, at in enumerate(range(0, len(data), RIDE_LENGTH)):
        ride = data[at : at + RIDE_LENGTH]
        if len(ride) < RIDE_LENGTH:
            raise Refused(1, index)
        action, begins, ends = ride
        if action >= len(study.actions):
            raise Refused(14, index)
        if begins > HIGHEST_FLOOR or ends > HIGHEST_FLOOR:
            raise Refused(5, index)
        if begins == ends:
            raise Refused(6, index)
        if action in rides:
            raise Refused(7, index)
        rides[action] = begins, ends
    return rides


def journeys_made(steps, rides, floor):
    """The journeys of the steps in turn, of a person who begins on a floor: (step, from, to)."""
    made = []
    for step, action in enumerate(steps):
        if action in rides:
            begins, ends = rides[action]
            if floor != begins:
                made.append((step, floor, begins))
            made.append((step, begins, ends))
            floor = ends
    return made


def journeys(file, crew, ranks, rides, start, buffer):
    try:
        study = heard(file, crew)
        test_ranks(ranks, len(study.actions))
        steps = planned(study, ranks)
        made = journeys_made(steps, ride_by_action(study, rides, start), start)
        return (0, len(made), 0), filled(buffer, [number for journey in made for number in journey])
    except Refused as refused:
        return refused.numbers, buffer


CALLS = {
    "record_at": record_at,
    "check": check,
    "plan": plan,
    "plan_seeded": plan_seeded,
    "run": run,
    "draw": draw,
    "write": write,
    "report": report,
    "chart": chart,
    "replay": replay,
    "journeys": journeys,
}


def answer(name, inputs):
    """What a call answers: its numbers and its buffer afterwards."""
    return CALLS[name](*inputs)


def printed_for(file, crew):
    """A crew's plan or refusal."""
    numbers, buffer = plan_seeded(file, crew, bytes(MOST_ACTIONS))
    if numbers[0]:
        return "refused %d %d %d\n" % numbers
    study = heard(file, crew)
    lines = [f"plan {numbers[1]}\n"]
    for step, number in enumerate(buffer[: numbers[1]]):
        action = study.actions[number]
        lines.append(f"{step} {number} {action.variable} {action.pre} {action.post}\n")
    return "".join(lines)


def printed(standard_input):
    """What the program prints, which reads one byte more than the longest file allowed: each crew in turn, or the one line of a
    file that does not load."""
    file = standard_input[: LONGEST_FILE + 1]
    try:
        crews = len(read(file).crews)
    except Refused as refused:
        return "refused %d %d %d\n" % refused.numbers
    return "".join(printed_for(file, crew) for crew in range(crews))


# ---------------------------------------------------------------------------------------------------------------------
# Files from rosters, and from studies of one crew. Nothing is tested: they may be faulty.


def situation_records(situation):
    return [bytes([SITUATION, situation])] if situation else []


def action_records(action):
    return (
        [bytes([ACTION, action.variable, action.pre, action.post])]
        + [bytes([CONDITION, v, q]) for v, q in action.conditions]
        + ([] if action.situations == ALWAYS else [bytes([SITUATIONS, action.situations])])
    )


def seed_record(seed):
    return bytes([SEED]) + seed.to_bytes(4, "big")


def opening_records(number):
    """What opens the crew of a number: nothing opens the first."""
    return [bytes([CREW])] if number else []


def crew_records(number, crew):
    tasks = [bytes([TASK, v, start, goal]) for v, (start, goal) in enumerate(crew.tasks)]
    return opening_records(number) + tasks + [seed_record(crew.seed)]


def records_of(roster):
    return (
        situation_records(roster.situation)
        + [bytes([VARIABLE, count]) for count in roster.counts]
        + [record for action in roster.actions for record in action_records(action)]
        + [record for number, crew in enumerate(roster.crews) for record in crew_records(number, crew)]
        + [bytes([END])]
    )


def file_of(roster):
    return b"".join(records_of(roster))


def lists_of(roster):
    """What `write` is given to write the roster: situation, variables, actions, conditions, crews, tasks."""
    return (
        roster.situation,
        bytes(roster.counts),
        bytes(byte for a in roster.actions for byte in (a.variable, a.pre, a.post, a.situations, len(a.conditions))),
        bytes(byte for a in roster.actions for condition in a.conditions for byte in condition),
        b"".join(bytes([len(crew.tasks)]) + crew.seed.to_bytes(4, "big") for crew in roster.crews),
        bytes(byte for crew in roster.crews for v, (start, goal) in enumerate(crew.tasks) for byte in (v, start, goal)),
    )


# ---------------------------------------------------------------------------------------------------------------------
# Random studies that load. Each generator takes a random.Random and answers a Study.


def some_seed(rng):
    return rng.choice([1, 2, LARGEST_SEED, rng.randint(1, LARGEST_SEED), rng.randint(1, LARGEST_SEED)])


def some_conditions(rng, state, own, share):
    """Conditions that hold in a state, on each variable but the own one with probability share."""
    return [(v, q) for v, q in enumerate(state) if v != own and rng.random() < share]


def walking_actions(rng, rows, share):
    """One action for each step of each row of values, with conditions that hold in one common order of all steps."""
    order = [v for v, row in enumerate(rows) for _ in row[1:]]
    rng.shuffle(order)
    at = [0] * len(rows)
    actions = []
    for v in order:
        state = [row[i] for row, i in zip(rows, at)]
        actions.append(Action(v, rows[v][at[v]], rows[v][at[v] + 1], some_conditions(rng, state, v, share)))
        at[v] += 1
    return actions


def other_actions(rng, counts, taken, share, chance):
    """Actions that set values that none sets yet, from anywhere and with any conditions."""
    actions = []
    for v, count in enumerate(counts):
        for post in range(count):
            if (v, post) not in taken and rng.random() < chance:
                pre = rng.choice([q for q in range(count) if q != post])
                state = [rng.randrange(n) for n in counts]
                actions.append(Action(v, pre, post, some_conditions(rng, state, v, share)))
    return actions


def solvable(rng, most_variables=4, most_values=4, fewest_variables=1):
    """A study with a straight plan, and actions beside it."""
    counts = [rng.randint(2, most_values) for _ in range(rng.randint(fewest_variables, most_variables))]
    rows = [rng.sample(range(count), rng.randint(rng.choice([1, 2]), count)) for count in counts]
    share = rng.choice([0, 0.2, 0.3, 0.5, 0.8, 1])
    actions = walking_actions(rng, rows, share)
    taken = {(action.variable, action.post) for action in actions}
    actions += other_actions(rng, counts, taken, rng.choice([0, 0.3, 1]), rng.choice([0, 0.3, 0.8]))
    rng.shuffle(actions)
    return Study(counts, actions, [(row[0], row[-1]) for row in rows], some_seed(rng))


def solvable_with_steps(rng, fewest=2):
    """A solvable study whose plan has some steps."""
    while True:
        study = solvable(rng, fewest_variables=2)
        walks = [walk_of(study, v) for v in range(len(study.counts))]
        if len(walk_actions(walks)) >= fewest:
            return study, walks


def without_walk(rng):
    """10: a walk action is missing, or begins at a value that the walk reaches only later."""
    study, walks = solvable_with_steps(rng)
    walk = rng.choice([walk for walk in walks if walk])
    number = rng.choice(walk)
    later = [study.actions[a].post for a in walk[walk.index(number) + 1 :]]
    if later and rng.random() < 0.6:
        study.actions[number].pre = rng.choice(later)
    else:
        del study.actions[number]
    return study


def off_walk(rng):
    """11: some walk actions want values that are on no walk."""
    study, walks = solvable_with_steps(rng)
    for _ in range(rng.randint(1, 3)):
        action = study.actions[rng.choice(walk_actions(walks))]
        v = rng.choice([v for v in range(len(study.counts)) if v != action.variable])
        off = sorted(set(range(study.counts[v])) - values_on_walk(study, walks, v))
        if not off:
            off = [study.counts[v]]
            study.counts[v] += 1
        action.conditions = sorted({**dict(action.conditions), v: rng.choice(off)}.items())
    return study


def with_ring(rng, study, walks):
    """Some walk actions of several variables, each made to want the value that the next one sets, or leaves."""
    moving = [walk for walk in walks if walk]
    circle = [rng.choice(walk) for walk in rng.sample(moving, rng.randint(2, len(moving)))]
    wanted = rng.choice(["pre", "post"])
    for number, other in zip(circle, circle[1:] + circle[:1]):
        action, following = study.actions[number], study.actions[other]
        conditions = {**dict(action.conditions), following.variable: getattr(following, wanted)}
        action.conditions = sorted(conditions.items())


def with_free_action(rng, study):
    """One more variable with one more action, somewhere among the others."""
    study.counts.append(2)
    study.actions.insert(rng.randint(0, len(study.actions)), Action(len(study.counts) - 1, 0, 1))
    study.tasks.append((0, 1))


def ringed(rng, most_variables=4, most_values=4):
    """Mostly 12: conditions on walks, but in no common order; with free actions or not."""
    study = solvable(rng, most_variables, most_values, 2)
    walks = [walk_of(study, v) for v in range(len(study.counts))]
    share = rng.choice([0, 0.2, 0.4, 0.7])
    for number in walk_actions(walks):
        state = [rng.choice(sorted(values_on_walk(study, walks, v))) for v in range(len(study.counts))]
        action = study.actions[number]
        action.conditions = some_conditions(rng, state, action.variable, share)
    if sum(bool(walk) for walk in walks) > 1 and rng.random() < 0.6:
        with_ring(rng, study, walks)
    if rng.random() < 0.4:
        with_free_action(rng, study)
    return study


def anything(rng):
    """Any small study that loads."""
    counts = [rng.randint(2, 4) for _ in range(rng.randint(1, 4))]
    actions = other_actions(rng, counts, set(), rng.choice([0, 0.2, 0.6]), rng.choice([0.3, 0.7, 1]))
    rng.shuffle(actions)
    tasks = [(rng.randrange(count), rng.randrange(count)) for count in counts]
    return Study(counts, actions, tasks, some_seed(rng))


def each_used(rng, study):
    """The study with every variable used: one that is not is named by a condition that holds all the time, or changed by an action
    that leads to its start or away from start and goal, in force or not."""
    for v in unused(study):
        others = [action for action in study.actions if action.variable != v]
        if others and rng.random() < 0.6:
            action = rng.choice(others)
            action.conditions = sorted([*action.conditions, (v, study.start(v))])
        else:
            post = rng.choice([q for q in range(study.counts[v]) if q != study.goal(v)] + [study.start(v)])
            pre = rng.choice([q for q in range(study.counts[v]) if q != post])
            situations = some_set(rng, study.situation, False) if rng.random() < 0.3 else ALWAYS
            study.actions.insert(rng.randint(0, len(study.actions)), Action(v, pre, post, [], situations))
    return study


def some_set(rng, situation, inside):
    """A set of situations that has this one, or not; it may be any such set."""
    bit = 1 << situation
    others = rng.choice([0, ALWAYS, rng.randrange(256), 1 << rng.randrange(8)])
    return others | bit if inside else others & ~bit


def out_of_force_beside(rng, study, action):
    """An action that sets what this one sets, or what it leaves, and is out of force."""
    post = rng.choice([action.post, action.post, action.pre])
    pre = rng.choice([q for q in range(study.counts[action.variable]) if q != post])
    situations = some_set(rng, study.situation, False)
    return Action(action.variable, pre, post, rng.choice([[], action.conditions]), situations)


def in_a_situation(rng, study):
    """The study in some situation: what it says is the same, but its actions have sets, and others are out of force."""
    study.situation = rng.choice([0, 0, 1, 7, rng.randint(1, MOST_SITUATION)])
    share = rng.choice([0, 0.3, 1])
    for action in study.actions:
        if rng.random() < share:
            action.situations = some_set(rng, study.situation, True)
    for action in rng.sample(study.actions, min(len(study.actions), rng.randint(0, 3), MOST_ACTIONS - len(study.actions))):
        study.actions.insert(rng.randint(0, len(study.actions)), out_of_force_beside(rng, study, action))
    if study.actions and rng.random() < 0.2:  # one that the plan may need
        rng.choice(study.actions).situations = some_set(rng, study.situation, False)
    return study


def middling(rng):
    """Too large to try every list: some 20 to 60 steps."""
    study = each_used(rng, rng.choice([solvable, solvable, ringed])(rng, 12, 9))
    return in_a_situation(rng, study) if rng.random() < 0.5 else study


def small_study(rng):
    kinds = [solvable, without_walk, off_walk, ringed, anything]
    study = each_used(rng, rng.choices(kinds, [5, 1, 1, 3, 2])[0](rng))
    return in_a_situation(rng, study) if rng.random() < 0.5 else study


# ---------------------------------------------------------------------------------------------------------------------
# Crews beside a study's own. Each has tasks of its own for the same actions.

CREWS_NOT_THERE = [1, 2, 8, 255, 256, 2**32, 2**64 - 1]


def tasks_done_at_random(rng, study):
    """To where some actions lead that may be done one after another, from the study's start or another."""
    start = rng.choice([start_state(study), tuple(rng.randrange(count) for count in study.counts)])
    state = start
    for _ in range(rng.randint(1, 8)):
        ready = [action for action in study.actions if in_force(study, action) and may_be_done(state, action)]
        state = done(state, rng.choice(ready)) if ready else state
    return list(zip(start, state))


def other_tasks(rng, study):
    """Any; those of a way that can be gone; the study's own, some of them changed, turned round, at rest, or the same."""
    way = rng.randrange(7)
    if way == 0:
        return [(rng.randrange(count), rng.randrange(count)) for count in study.counts]
    if way < 3:
        return tasks_done_at_random(rng, study)
    if way == 3:
        return [(start, goal if rng.random() < 0.7 else start) for start, goal in study.tasks]
    if way == 4:
        return [(goal, start) for start, goal in study.tasks]
    if way == 5:
        return [(goal, goal) for _, goal in study.tasks]
    return list(study.tasks)


def crewed(rng, study, many=None):
    """A roster in which the study's crew stands among others, and its number there."""
    many = many or rng.choice([1, 1, 2, 2, 3, rng.randint(1, MOST_CREWS)])
    number = rng.randrange(many)
    crews = [Crew(other_tasks(rng, study), some_seed(rng)) for _ in range(many - 1)]
    crews.insert(number, Crew(list(study.tasks), study.seed))
    return Roster(study.counts, study.actions, crews, study.situation), number


def named(rng, number, many):
    """The crew that a call names: mostly the one of this number, now and then another one of so many, or one that is not there."""
    way = rng.random()
    if way < 0.85:
        return number
    if way < 0.93:
        return rng.randrange(many)
    return rng.choice([many, many, 2**32 + number, 256 + number, *CREWS_NOT_THERE])


def placed(rng, study, many=None):
    """A file with the study's crew, and the crew that a call names."""
    roster, number = crewed(rng, study, many)
    return file_of(roster), named(rng, number, len(roster.crews))


def small_roster(rng):
    return crewed(rng, small_study(rng))[0]


# ---------------------------------------------------------------------------------------------------------------------
# Studies at the limits


def study_of_rows(rng, counts, rows, share):
    actions = walking_actions(rng, rows, share)
    rng.shuffle(actions)
    return Study(counts, actions, [(row[0], row[-1]) for row in rows], some_seed(rng))


def longest(rng):
    """26,482 bytes with eight crews: a situation, and 256 actions, each with 31 conditions and its set, all of them in the one
    straight plan."""
    rows = [rng.sample(range(16), 9) for _ in range(32)]
    study = study_of_rows(rng, [16] * 32, rows, 1)
    study.situation = rng.randint(1, MOST_SITUATION)
    for action in study.actions:
        action.situations = 1 << study.situation | rng.choice([0, 1])
    return study


def longest_with_ring(rng):
    """As long, and one condition changed to another value of its walk."""
    study = longest(rng)
    action = rng.choice(study.actions)
    index = rng.randrange(31)
    v, q = action.conditions[index]
    walk = walk_of(study, v)
    values = sorted({study.start(v), *(study.actions[a].post for a in walk)} - {q})
    action.conditions[index] = (v, rng.choice(values))
    return study


def longest_off_walk(rng):
    """As long, and some conditions changed to values on no walk."""
    study = longest(rng)
    for action in rng.sample(study.actions, rng.randint(1, 3)):
        index = rng.randrange(31)
        v, _ = action.conditions[index]
        set_values = {a.post for a in study.actions if a.variable == v} | {study.start(v)}
        action.conditions[index] = (v, rng.choice(sorted(set(range(16)) - set_values)))
    return study


def longest_without_walk(rng):
    """As long, and one goal that no action sets."""
    study = longest(rng)
    v = rng.randrange(32)
    set_values = {a.post for a in study.actions if a.variable == v} | {study.start(v)}
    study.tasks[v] = (study.start(v), rng.choice(sorted(set(range(16)) - set_values)))
    return study


def longest_at_rest(rng):
    """As long, and start and goal agree: the empty plan."""
    study = longest(rng)
    study.tasks = [(goal, goal) for _, goal in study.tasks]
    return study


def most_steps(rng):
    """A plan of 256 steps in 18 variables of 16 values, with few conditions."""
    rows = [rng.sample(range(16), 16) for _ in range(17)] + [[0, 1]]
    return study_of_rows(rng, [16] * 18, rows, rng.choice([0, 0.05, 0.2]))


def most_variables(rng):
    """32 variables, and a walk of up to 15 steps now and then."""
    counts = [rng.choice([2, 16]) for _ in range(32)]
    rows = [rng.sample(range(n), rng.choice([1, 2, n if rng.random() < 0.3 else 1])) for n in counts]
    return each_used(rng, study_of_rows(rng, counts, rows, rng.choice([0, 0.1, 1])))


def whole_circles(rng):
    """16 variables of 16 values, each value set: 256 actions, walks of any length round the circle."""
    actions = []
    for v in range(16):
        circle = rng.sample(range(16), 16)
        actions += [Action(v, circle[i - 1], circle[i]) for i in range(16)]
    rng.shuffle(actions)
    tasks = [(rng.randrange(16), rng.randrange(16)) for _ in range(16)]
    return Study([16] * 16, actions, tasks, some_seed(rng))


def one_action_each(rng):
    """32 variables of 2 values, one action with 31 conditions each."""
    return study_of_rows(rng, [2] * 32, [[0, 1]] * 32, 1)


LARGE = [
    longest,
    longest_with_ring,
    longest_off_walk,
    longest_without_walk,
    longest_at_rest,
    most_steps,
    most_steps,
    most_variables,
    whole_circles,
    one_action_each,
]


def large_study(rng):
    return rng.choice(LARGE)(rng)


def placed_large(rng, study):
    return placed(rng, study, rng.choice([None, MOST_CREWS]))


# ---------------------------------------------------------------------------------------------------------------------
# Damaged files. Each generator takes a random.Random and answers bytes that mostly do not load.

TELLING = [0, 1, 2, 3, 4, 5, 6, 7, 8, 9, 10, 15, 16, 17, 31, 32, 33, 127, 128, 255]
BAD_SEEDS = [0, 2147483647, 2147483648, 4294967295]


def some_byte(rng):
    return rng.choice(TELLING) if rng.random() < 0.8 else rng.randrange(256)


def with_byte_changed(rng, file):
    at = rng.randrange(len(file))
    byte = rng.choice([some_byte(rng), (file[at] + 1) % 256, (file[at] - 1) % 256])
    return file[:at] + bytes([byte]) + file[at + 1 :]


def with_byte_inserted(rng, file):
    at = rng.randint(0, len(file))
    return file[:at] + bytes([some_byte(rng)]) + file[at:]


def with_byte_removed(rng, file):
    at = rng.randrange(len(file))
    return file[:at] + file[at + 1 :]


def cut(rng, file):
    return file[: rng.randint(0, len(file) - 1)]


def grown(rng, file):
    return file + bytes(some_byte(rng) for _ in range(rng.choice([1, 1, 2, 5, 40])))


BYTE_DAMAGE = [with_byte_changed, with_byte_changed, with_byte_inserted, with_byte_removed, cut, grown]


def telling_record(rng, roster):
    """A record of any kind whose numbers are near those that the roster has."""
    kinds = [VARIABLE, ACTION, ACTION, ACTION, CONDITION, CONDITION, CONDITION, TASK, TASK, SEED, END]
    kind = rng.choice(kinds + [SITUATIONS, SITUATIONS, SITUATIONS, SITUATION, CREW, CREW])
    if kind == SEED:
        return bytes([kind]) + rng.choice(BAD_SEEDS + [1, LARGEST_SEED]).to_bytes(4, "big")
    variables = len(roster.counts)
    near = [0, 1, 2, 3, variables - 1, variables, *roster.counts, some_byte(rng)]
    if kind in (SITUATIONS, SITUATION):
        near = [0, 1, 7, 8, 254, ALWAYS, some_byte(rng)]
    return bytes([kind] + [rng.choice(near) for _ in range(BODY_LENGTH[kind])])


def with_records_damaged(rng, roster):
    """A record put in, put in another's place, left out, doubled, or exchanged with another; perhaps the rest cut off."""
    records = records_of(roster)
    at = rng.randrange(len(records))
    way = rng.randrange(6)
    if way == 0:
        records.insert(at, telling_record(rng, roster))
    elif way == 1:
        records[at] = telling_record(rng, roster)
    elif way == 2:
        del records[at]
    elif way == 3:
        records.insert(rng.randint(0, len(records)), records[at])
    elif way == 4:
        other = rng.randrange(len(records))
        records[at], records[other] = records[other], records[at]
    else:
        records[at:] = [telling_record(rng, roster)]
        records[at] = records[at][: rng.randint(1, len(records[at]))]
    return b"".join(records)


def give_named_fault(rng, roster):
    """One of the faults that documents name: in values, order of conditions, own variable, repeated post, situation, or some
    crew's task or seed; or some variables that nobody uses; or a ninth crew."""
    way = rng.randrange(11)
    crew = rng.choice(roster.crews)
    if way == 10:
        roster.crews += [Crew(list(crew.tasks), crew.seed) for _ in range(MOST_CREWS + 1 - len(roster.crews))]
        roster.crews[-1].seed = rng.choice([crew.seed, 0])
    elif way == 9:
        for v in rng.sample(range(len(roster.counts)), rng.randint(1, min(2, len(roster.counts)))):
            roster.actions = [action for action in roster.actions if action.variable != v]
            for action in roster.actions:
                action.conditions = [condition for condition in action.conditions if condition[0] != v]
    elif way == 8:
        roster.situation = rng.choice([8, 9, 128, 255])
    elif way == 0:
        crew.seed = rng.choice(BAD_SEEDS)
    elif way == 1:
        roster.counts[rng.randrange(len(roster.counts))] = rng.choice([0, 1, 17, 255])
    elif way == 2:
        crew.tasks = rng.choice([crew.tasks[:-1], crew.tasks + [(0, 0)], []])
    elif way == 3:
        v = rng.randrange(len(roster.counts))
        crew.tasks[v] = rng.choice([(roster.counts[v], 0), (0, roster.counts[v])])
    elif roster.actions:
        action = rng.choice(roster.actions)
        if way == 4:
            action.conditions.reverse()
        elif way == 5:
            action.conditions.append((action.variable, rng.choice([action.pre, roster.counts[action.variable]])))
        elif way == 6:
            situations = rng.choice([action.situations, ALWAYS, rng.randrange(256)])
            twin = replace(action, pre=rng.randrange(roster.counts[action.variable]), conditions=[], situations=situations)
            roster.actions.insert(rng.randint(0, len(roster.actions)), twin)
        else:
            action.pre = rng.choice([action.post, roster.counts[action.variable]])


def with_named_fault(rng, roster):
    give_named_fault(rng, roster)
    return file_of(roster)


def with_ninth_crew(rng):
    """Eight crews and one more: alone, faulty or not; or what may not come behind the eighth's seed."""
    roster, _ = crewed(rng, rng.choice([small_study, one_action_each])(rng), MOST_CREWS)
    eight = b"".join(records_of(roster)[:-1])
    ninth = b"".join(crew_records(1, rng.choice(roster.crews)))
    return eight + rng.choice([b"\x09", ninth, ninth + b"\x06", b"\x09\x09", b"\x09\x06", b"\x09\x04\x01", b"\x04", b"\x05", b""])


def beyond_limits(rng):
    """A 33rd variable, a 257th action or a ninth crew, whole or cut, faulty otherwise or not; or a longest file with a byte more."""
    way = rng.randrange(5)
    if way == 4:
        return with_ninth_crew(rng)
    if way == 0:
        head = bytes([VARIABLE, 2]) * 32
        return head + rng.choice([b"\x01", b"\x01\x00", b"\x01\x02", b"\x01\x11", b"\x04\x00\x00", b"\x07", b""])
    if way == 1:
        study = whole_circles(rng)
        records = records_of(replace(study, counts=study.counts + [2], tasks=study.tasks + [(0, 1)]))
        more = rng.choice([[16, 0, 1], [0, 0, 1], [17, 0, 1], [16, 1, 1], [16, 2, 0], [16, 0], []])
        rest = records[17 + 256 :] if len(more) == 3 else []
        return b"".join(records[: 17 + 256]) + bytes([ACTION, *more]) + b"".join(rest)
    if way == 2:
        study = one_action_each(rng)
        action = rng.choice(study.actions)
        action.conditions.append(rng.choice([(31, 1), (32, 0), (action.variable, 1), (0, 2)]))
        return file_of(study)
    return file_of(crewed(rng, longest(rng), MOST_CREWS)[0]) + bytes([some_byte(rng)])


def damaged_file(rng):
    way = rng.random()
    if way < 0.02:
        return bytes(some_byte(rng) for _ in range(rng.randint(0, 12)))
    if way < 0.4:
        file = file_of(small_roster(rng))
        for _ in range(rng.choice([1, 1, 2])):
            file = rng.choice(BYTE_DAMAGE)(rng, file) if file else file
        return file
    if way < 0.75:
        return with_records_damaged(rng, small_roster(rng))
    return with_named_fault(rng, small_roster(rng))


def some_crew(rng):
    """The crew that a call on a damaged file names."""
    return named(rng, rng.choice([0, 0, 1]), 3)


# ---------------------------------------------------------------------------------------------------------------------
# Other inputs: buffers, rank lists, lists to run, seeds and counts


def some_buffer(rng, needed):
    """A buffer of any bytes: too short, just long enough, longer."""
    length = rng.choice([needed, needed, needed + 1, needed + rng.randint(2, 9), 256, 300, max(needed - 1, 0), 0])
    return rng.randbytes(length)


def room_enough(rng, needed):
    return rng.randbytes(needed + rng.choice([0, 0, 1, 4, 20]))


def rank_list(rng, count):
    ranks = list(range(count))
    way = rng.random()
    if way < 0.1:
        ranks.reverse()
    elif way < 0.9:
        rng.shuffle(ranks)
    return bytes(ranks)


def bad_rank_list(rng, count):
    """Of wrong length, with an entry that is too large, with an entry repeated, or with several of these."""
    ranks = list(rank_list(rng, count))
    way = rng.randrange(4)
    if way == 0 or not ranks:
        length = rng.choice([0, max(count - 1, 0), count + 1, count + 2, 255, 256, 257, 300])
        return bytes((ranks + [rng.randrange(256) for _ in range(300)])[:length])
    for _ in range(rng.choice([1, 1, 2])):
        index = rng.randrange(count)
        ranks[index] = rng.choice([rng.randrange(count), min(count, 255), 255])
    if way == 1:
        ranks.append(rng.randrange(256))
    return bytes(ranks)


def steps_that_run(rng, study):
    """A straight plan if there is one, else nothing."""
    try:
        return list(planned_by_walks(study, rank_list(rng, len(study.actions))))
    except Refused:
        return []


def steps_at_random(rng, study):
    """Actions that may be done one after another, whether a value was held before or not; perhaps, at the end, one that
    only its conditions bar."""
    state = start_state(study)
    steps = []
    for _ in range(rng.randint(0, 8)):
        ready = [number for number, a in enumerate(study.actions) if in_force(study, a) and may_be_done(state, a)]
        if not ready:
            break
        steps.append(rng.choice(ready))
        state = done(state, study.actions[steps[-1]])
    if rng.random() < 0.1:
        steps += [number for number, a in enumerate(study.actions) if not in_force(study, a)][:1]
    barred = [number for number, a in enumerate(study.actions) if state[a.variable] == a.pre and not may_be_done(state, a)]
    if barred and rng.random() < 0.4:
        steps.append(rng.choice(barred))
    return steps


def some_steps(rng, study):
    """A list to run: a straight plan, a part of one, one with changes, a list at random."""
    count = len(study.actions)
    steps = steps_that_run(rng, study)
    way = rng.randrange(10)
    if way < 3:
        return bytes(steps)
    if way < 4:
        return bytes(steps[: rng.randint(0, len(steps))])
    if way < 7:
        steps = steps_at_random(rng, study)
    entry = rng.choice([rng.randrange(count + 1), min(count, 255), 255, rng.randrange(256)])
    change = rng.randrange(5)
    if change == 0:
        steps.insert(rng.randint(0, len(steps)), min(entry, 255))
    elif change == 1 and steps:
        steps[rng.randrange(len(steps))] = min(entry, 255)
    elif change == 2 and len(steps) > 1:
        rng.shuffle(steps)
    elif change == 3:
        steps += steps
    return bytes(steps)


DRAW_SEEDS = [0, 1, 2, LARGEST_SEED, 2147483647, 2**32, 2**64 - 1]
DRAW_COUNTS = [0, 1, 2, 255, 256, 257, 2**64 - 1]


def draw_edges():
    """Seeds, counts and buffer lengths at every edge."""
    edges = []
    for seed, count in itertools.product(DRAW_SEEDS, DRAW_COUNTS):
        lengths = {0, 300} | ({count - 1, count, count + 1} if 1 <= count <= 257 else set())
        edges += [(seed, count, length) for length in sorted(lengths)]
    return edges


# ---------------------------------------------------------------------------------------------------------------------
# Calls


def call_on(rng, name, study, file, crew):
    """A call on a file; the study is what its other inputs are made for."""
    count, variables = len(study.actions), len(study.counts)
    if name == "record_at":
        inside = rng.randint(0, max(len(file) - 1, 0))
        edges = [0, max(len(file) - 1, 0), len(file), len(file) + rng.randint(1, 3), 2**32, 2**64 - 1]
        return name, (file, inside if rng.random() < 0.7 else rng.choice(edges))
    if name == "check":
        return name, (file,)
    if name == "plan":
        ranks = bad_rank_list(rng, count) if rng.random() < 0.2 else rank_list(rng, count)
        needed = len(steps_that_run(rng, study))
        return name, (file, crew, ranks, rng.choice([some_buffer, room_enough])(rng, needed))
    if name == "plan_seeded":
        needed = len(steps_that_run(rng, study))
        return name, (file, crew, rng.choice([some_buffer, room_enough])(rng, needed))
    buffer = room_enough(rng, variables) if rng.random() < 0.85 else some_buffer(rng, variables)
    return name, (file, crew, some_steps(rng, study), buffer)


def call_on_small(rng):
    study = small_study(rng)
    name = rng.choices(["record_at", "check", "plan", "plan_seeded", "run"], [1, 1, 5, 2, 4])[0]
    return call_on(rng, name, study, *placed(rng, study))


def call_on_middling(rng):
    study = middling(rng)
    name = rng.choice(["check", "plan", "plan", "plan_seeded", "run"])
    return call_on(rng, name, study, *placed(rng, study))


def call_on_large(rng):
    study = large_study(rng)
    name = rng.choice(["record_at", "check", "plan", "plan", "plan_seeded", "plan_seeded", "run", "run"])
    return call_on(rng, name, study, *placed_large(rng, study))


def call_on_damaged(rng):
    """The other inputs are for a study that is often not the file's, so that they are faulty too."""
    name = rng.choices(["record_at", "check", "plan", "plan_seeded", "run"], [3, 8, 1, 1, 1])[0]
    return call_on(rng, name, small_study(rng), damaged_file(rng), some_crew(rng))


def call_beyond_limits(rng):
    name = rng.choices(["record_at", "check", "plan", "plan_seeded", "run"], [1, 6, 2, 2, 2])[0]
    return call_on(rng, name, small_study(rng), beyond_limits(rng), some_crew(rng))


def call_draw(rng, edges):
    if rng.random() < 0.6:
        seed, count, length = next(edges)
        return "draw", (seed, count, rng.randbytes(length))
    seed = rng.choice([rng.randint(1, LARGEST_SEED), rng.randrange(2**64), rng.choice(DRAW_SEEDS)])
    count = rng.choice([rng.randint(0, 12), rng.randint(0, 260), rng.randrange(2**64)])
    return "draw", (seed, count, some_buffer(rng, min(count, 260)))


def calls(seed, n):
    """Yields n calls as (name, inputs), of all kinds, the same for the same seed and n. Of 1,000 calls some 8 are on files
    at the limits. Every edge of draw_edges() is met within some 4,000 calls."""
    rng = random.Random(seed)
    edges = itertools.cycle(draw_edges())
    makers = [
        (520, call_on_small),
        (25, call_on_middling),
        (8, call_on_large),
        (325, call_on_damaged),
        (12, call_beyond_limits),
        (110, lambda rng: call_draw(rng, edges)),
    ]
    weights = [weight for weight, _ in makers]
    for _ in range(n):
        _, maker = rng.choices(makers, weights)[0]
        yield maker(rng)


# ---------------------------------------------------------------------------------------------------------------------
# Writes


def write_of(rng, lists):
    """A write, into a buffer that is as long as the file that the lists stand for, longer or shorter."""
    needed = len(file_of_lists(*lists))
    length = rng.choice([needed, needed, needed + 1, needed + rng.randint(2, 40), needed - 1, rng.randint(0, needed), 0])
    return "write", (*lists, rng.randbytes(length))


def lists_that_load(rng):
    return lists_of(crewed(rng, rng.choices([small_study, middling], [20, 1])[0](rng))[0])


def lists_with_named_fault(rng):
    roster = small_roster(rng)
    give_named_fault(rng, roster)
    return lists_of(roster)


def with_list_damaged(rng, lists, which, damages):
    lists = list(lists)
    lists[which] = rng.choice(damages)(rng, lists[which]) if lists[which] else bytes([some_byte(rng)])
    return tuple(lists)


def damaged_lists(rng):
    """Bytes of one or two lists changed, put in or left out: entries that are cut, conditions or tasks missing or left over."""
    lists = lists_of(small_roster(rng))
    for _ in range(rng.choice([1, 1, 2])):
        lists = with_list_damaged(rng, lists, rng.randrange(1, 6), BYTE_DAMAGE)
    return lists


def cut_lists(rng):
    """A last entry that is cut, or conditions or tasks left over or missing, and no other fault."""
    lists = lists_of(small_roster(rng))
    which = rng.randrange(2, 6)
    return with_list_damaged(rng, lists, which, [cut, lambda rng, data: data + data[: rng.randint(1, len(data))]])


def lists_with_many(rng):
    """An action that announces more conditions than there are variables, whether they are lent or not."""
    situation, variables, actions, conditions, crews, tasks = lists_of(small_roster(rng))
    at = rng.randint(0, len(actions) // 5) * 5
    many = rng.choice([1, 31, 32, 33, 254, 255])
    lent = rng.choice([0, 2 * many - 1, 2 * many, 2 * many + 2])
    more = bytes(rng.randrange(3) for _ in range(lent))
    entry = bytes([rng.randrange(len(variables)), 0, 1, rng.choice([0, 1, ALWAYS]), many])
    return situation, variables, actions[:at] + entry + actions[at:], conditions + more, crews, tasks


def lists_with_many_tasks(rng):
    """A crew that announces more tasks than there are variables, or fewer, whether they are lent or not; or one crew more."""
    situation, variables, actions, conditions, crews, tasks = lists_of(small_roster(rng))
    at = rng.randrange(len(crews) // 5) * 5
    many = rng.choice([0, len(variables) - 1, len(variables), len(variables) + 1, 32, 33, 254, 255])
    more = rng.choice([b"", tasks[: 3 * many], tasks[: 3 * len(variables)], tasks[:1]])
    entry = bytes([many]) + crews[at + 1 : at + 5]
    return situation, variables, actions, conditions, crews[:at] + entry + crews[at + rng.choice([0, 5]) :], tasks + more


def lists_without(rng):
    """Some lists empty."""
    lists = list(lists_of(small_roster(rng)))
    for which in rng.sample(range(1, 6), rng.randint(1, 5)):
        lists[which] = b""
    return tuple(lists)


def lists_at_limits(rng):
    return lists_of(crewed(rng, large_study(rng), rng.choice([None, MOST_CREWS]))[0])


def lists_with_ninth_crew(rng):
    """Eight crews and one more: whole, faulty, cut, or none but its tasks."""
    situation, variables, actions, conditions, crews, tasks = lists_of(crewed(rng, small_study(rng), MOST_CREWS)[0])
    entry, own = crews[:5], tasks[: 3 * len(variables)]
    entry = rng.choice([entry, entry[:1] + bytes(4), b"\0" + entry[1:], entry[: rng.randint(0, 4)]])
    return situation, variables, actions, conditions, crews + entry, tasks + rng.choice([own, own, own[:-1], b""])


def lists_beyond_limits(rng):
    """A 33rd variable, a 257th action, conditions left over behind the 256th, a 32nd condition, a ninth crew; faulty otherwise
    or not."""
    way = rng.randrange(5)
    if way == 4:
        return lists_with_ninth_crew(rng)
    if way == 0:
        study = most_variables(rng)
        study.counts.append(rng.choice([0, 2, 16, 17]))
        return lists_of(study)
    study = whole_circles(rng) if way < 3 else one_action_each(rng)
    if way == 1:
        study.counts.append(2)
        study.tasks.append((0, 1))
        study.actions.append(Action(*rng.choice([(16, 0, 1), (0, 0, 1), (17, 0, 1), (16, 1, 1)])))
    if way == 3:
        action = rng.choice(study.actions)
        action.conditions.append(rng.choice([(31, 1), (32, 0), (action.variable, 1), (0, 2)]))
    situation, variables, actions, conditions, crews, tasks = lists_of(study)
    if way == 2:
        cut_or_left = rng.choice([(b"\0", b""), (b"\0\0\1\1", b"\0\0"), (b"", b"\0"), (b"", b"\0\0")])
        return situation, variables, actions + cut_or_left[0], conditions + cut_or_left[1], crews, tasks
    return situation, variables, actions, conditions, crews, tasks


def any_lists(rng):
    """Bytes of any kind."""
    most = rng.choice([4, 12, 300])
    lists = (bytes(some_byte(rng) for _ in range(rng.randint(0, most))) for _ in range(5))
    return rng.choice([0, some_byte(rng)]), *lists


def writes(seed, n):
    """Yields n writes, the same for the same seed and n: lists that load, lists at and beyond the limits, faults of each kind."""
    rng = random.Random(seed)
    makers = [
        (300, lists_that_load),
        (250, lists_with_named_fault),
        (200, damaged_lists),
        (100, cut_lists),
        (60, lists_with_many),
        (60, lists_with_many_tasks),
        (30, lists_without),
        (12, lists_at_limits),
        (20, lists_beyond_limits),
        (30, any_lists),
    ]
    weights = [weight for weight, _ in makers]
    for _ in range(n):
        _, maker = rng.choices(makers, weights)[0]
        yield write_of(rng, maker(rng))


# ---------------------------------------------------------------------------------------------------------------------
# Reports


def some_seeds(rng):
    """A first seed and a count: at the edges now and then, and out of range."""
    count = rng.choice([1, 1, 2, 3, 5, 8, 16, 63, 64] if rng.random() < 0.9 else [0, 65, 2**32, 2**64 - 1])
    if rng.random() < 0.85:
        return rng.choice([1, rng.randint(1, LARGEST_SEED - 64)]), count
    return rng.choice([0, 2**31, 2**64 - 1, LARGEST_SEED, LARGEST_SEED - min(count, 64) + rng.choice([0, 1, 2])]), count


def report_on(rng, study, file, crew, first, count):
    try:
        length = 5 + len(planned_by_walks(study, range(len(study.actions)))) * len(study.actions)
    except Refused:
        length = 5
    return "report", (file, crew, first, count, rng.choice([some_buffer, room_enough])(rng, length))


def report_on_small(rng):
    study = small_study(rng)
    return report_on(rng, study, *placed(rng, study), *some_seeds(rng))


def report_on_larger(rng):
    """Few seeds, since each is planned by definitions."""
    study = rng.choices([middling, large_study], [3, 1])[0](rng)
    return report_on(rng, study, *placed_large(rng, study), rng.randint(1, LARGEST_SEED - 64), rng.randint(1, 3))


def with_an_action_again(rng):
    study, _ = solvable_with_steps(rng)
    study.actions.append(rng.choice(study.actions))
    return file_of(crewed(rng, study)[0])


def with_a_dead_variable(rng):
    study = small_study(rng)
    study.counts.append(2)
    study.tasks.append((0, rng.randrange(2)))
    return file_of(crewed(rng, study)[0])


def file_that_does_not_load(rng):
    """Mostly."""
    makers = [damaged_file, beyond_limits, with_an_action_again, with_a_dead_variable]
    return rng.choices(makers, [7, 1, 1, 1])[0](rng)


def report_on_damaged(rng):
    file = file_that_does_not_load(rng)
    return report_on(rng, small_study(rng), file, some_crew(rng), *some_seeds(rng))


def reports(seed, n):
    """Yields n reports, the same for the same seed and n."""
    rng = random.Random(seed)
    for _ in range(n):
        yield rng.choices([report_on_small, report_on_larger, report_on_damaged], [75, 3, 22])[0](rng)


# ---------------------------------------------------------------------------------------------------------------------
# Charts


@dataclass
class Draft:
    """A chart in the making: its study, an order that is a straight plan (any list, if there is none), its actions and pairs. Each
    function from here to FAULTS takes a random.Random and a draft and alters it; where that cannot be, it leaves it."""

    study: Study
    order: list
    actions: list
    pairs: list


def own_draft(rng, study):
    """The walk actions and all direct orders; of a study without a plan some actions as a chain."""
    count = len(study.actions)
    try:
        order = list(planned_by_walks(study, rank_list(rng, count)))
    except Refused:
        order = rng.sample(range(count), rng.randint(0, count))
        return Draft(study, order, sorted(order), list(zip(order, order[1:])))
    walks = [walk_of(study, v) for v in range(len(study.counts))]
    return Draft(study, order, sorted(order), sorted(comes_before(study, walks)))


def keep_as_it_is(rng, draft):
    pass


def take_the_order(rng, draft):
    draft.pairs = list(zip(draft.order, draft.order[1:]))


def put_chain_for_pair(rng, draft):
    """In place of some pairs, two by way of an action between."""
    at = {number: index for index, number in enumerate(draft.order)}
    for _ in range(rng.choice([1, 1, 2, 4])):
        apart = [index for index, (a, b) in enumerate(draft.pairs) if at[b] - at[a] > 1]
        if apart:
            a, b = draft.pairs.pop(rng.choice(apart))
            middle = draft.order[rng.randrange(at[a] + 1, at[b])]
            draft.pairs += [(a, middle), (middle, b)]


def drop_needless_pairs(rng, draft):
    for pair in rng.sample(draft.pairs, min(len(draft.pairs), 40)):
        others = [other for other in draft.pairs if other != pair]
        if closure(others, draft.actions)[pair[0]] >> pair[1] & 1:
            draft.pairs = others


def add_pairs_along(rng, draft):
    if len(draft.order) > 1:
        for _ in range(rng.randint(1, 6)):
            i, j = sorted(rng.sample(range(len(draft.order)), 2))
            draft.pairs.append((draft.order[i], draft.order[j]))


def repeat_pairs(rng, draft):
    if draft.pairs:
        draft.pairs += rng.choices(draft.pairs, k=rng.randint(1, 4))


def shuffle_lists(rng, draft):
    rng.shuffle(draft.actions)
    rng.shuffle(draft.pairs)


def leave_pairs_out(rng, draft):
    for _ in range(min(len(draft.pairs), rng.choice([1, 1, 1, 2, 3]))):
        del draft.pairs[rng.randrange(len(draft.pairs))]


def leave_out_a_leaver(rng, draft):
    """A pair of rule (c): who wants a value, before who leaves it."""
    actions = draft.study.actions
    named = [pair for pair in draft.pairs if max(pair) < len(actions)]
    leaving = [(a, b) for a, b in named if (actions[b].variable, actions[b].pre) in actions[a].conditions]
    if leaving:
        draft.pairs.remove(rng.choice(leaving))


def turn_pairs_round(rng, draft):
    for _ in range(min(len(draft.pairs), rng.choice([1, 1, 2]))):
        index = rng.randrange(len(draft.pairs))
        turned = draft.pairs[index][::-1]
        if rng.random() < 0.5:
            draft.pairs[index] = turned
        else:
            draft.pairs.append(turned)


def add_any_pairs(rng, draft):
    for _ in range(rng.choice([1, 1, 2]) if draft.actions else 0):
        draft.pairs.append((rng.choice(draft.actions), rng.choice(draft.actions)))


def leave_entries_out(rng, draft):
    for _ in range(min(len(draft.actions), rng.choice([1, 1, 2]))):
        del draft.actions[rng.randrange(len(draft.actions))]


def put_entry_in(rng, draft):
    """An entry repeats, or is any action, or one out of force, or none; perhaps in another's place."""
    count = len(draft.study.actions)
    barred = [number for number in range(count) if not usable(draft.study, number)]
    entry = rng.choice([min(count, 255), 255, rng.randrange(256)])
    if rng.random() < 0.8:
        entry = rng.choice(rng.choice([draft.actions, range(count), barred]) or [min(count, 255)])
    at = rng.randint(0, len(draft.actions))
    draft.actions[at : at + rng.choice([0, 0, 1])] = [entry]


def put_pair_in(rng, draft):
    """A pair with an action that is not listed, with itself, with a number that is no action."""
    count = len(draft.study.actions)
    this = rng.choice(draft.actions or [0])
    that = rng.choice([this, min(count, 255), rng.randrange(256), rng.randint(0, min(count, 255))])
    draft.pairs.insert(rng.randint(0, len(draft.pairs)), rng.choice([(this, that), (that, this)]))


WAYS = [keep_as_it_is, keep_as_it_is, take_the_order, put_chain_for_pair, drop_needless_pairs]
MORE = [add_pairs_along, repeat_pairs, shuffle_lists]
FAULTS = [leave_pairs_out, leave_pairs_out, leave_out_a_leaver, leave_out_a_leaver, turn_pairs_round, add_any_pairs]
FAULTS += [leave_entries_out, put_entry_in, put_entry_in, put_pair_in]


def altered(rng, draft):
    rng.choice(WAYS)(rng, draft)
    for more in rng.sample(MORE, rng.randint(0, 3)):
        more(rng, draft)
    for _ in range(rng.choice([0, 1, 1, 2]) if rng.random() < 0.75 else 0):
        rng.choice(FAULTS)(rng, draft)
    return draft


def chart_of(rng, draft, file, crew):
    """The call, now and then with a lone last byte."""
    pairs = bytes(byte for pair in draft.pairs for byte in pair)
    if rng.random() < 0.06:
        pairs = pairs[:-1] if rng.random() < 0.5 else pairs + bytes([rng.choice(draft.actions or [0])])
    return "chart", (file, crew, bytes(draft.actions), pairs)


def with_several_plans(rng):
    """Few steps, and few conditions."""
    while True:
        study = each_used(rng, solvable(rng, 4, 3, 2))
        steps = sum(len(walk_of(study, v)) for v in range(len(study.counts)))
        if 2 <= steps <= ACTIONS_TO_TRY:
            return in_a_situation(rng, study) if rng.random() < 0.3 else study


def chart_on_small(rng):
    study = rng.choices([small_study, with_several_plans], [1, 2])[0](rng)
    return chart_of(rng, altered(rng, own_draft(rng, study)), *placed(rng, study))


def chart_at_rest(rng):
    """Start and goal agree, and the empty chart is accepted."""
    study = small_study(rng)
    study.tasks = [(start, start) for start, _ in study.tasks]
    draft = own_draft(rng, study)
    return chart_of(rng, rng.choice([keep_as_it_is, altered])(rng, draft) or draft, *placed(rng, study))


def filled_up(rng, entries, spare, length):
    """The entries with as many more, shuffled in, as make up the length."""
    entries = (entries + [rng.choice(spare) for _ in range(length - len(entries))])[:length]
    rng.shuffle(entries)
    return entries


def chart_at_limits(rng):
    """On any study: 256 actions or 257; 4,096 pairs or 4,097, all along the order, the last of them lone or not."""
    study = rng.choices([large_study, most_steps, longest, with_several_plans], [2, 3, 3, 1])[0](rng)
    draft = own_draft(rng, study)
    way = rng.randrange(5)
    if way == 0 or len(draft.order) < 2:
        spare = draft.actions or [0]
        draft.actions = filled_up(rng, draft.actions, spare, rng.choice([255, 256, 257, 257, 300]))
        return chart_of(rng, draft, *placed_large(rng, study))
    take_the_order(rng, draft)
    along = [(draft.order[i], b) for i in range(len(draft.order)) for b in draft.order[i + 1 :]]
    draft.pairs = filled_up(rng, draft.pairs, along, rng.choice([len(draft.pairs), 4095, 4096, 4096, 4097]))
    if way > 2:
        rng.choice(FAULTS)(rng, draft)
    return chart_of(rng, draft, *placed_large(rng, study))


def chart_on_middling(rng):
    study = rng.choices([middling, large_study], [4, 1])[0](rng)
    draft = own_draft(rng, study)
    for change in rng.sample([take_the_order, shuffle_lists, rng.choice(FAULTS)], rng.randint(0, 3)):
        change(rng, draft)
    return chart_of(rng, draft, *placed_large(rng, study))


def chart_on_damaged(rng):
    file = file_that_does_not_load(rng)
    return chart_of(rng, altered(rng, own_draft(rng, small_study(rng))), file, some_crew(rng))


def charts(seed, n):
    """Yields n charts, the same for the same seed and n."""
    rng = random.Random(seed)
    makers = [chart_on_small, chart_at_rest, chart_on_middling, chart_at_limits, chart_on_damaged]
    for _ in range(n):
        yield rng.choices(makers, [800, 20, 20, 20, 140])[0](rng)


# ---------------------------------------------------------------------------------------------------------------------
# Replays


def event(tick, action):
    return bytes([EVENT, tick % ROUND // 256, tick % 256, action])


STEPS = [0, 1, 255, 256, 257, 32766, 32767]  # the longest that does not go back among them


def some_step(rng):
    return rng.choice(STEPS) if rng.random() < 0.4 else rng.randrange(WENT_BACK)


def some_action(rng, study, state):
    """Mostly one in force: often one that may be done, or one that its own variable allows."""
    usables = [number for number in range(len(study.actions)) if usable(study, number)]
    there = [number for number in usables if state[study.actions[number].variable] == study.actions[number].pre]
    ready = [number for number in there if may_be_done(state, study.actions[number])]
    barred = [number for number in there if number not in ready]
    return rng.choice(rng.choices([ready, barred, usables], [6, 3, 2])[0] or usables or [0])


def some_events(rng, study, many):
    """Events as (tick, action), of which a part is held; the ticks roll over now and then, or at each event."""
    state, tick, events = start_state(study), rng.randrange(ROUND), []
    long_steps = rng.random() < 0.1
    for _ in range(many):
        number = some_action(rng, study, state)
        events.append((tick, number))
        if usable(study, number) and may_be_done(state, study.actions[number]):
            state = done(state, study.actions[number])
        tick = (tick + (WENT_BACK - 1 if long_steps else some_step(rng))) % ROUND
    return events


def planned_events(rng, study):
    """A straight plan if there is one, now and then done twice: of the second time a part may be held."""
    tick, events = rng.randrange(ROUND), []
    for number in steps_that_run(rng, study) * rng.choice([1, 1, 2]):
        events.append((tick, number))
        tick = (tick + some_step(rng)) % ROUND
    return events


def log_of(events):
    return b"".join(event(*one) for one in events)


def other_kind(rng, one, study):
    return bytes([rng.choice([0, 1, 2, 6, 15, 17, 255, rng.randrange(256)])]) + one[1:]


def action_not_there(rng, one, study):
    return one[:3] + bytes([rng.choice([min(len(study.actions), 255), 255, rng.randrange(256)])])


def action_out_of_force(rng, one, study):
    barred = [number for number in range(len(study.actions)) if not usable(study, number)]
    return one[:3] + bytes([rng.choice(barred)]) if barred else one


def another_tick(rng, one, study):
    """It may go back: the tick is half a round away, or just not, or anywhere."""
    away = rng.choice([WENT_BACK, WENT_BACK - 1, WENT_BACK + 1, ROUND - 1, rng.randrange(ROUND)])
    return event(256 * one[1] + one[2] + away, one[3])


LOG_FAULTS = [other_kind, action_not_there, action_not_there, action_out_of_force, action_out_of_force, another_tick, another_tick]


def damaged_log(rng, log, study):
    """One or two faults in one event, now and then in two; or the log is cut, or has bytes behind it, or another byte anywhere."""
    for _ in range(rng.choice([1, 1, 1, 2])):
        at = EVENT_LENGTH * rng.randrange(len(log) // EVENT_LENGTH) if len(log) >= EVENT_LENGTH else 0
        one = log[at : at + EVENT_LENGTH]
        for fault in rng.sample(LOG_FAULTS, rng.choice([1, 1, 2, 3])) if len(one) == EVENT_LENGTH else []:
            one = fault(rng, one, study)
        log = log[:at] + one + log[at + EVENT_LENGTH :]
    way = rng.random()
    if way < 0.2:
        return log[: rng.randint(0, len(log))]
    if way < 0.3:
        return log + rng.choice([bytes([EVENT]), b"\0", bytes([EVENT, 0, 0]), rng.randbytes(rng.randint(1, 5))])
    return rng.choice(BYTE_DAMAGE)(rng, log) if log and way < 0.4 else log


def replay_of(rng, study, log, file, crew):
    if rng.random() < 0.4:
        log = damaged_log(rng, log, study)
    return "replay", (file, crew, log, rng.randbytes(OCCUPANT_LENGTH))


def some_log(rng, study):
    planned = planned_events(rng, study) if rng.random() < 0.25 else []
    return log_of(planned or some_events(rng, study, rng.choice([0, 1, 2, 3, rng.randint(4, 12), rng.randint(4, 40)])))


def replay_on_small(rng):
    study = small_study(rng)
    return replay_of(rng, study, some_log(rng, study), *placed(rng, study))


def replay_on_middling(rng):
    study = rng.choices([middling, large_study], [4, 1])[0](rng)
    return replay_of(rng, study, some_log(rng, study), *placed_large(rng, study))


def replay_at_limits(rng):
    """16,383 to 16,386 events, of which the last may be at fault, cut or of another kind; the sum may be the largest."""
    study = rng.choices([small_study, large_study], [3, 1])[0](rng)
    many = rng.choice([MOST_EVENTS - 1, MOST_EVENTS, MOST_EVENTS, MOST_EVENTS + 1, MOST_EVENTS + 1, MOST_EVENTS + 2])
    some = some_events(rng, study, rng.randint(1, 60))
    step = rng.choice([0, 1, 4097, WENT_BACK - 1])
    log = log_of((step * index, some[index % len(some)][1]) for index in range(many))
    if rng.random() < 0.5:
        last = log[-EVENT_LENGTH:]
        last = rng.choice([last[: rng.randint(1, 3)], *(fault(rng, last, study) for fault in LOG_FAULTS)])
        log = log[:-EVENT_LENGTH] + last
    return "replay", (*placed_large(rng, study), log, rng.randbytes(OCCUPANT_LENGTH))


def replay_of_any_bytes(rng):
    """Any bytes as a log, some of them with kinds that are right."""
    study = small_study(rng)
    log = bytearray(rng.randbytes(rng.randint(0, 40)))
    if rng.random() < 0.6:
        log[::EVENT_LENGTH] = bytes([EVENT]) * len(log[::EVENT_LENGTH])
    return "replay", (*placed(rng, study), bytes(log), rng.randbytes(OCCUPANT_LENGTH))


def replay_on_damaged(rng):
    study = small_study(rng)
    return replay_of(rng, study, some_log(rng, study), file_that_does_not_load(rng), some_crew(rng))


def replays(seed, n):
    """Yields n replays, the same for the same seed and n. Of 1,000 some 10 are of logs at the limit."""
    rng = random.Random(seed)
    makers = [replay_on_small, replay_on_middling, replay_at_limits, replay_of_any_bytes, replay_on_damaged]
    for _ in range(n):
        yield rng.choices(makers, [760, 30, 10, 50, 150])[0](rng)
# Journeys


def some_floors(rng):
    """Few, so that a ride often begins where the person is."""
    return rng.sample([0, 1, 2, 3, 7, 100, 198, HIGHEST_FLOOR, rng.randrange(200)], rng.randint(2, 4))


def ride_of(rng, action, floors):
    begins, ends = rng.sample(floors, 2)
    return [action, begins, ends if ends != begins else (begins + 1) % 200]


def rides_for(rng, study, floors):
    """Rides in order: for most of the actions, some or none, in any order."""
    share = rng.choice([0, 0.3, 0.7, 0.7, 1, 1])
    actions = [action for action in range(len(study.actions)) if rng.random() < share]
    rng.shuffle(actions)
    return [ride_of(rng, action, floors) for action in actions]


def put_a_fault(rng, study, rides, floors):
    """A ride, one more or one that is there, breaks a rule."""
    count = len(study.actions)
    if not rides or rng.random() < 0.3:
        rides.insert(rng.randint(0, len(rides)), ride_of(rng, rng.randrange(max(count, 1)), floors))
    ride = rng.choice(rides)
    way = rng.randrange(6)
    if way == 0:
        ride[0] = rng.choice([min(count, 255), 255])
    elif way in (1, 2):
        ride[way] = rng.choice([200, 200, 201, 255])
    elif way == 3:
        ride[2] = ride[1]
    else:
        rides.insert(rng.randint(0, len(rides)), [ride[0], *rng.sample([*floors, 5, 6], 2)])


def some_rides(rng, study, floors):
    """The bytes: in order, with a fault or two, now and then cut short."""
    rides = rides_for(rng, study, floors)
    for _ in range(rng.choice([1, 1, 2, 3]) if rng.random() < 0.35 else 0):
        put_a_fault(rng, study, rides, floors)
    data = bytes(byte for ride in rides for byte in ride)
    if rng.random() < 0.1:
        return data[: -rng.randint(1, 2)] if data else rng.randbytes(rng.randint(1, 2))
    return data


def some_start(rng, floors):
    if rng.random() < 0.92:
        return rng.choice(floors)
    return rng.choice([0, HIGHEST_FLOOR, 200, 200, 255, 256, 256 + rng.choice(floors), 2**32, 2**64 - 1])


def travel_on(rng, study, file, crew):
    """A call; the buffer is for what is made of the study's plan, if anything is."""
    count, floors = len(study.actions), some_floors(rng)
    ranks = bad_rank_list(rng, count) if rng.random() < 0.06 else rank_list(rng, count)
    rides, start = some_rides(rng, study, floors), some_start(rng, floors)
    try:
        needed = RIDE_LENGTH * len(journeys_made(planned_by_walks(study, ranks), ride_by_action(study, rides, start), start))
    except (Refused, IndexError):
        needed = rng.choice([0, 3, 30])
    return "journeys", (file, crew, ranks, rides, start, rng.choice([some_buffer, room_enough, room_enough])(rng, needed))


def travel_on_small(rng):
    study = rng.choices([small_study, with_several_plans], [1, 2])[0](rng)
    return travel_on(rng, study, *placed(rng, study))


def travel_on_larger(rng):
    study = rng.choices([middling, large_study, most_steps], [3, 1, 1])[0](rng)
    return travel_on(rng, study, *placed_large(rng, study))


def travel_on_damaged(rng):
    return travel_on(rng, small_study(rng), file_that_does_not_load(rng), some_crew(rng))


def travels(seed, n):
    """Yields n calls of journeys, the same for the same seed and n."""
    rng = random.Random(seed)
    for _ in range(n):
        yield rng.choices([travel_on_small, travel_on_larger, travel_on_damaged], [83, 4, 13])[0](rng)


# ---------------------------------------------------------------------------------------------------------------------
# Self-test

PORTER = bytes.fromhex(
    "01 02 01 03 01 02 02 00 00 01 02 01 00 01 02 01 01 02 03 00 01 03 02 01 02 02 00 01 03 00 01 03 01 01 02 00 01 00"
    " 04 00 00 01 04 01 00 02 04 02 00 01 05 00 00 00 01 06"
)
PORTER_PRINTED = "plan 4\n0 1 1 0 1\n1 0 0 0 1\n2 3 2 0 1\n3 2 1 1 2\n"


def porter(goal, start=(0, 0, 0)):
    """The porter file with another goal, and perhaps another start."""
    return file_of(replace(heard(PORTER, 0), tasks=list(zip(start, goal))))


def porter_crews(*goals):
    """The porter file with a crew for each goal, all with its start and its seed."""
    said = read(PORTER)
    return replace(said, crews=[Crew(list(zip((0, 0, 0), goal)), 1) for goal in goals])


def horse_breeder():
    """Table 1 of source 004, actions numbered from 0: haystack, bucket, water."""
    actions = [
        Action(0, 1, 0),
        Action(0, 0, 1, [(1, 0)]),
        Action(0, 1, 2),
        Action(1, 1, 0),
        Action(1, 0, 1, [(0, 0)]),
        Action(2, 0, 1, [(1, 1)]),
        Action(2, 1, 2, [(1, 1)]),
    ]
    return file_of(Study([3, 2, 3], actions, [(0, 2), (0, 0), (0, 2)], 1))


def two_wanting(value, more=False):
    """Case 13: two variables, each action wanting the other variable at a value; perhaps a free third."""
    actions = [Action(0, 0, 1, [(1, value)]), Action(1, 0, 1, [(0, value)])] + [Action(2, 0, 1)] * more
    variables = 2 + more
    return file_of(Study([2] * variables, actions, [(0, 1)] * variables, 1))


def coming_round():
    """Case 14."""
    return file_of(Study([3], [Action(0, 1, 2), Action(0, 2, 1)], [(0, 2)], 1))


def worked_cases():
    """Document 01's worked cases, 9 and 14 as document 02 has them: (case, name, inputs, numbers, first bytes of the buffer). The buffers hold 170s."""
    room = b"\xaa" * 8
    rising = bytes(range(5))
    bytes_of = lambda *entries: bytes(entries)
    in_order = bytes_of(0, 1, 3, 2)
    yield 1, "draw", (1, 3, room), (0, 282475249, 0), bytes_of(0, 2, 1)
    yield 2, "draw", (1, 5, room), (0, drawn(1, 5)[1], 0), bytes_of(3, 0, 4, 1, 2)
    yield 3, "plan", (PORTER, 0, rising, room), (0, 4, 0), in_order
    yield 4, "plan", (PORTER, 0, bytes_of(3, 0, 4, 1, 2), room), (0, 4, 0), bytes_of(1, 0, 3, 2)
    yield 4, "plan_seeded", (PORTER, 0, room), (0, 4, 0), bytes_of(1, 0, 3, 2)
    yield 5, "plan", (porter((0, 0, 0)), 0, rising, room), (0, 0, 0), b""
    yield 6, "plan", (porter((0, 2, 1)), 0, rising, room), (11, 2, 0), b""
    yield 7, "plan", (porter((1, 2, 0)), 0, rising, room), (11, 2, 2), b""
    yield 8, "plan", (porter((1, 1, 1)), 0, rising, room), (0, 3, 0), bytes_of(0, 1, 3)
    yield 9, "plan", (porter((1, 0, 1), (0, 2, 0)), 0, rising, room), (10, 1, 0), b""
    yield 10, "plan", (PORTER, 0, rising, room[:3]), (13, 4, 0), b""
    yield 10, "plan", (PORTER, 0, rising, room[:4]), (0, 4, 0), in_order
    yield 11, "plan", (PORTER, 0, bytes_of(0, 1, 1, 3, 4), room), (9, 2, 0), b""
    yield 11, "plan", (PORTER, 0, rising[:4], room), (9, 4, 1), b""
    yield 12, "run", (PORTER, 0, in_order, room), (0, 3, 0), bytes_of(1, 2, 1)
    yield 12, "run", (PORTER, 0, bytes_of(1, 3), room), (15, 1, 0), b""
    yield 12, "run", (PORTER, 0, bytes_of(0, 4), room), (16, 1, 0), b""
    yield 12, "run", (PORTER, 0, b"", room), (17, 0, 0), b""
    yield 13, "plan", (two_wanting(1), 0, bytes_of(0, 1), room), (12, 0, 0), b""
    yield 13, "plan", (two_wanting(0), 0, bytes_of(0, 1), room), (12, 0, 0), b""
    yield 13, "plan", (two_wanting(1, more=True), 0, bytes_of(0, 1, 2), room), (12, 1, 0), b""
    yield 13, "plan", (two_wanting(0, more=True), 0, bytes_of(0, 1, 2), room), (12, 1, 0), b""
    yield 14, "plan", (coming_round(), 0, bytes_of(0, 1), room), (10, 0, 255), b""
    yield 15, "plan", (horse_breeder(), 0, bytes(range(7)), room), (11, 5, 1), b""
    yield 16, "check", (PORTER,), (0, 5, 3), b""
    yield 16, "check", (PORTER[:51] + bytes(4) + PORTER[55:],), (5, 50, 0), b""
    yield 16, "check", (PORTER[:55],), (1, 55, 0), b""
    yield 16, "check", (PORTER[:54],), (1, 50, 0), b""
    yield 16, "check", (PORTER + b"\0",), (8, 56, 0), b""
    yield 17, "draw", (2147483646, 1, room), (0, 2147483646, 0), b"\0"
    yield 17, "draw", (2147483647, 1, room), (18, 2147483647, 0), b""
    yield 17, "draw", (1, 256, bytes(256)), (0, drawn(1, 256)[1], 0), bytes(drawn(1, 256)[0])
    yield 17, "draw", (1, 257, bytes(300)), (19, 257, 0), b""


def worked_writes():
    """Writes worked by hand: the lists, the buffer's length, the three numbers. In hexadecimal: variables, actions, conditions,
    crews and tasks; before them the situation."""
    variables, actions = "020302", "000001ff00 010001ff00 010102ff02 020001ff02 000100ff00"
    conditions, tasks = "0001 0201 0001 0101", "000001 010002 020001"

    def porter_with(v=variables, a=actions, c=conditions, k=None, t=tasks, seed=1, situation=0):
        many = (len(bytes.fromhex(t)) + 2) // 3
        return situation, v, a, c, f"{many:02x}{seed:08x}" if k is None else k, t

    yield porter_with(), 56, (0, 56, 0)
    yield porter_with(), 60, (0, 56, 0)
    yield porter_with(), 55, (13, 56, 0)
    yield porter_with(), 0, (13, 56, 0)
    yield porter_with(seed=LARGEST_SEED), 56, (0, 56, 0)
    # 21: nobody uses a variable
    yield porter_with(a="", c=""), 24, (21, 0, 0)
    yield porter_with(a="000001ff00 020001ff00", c=""), 99, (21, 1, 0)
    yield porter_with(a="000001ff01 020001fe00", c="0102"), 39, (0, 37, 0)
    yield porter_with(a="000001ff00 000100fe02", c="0102 0200"), 99, (0, 40, 0)
    yield porter_with(a="000001ff00 000001ff00", c=""), 99, (7, 10, 0)
    yield porter_with(a="", c="", seed=0), 24, (5, 18, 0)
    for seed in BAD_SEEDS:
        yield porter_with(seed=seed), 0, (5, 50, 0)
    # 3: where a record stands that may not come
    for situation, place in ((0, 0), (7, 2)):
        yield (situation, "", "", "", "", ""), 9, (3, place, 0)
        yield (situation, "", "", "", "0000000001", ""), 9, (3, place, 0)
        yield (situation, "", actions, conditions, "0300000001", tasks), 9, (3, place, 0)
        yield (situation, "", "", "0001", "", ""), 9, (3, place, 0)
        yield (situation, "", "", "", "", tasks), 9, (3, place, 0)
    yield porter_with(t=""), 99, (3, 38, 0)
    yield porter_with(t="000001 010002"), 99, (3, 46, 0)
    yield porter_with(t="000001 010002 020001 030001"), 99, (3, 50, 0)
    yield porter_with(t="000001 010002 020001 02"), 99, (3, 50, 0)
    # 4, 5, 6, 7
    yield (0, "02" * 33, "", "", "", ""), 0, (4, 64, 0)
    yield (1, "02" * 33, "", "", "", ""), 0, (4, 66, 0)
    yield (0, "02" * 32 + "00", "", "", "", ""), 0, (4, 64, 0)
    yield porter_with(situation=8), 56, (5, 0, 0)
    yield (255, "", "", "", "", ""), 0, (5, 0, 0)
    yield porter_with(v="020102"), 56, (5, 2, 0)
    yield porter_with(v="021102"), 56, (5, 2, 0)
    yield porter_with(v="02"), 56, (5, 6, 0)
    yield porter_with(a=actions.replace("010102ff", "010103ff")), 56, (5, 14, 0)
    yield porter_with(c="0001 0201 0001 0103"), 56, (5, 31, 0)
    yield porter_with(c="0001 0301 0001 0101"), 56, (5, 21, 0)
    yield porter_with(t="010002 000001 020001"), 56, (5, 38, 0)
    yield porter_with(t="000001 010003 020001"), 56, (5, 42, 0)
    yield porter_with(a=actions.replace("010102ff", "010101ff")), 56, (6, 14, 0)
    yield porter_with(c="0201 0001 0001 0101"), 56, (6, 21, 0)
    yield porter_with(c="0001 0101 0001 0101"), 56, (6, 21, 0)
    twice = actions.replace("000100ff", "000001ff")
    yield porter_with(a=twice), 56, (7, 34, 0)
    yield porter_with(a=twice, seed=0), 56, (5, 50, 0)  # 7 is the end record's
    yield porter_with(a=twice, t="000001 010002"), 56, (3, 46, 0)
    # situations: written or not, in force or not
    yield porter_with(situation=3), 58, (0, 58, 0)
    yield porter_with(situation=3), 57, (13, 58, 0)
    yield porter_with(a=actions.replace("ff", "00")), 66, (0, 66, 0)
    yield porter_with(a=actions.replace("ff", "fe")), 66, (0, 66, 0)
    for situation, numbers in ((0, (7, 36, 0)), (1, (0, 60, 0)), (2, (0, 60, 0))):
        yield porter_with(a=twice.replace("000001ff", "00000101", 1), situation=situation), 60, numbers
    apart = "000001fc00 010001ff00 010102ff02 020001ff02 0000010400"
    for situation, numbers in ((0, (0, 60, 0)), (1, (0, 62, 0)), (2, (7, 38, 0))):
        yield porter_with(a=apart, situation=situation), 62, numbers
    # entries that are cut, conditions that are missing, conditions that are left over
    yield porter_with(a=actions + "00"), 56, (5, 38, 0)
    yield porter_with(a=actions[:-2]), 56, (5, 34, 0)
    yield porter_with(c=conditions[:-2]), 56, (5, 31, 0)
    yield porter_with(c="0001 0201 0001"), 56, (5, 31, 0)
    yield porter_with(c=""), 56, (5, 18, 0)
    yield porter_with(c=conditions + "00"), 56, (5, 38, 0)
    yield porter_with(c=conditions + "0001"), 56, (5, 38, 0)
    yield porter_with(a=""), 56, (5, 6, 0)
    yield porter_with(t="000001 010002 0200"), 56, (5, 46, 0)
    yield porter_with(a=actions.replace("000100ff00", "000100ffff")), 56, (5, 38, 0)
    # crews: they take their tasks in turn
    yield porter_with(k="0300000001 037ffffffe", t=tasks + "000100 010000 020101"), 74, (0, 74, 0)
    yield porter_with(k="0300000001 037ffffffe", t=tasks + "000100 010000 020101"), 73, (13, 74, 0)
    yield porter_with(k="0300000001" * 8, t=tasks * 8), 182, (0, 182, 0)
    yield porter_with(k="0300000001" * 9, t=tasks * 9), 182, (4, 181, 0)
    yield porter_with(k="0300000001" * 9, t=tasks * 8), 182, (4, 181, 0)
    yield porter_with(k="0300000001" * 8, t=tasks * 8 + "00"), 182, (4, 181, 0)  # tasks left over are a ninth crew's
    yield porter_with(k="0300000001 0300000000", t=tasks * 2), 74, (5, 68, 0)
    yield porter_with(k="0300000000 0300000001", t=tasks * 2), 74, (5, 50, 0)
    yield porter_with(k="0300000001 0300000001", t=tasks + "000001 010003 020001"), 74, (5, 60, 0)
    yield porter_with(k="0300000001 0200000001", t=tasks * 2), 74, (3, 64, 0)
    yield porter_with(k="0300000001 0400000001", t=tasks * 2), 74, (3, 68, 0)
    yield porter_with(k="0400000001 0200000001", t=tasks * 2), 74, (3, 50, 0)
    yield porter_with(k="0200000001 0400000001", t=tasks * 2), 74, (3, 46, 0)
    # no crew, a crew without tasks, crews that are cut, tasks that are missing, tasks that are left over
    yield porter_with(k="", t=""), 99, (3, 38, 0)
    yield porter_with(k="0000000001", t=""), 99, (3, 38, 0)
    yield porter_with(k="03000000"), 99, (5, 50, 0)  # it takes all tasks, and its seed is out of range
    yield porter_with(k="ff"), 99, (5, 50, 0)
    yield porter_with(k="03", t=""), 99, (3, 38, 0)
    yield porter_with(k=""), 99, (5, 50, 0)
    yield porter_with(k="", t=tasks[:-2]), 99, (5, 46, 0)
    yield porter_with(k="0300000001", t="000001"), 99, (5, 42, 0)
    yield porter_with(k="0300000001", t=""), 99, (5, 38, 0)
    yield porter_with(k="ff00000001"), 99, (3, 50, 0)
    yield porter_with(k="0300000001 0300000001"), 99, (5, 56, 0)
    yield porter_with(k="0300000001 03000000", t=tasks * 2), 99, (5, 68, 0)
    yield porter_with(k="0300000001 03"), 99, (3, 56, 0)
    yield porter_with(k="0300000001", t=tasks * 2), 99, (5, 68, 0)
    yield porter_with(k="0300000001 0000000001"), 99, (3, 56, 0)


def inputs_of_worked_write(lists, length):
    situation, *digits = lists
    return (situation, *map(bytes.fromhex, digits), b"\xaa" * length)


def test_worked_writes():
    cases = list(worked_writes())
    for lists, length, numbers in cases:
        inputs = inputs_of_worked_write(lists, length)
        given, buffer = write(*inputs)
        assert given == numbers, f"write {lists}: {given} and not {numbers}"
        assert numbers[0] == 0 or buffer == inputs[-1]
    assert write(*lists_of(read(PORTER)), bytes(56)) == ((0, 56, 0), PORTER)
    assert write(*lists_of(read(PORTER)), b"\xaa" * 58) == ((0, 56, 0), PORTER + b"\xaa" * 2)
    crowded, seventeen = crowded_with_actions(), bytes([16] * 17)
    setters = bytes(byte for v in range(16) for q in range(16) for byte in (v, (q + 1) % 16, q, ALWAYS, 0))
    assert file_of_lists(0, seventeen, setters, b"", b"", b"")[: len(crowded)] == crowded
    for actions, conditions, number in ((b"\x10\0\1\xff\0", b"", 4), (b"\0", b"", 4), (b"", b"\0\0", 4), (b"", b"", 3)):
        given = write(0, seventeen, setters + actions, conditions, b"", b"", b"")[0]
        assert given == (number, 1058, 0), (actions, conditions, given)
    return f"{len(cases)} writes worked by hand: agreed"


def test_worked_cases():
    met = set()
    for case, name, inputs, numbers, first_bytes in worked_cases():
        buffer = inputs[-1] if name in ("plan", "plan_seeded", "run", "draw") else b""
        expected = numbers, first_bytes + buffer[len(first_bytes) :]
        given = answer(name, inputs)
        assert given == expected, f"case {case}: {name} answers {given} and not {expected}"
        met.add(case)
    assert met == set(range(1, 18))
    assert set(straight_plans(heard(PORTER, 0), 1000)) == {(0, 1, 3, 2), (1, 0, 3, 2)}, "case 4: there is no third plan"
    assert sorted(drawn(1, 256)[0]) == list(range(256))
    last = 1
    for _ in range(10000):
        last = next_number(last)
    assert last == 1043618065, "the 10,000th number from seed 1"
    assert drawn(7, 0) == ([], 7) and drawn(7, 1) == ([0], 7)
    assert len(PORTER) == 56 and check(b"") == ((1, 0, 0), b"")
    assert printed(PORTER) == PORTER_PRINTED
    assert printed(file_of(porter_crews((1, 2, 1), (0, 2, 1), (0, 0, 0)))) == PORTER_PRINTED + "refused 11 2 0\nplan 0\n"
    assert printed(PORTER + bytes(30000)) == "refused 8 56 0\n"
    return "document 01's worked cases 1 to 17, the generator's check number and the porter's print: agreed"


def file_cases():
    """Files worked by hand, in hexadecimal, and what checking them answers: each fault, and which of two comes first."""
    one, two, three_values = "0102", "0102 0102", "0103 0102 0102"
    go = "02000001"  # variable 0 from 0 to 1
    rest = "04000001 04010001 0500000001 06"
    alone = "04000001 0500000001 06"
    crowd = "0102" * 32
    yield "", (1, 0, 0)
    yield "00", (2, 0, 0)
    yield "0a", (2, 0, 0)
    for kind in ("02", "03", "04", "05", "06", "07", "09"):
        yield kind, (3, 0, 0)  # cut, or an end: 3 comes before 1
    yield "01", (1, 0, 0)
    yield "0101", (5, 0, 0)
    yield "0111", (5, 0, 0)
    yield "0110", (1, 2, 0)
    yield one + "ff", (2, 2, 0)
    yield one + "03", (3, 2, 0)  # a condition before any action
    yield one + "05", (3, 2, 0)  # a seed before the task
    yield one + "06", (3, 2, 0)
    yield one + "020000", (1, 2, 0)
    yield one + "02010001", (5, 2, 0)  # no such variable
    yield one + "02000201", (5, 2, 0)  # pre too large
    yield one + "02000002", (5, 2, 0)  # post too large
    yield one + "02000202", (5, 2, 0)  # .. and equal: 5 comes before 6
    yield one + "02000101", (6, 2, 0)
    yield one + go + "0102", (3, 6, 0)  # a variable after an action
    yield one + go + go, (1, 10, 0)  # 7 is decided at the end record
    yield one + go + go + "04000001 0500000001 06", (7, 6, 0)
    yield one + go + go + "04000001 0500000001 06 00", (7, 6, 0)  # .. before 8
    yield one + go + go + "04000001 0500000000 06", (5, 14, 0)  # .. and after every fault of a record
    yield one + go + "02000101", (6, 6, 0)
    yield three_values + go + "02000201 04000001 04010001 04020001 0500000001 06", (7, 10, 0)  # from another pre
    # situations
    yield "08", (1, 0, 0)
    yield "0800", (6, 0, 0)
    yield "0808", (5, 0, 0)
    yield "08ff", (5, 0, 0)
    yield "0801", (1, 2, 0)
    yield "0801 0801", (3, 2, 0)
    yield "0801 0701", (3, 2, 0)
    yield "0801 02", (3, 2, 0)
    yield "0102 0801", (3, 2, 0)
    yield "0807" + two + rest, (21, 0, 0)
    yield "0807" + one + go + alone, (0, 1, 1)
    yield one + "0701", (3, 2, 0)  # before any action
    yield one + go + "07", (1, 6, 0)
    yield one + go + "07ff", (6, 6, 0)
    yield one + go + "0701 0701", (3, 8, 0)
    yield one + go + "0700 0700", (3, 8, 0)  # a set of no situation is a set
    yield two + go + "0701 030100", (3, 10, 0)  # a condition after the set
    yield two + go + "030100 0701 030100", (3, 13, 0)
    yield two + go + "030100 0701" + rest, (0, 1, 2)
    yield two + "04000001 0701", (3, 8, 0)
    for situation, numbers in (("", (7, 8, 0)), ("0801", (0, 2, 1)), ("0802", (7, 10, 0))):  # in force: both, the second, both
        yield situation + one + go + "0705" + go + "0707" + alone, numbers
    yield one + go + "07fe" + go + "07fe" + go + "07fe" + alone, (0, 3, 1)  # none in force in situation 0
    yield "0801" + one + go + "0701" + go + go + "07fe" + go + alone, (7, 14, 0)  # the first that repeats one in force
    yield two + go + "030100 030100", (6, 11, 0)  # the same variable again
    yield two + go + "030000", (6, 8, 0)  # its own variable
    yield two + go + "030002", (5, 8, 0)  # .. with a value too large
    yield two + go + "030102", (5, 8, 0)
    yield two + go + "030200", (5, 8, 0)
    yield three_values + go + "030201 030101", (6, 13, 0)  # not above the previous
    yield three_values + go + "030101 030201 04000002", (1, 20, 0)
    yield two + go + "0301", (1, 8, 0)
    yield two + "04010001", (5, 4, 0)  # not the next variable
    yield two + "04000001 04000001", (5, 8, 0)
    yield two + "04000201", (5, 4, 0)
    yield two + "04000002", (5, 4, 0)
    yield two + "04000001" + go, (3, 8, 0)  # an action after a task
    yield two + "04000001 0500000001", (3, 8, 0)  # a seed before the last task
    yield two + "04000001 04010001 04020001", (3, 12, 0)  # a task too many
    yield two + "04000001 04010001 04", (3, 12, 0)
    yield two + "04000001 04010001", (1, 12, 0)
    yield two + "04000001 04010001 06", (3, 12, 0)  # no seed
    for seed in ("00000000", "7fffffff", "80000000", "ffffffff"):
        yield two + "04000001 04010001 05" + seed + "06", (5, 12, 0)
    yield two + "04000001 04010001 057ffffffe 06", (21, 0, 0)
    yield two + go + "030101 04000001 04010001 057ffffffe 06", (0, 1, 2)
    yield two + "04000001 04010001 0500000001 0500000001", (3, 17, 0)
    yield two + "04000001 04010001 0500000001", (1, 17, 0)
    yield one + go + alone, (0, 1, 1)
    yield one + go + alone + "06", (8, 16, 0)
    yield one + go + alone + "ff00", (8, 16, 0)
    # variables that nobody uses
    yield two + rest, (21, 0, 0)  # a task is no use
    yield two + go + rest, (21, 1, 0)
    yield two + "02010001" + rest, (21, 0, 0)
    yield three_values + go + "04000001 04010001 04020001 0500000001 06", (21, 1, 0)  # the lowest of two
    yield two + go + "030100" + rest, (0, 1, 2)  # used by a condition only
    yield two + go + "02010001 07fe" + rest, (0, 2, 2)  # .. by an action out of force only
    yield two + go + "02000100 030100 07fe" + rest, (0, 2, 2)  # .. by a condition of an action out of force only
    yield two + go + go + rest, (7, 8, 0)  # 7 comes before 21
    yield two + go + rest + "00", (21, 1, 0)  # .. and 8 after it
    yield two + go + "04000001 04010001 0500000000 06", (5, 16, 0)  # every fault of a record comes before it
    yield two + go + "04000001 04010001 0500000001", (1, 21, 0)
    # crews: the next one behind a seed
    crew = "04000001 0500000001"
    begun = one + go + crew  # 15 bytes
    yield begun + "09" + crew + "06", (0, 1, 1)
    yield begun + "09 04000100 057ffffffe 06", (0, 1, 1)
    yield begun + "09" + crew + "06 00", (8, 26, 0)
    yield begun + "09" + crew, (1, 25, 0)
    yield begun + "09", (1, 16, 0)
    for kind in ("01", "02", "03", "05", "06", "07", "08", "09"):
        yield begun + "09" + kind, (3, 16, 0)  # only a task may follow, whole or cut
    yield begun + "09 04", (1, 16, 0)
    yield begun + "09 0a", (2, 16, 0)
    yield begun + "09 04010001", (5, 16, 0)  # not the next variable
    yield begun + "09 04000201", (5, 16, 0)
    yield begun + "09 04000001 06", (3, 20, 0)  # no seed
    yield begun + "09 04000001 09", (3, 20, 0)
    yield begun + "09 04000001 04000001", (3, 20, 0)  # a task too many
    yield begun + "09 04000001 0500000000 06", (5, 20, 0)
    yield begun + "09" + crew + crew, (3, 25, 0)  # nothing opens it
    yield two + go + "04000001 04010001 0500000001 09 04000001 0500000001", (3, 26, 0)  # a task too few
    yield two + go + "04000001 04010001 0500000001 09 04010001", (5, 22, 0)
    for early, place in (("", 0), (one, 2), (one + go, 6), (one + go + "0701", 8), (one + go + "04000001", 10)):
        yield early + "09", (3, place, 0)
    yield begun + ("09" + crew) * 7 + "06", (0, 1, 1)
    yield begun + ("09" + crew) * 7 + "09", (4, 85, 0)
    yield begun + ("09" + crew) * 8 + "06", (4, 85, 0)
    yield begun + ("09" + crew) * 7 + "09 09", (4, 85, 0)
    yield begun + ("09" + crew) * 6 + "09 04000001 0500000000 09", (5, 80, 0)  # the eighth's fault comes first
    yield one + go + go + crew + "09" + crew + "06", (7, 6, 0)
    yield one + go + go + crew + "09 04000002", (5, 20, 0)
    yield two + go + "04000001 04010001 0500000001 09" + rest, (21, 1, 0)
    yield crowd + "02000001 021f0001", (1, 72, 0)
    yield crowd + "01", (1, 64, 0)
    yield crowd + "0102", (4, 64, 0)
    yield crowd + "0100", (4, 64, 0)  # 4 comes before 5
    yield crowd + "02200001", (5, 64, 0)


def crowded_with_actions():
    """16 variables of 16 values with an action for each value, and a variable more; 1,058 bytes."""
    return bytes([VARIABLE, 16]) * 17 + bytes(
        byte for v in range(16) for q in range(16) for byte in (ACTION, v, (q + 1) % 16, q)
    )


def test_file_cases():
    cases = list(file_cases())
    for digits, numbers in cases:
        given = check(bytes.fromhex(digits))[0]
        assert given == numbers, f"file {digits}: {given} and not {numbers}"
    crowded = crowded_with_actions()
    assert len(crowded) == 1058
    for more, number in ((b"\2\x10\0\1", 4), (b"\2\x11\0\1", 4), (b"\2\0\0\0", 4), (b"\2\0\0", 1), (b"\1\2", 3)):
        assert check(crowded + more)[0] == (number, 1058, 0), more
    odd = bytes([10, 1, 2, 0, 6, 5, 0, 0, 0])
    assert record_at(b"\x01\x09", 1) == ((0, 9, 2, 0, 2), b"")
    places = {
        0: (2, 0, 0, 0, 0),
        1: (0, 1, 2, 1, 3),
        2: (0, 2, 3, 3, 6),
        3: (2, 0, 3, 0, 3),
        4: (0, 6, 5, 0, 5),
        5: (1, 0, 5, 0, 5),
        8: (2, 0, 8, 0, 8),
        9: (1, 0, 9, 0, 9),
        10: (1, 0, 9, 0, 9),
        2**64 - 1: (1, 0, 9, 0, 9),
    }
    for at, numbers in places.items():
        assert record_at(odd, at) == (numbers, b""), at
    return f"{len(cases)} files worked by hand, and single records: agreed"


def circles(pairs):
    """The actions on some circle, found by following every path that meets no action twice."""
    after = {}
    for a, b in pairs:
        after.setdefault(a, []).append(b)

    def leads_back(start, here, passed):
        return any(b == start or (b not in passed and leads_back(start, b, passed | {b})) for b in after.get(here, []))

    return {a for a in after if leads_back(a, a, {a})}


def test_rings_of(study):
    """Rings by the closure against rings by circles, and who comes after one against who can be reached from one."""
    walks = [walk_of(study, v) for v in range(len(study.counts))]
    if None in walks or off_walk_condition(study, walks):
        return
    pairs = comes_before(study, walks)
    after = closure(pairs, walk_actions(walks))
    reached = circles(pairs)
    assert on_rings(after) == reached, study
    while any(a in reached and b not in reached for a, b in pairs):
        reached |= {b for a, b in pairs if a in reached}
    assert free_of_rings(after) == set(after) - reached, study


def followed(study, variable):
    """Where a trace ends that is followed value by value, for more steps than there are values: at the start (None), at a value
    that no action sets, or nowhere."""
    value = study.goal(variable)
    for _ in range(MOST_VALUES + 1):
        if value == study.start(variable):
            return None
        number = setter(study, variable, value)
        if number is None:
            return value
        value = study.actions[number].pre
    return CAME_ROUND


def test_breaks_of(study):
    """Where each walk that there is not breaks, against where its trace ends; what 10 tells of the lowest."""
    ends = [followed(study, v) for v in range(len(study.counts))]
    for v, end in enumerate(ends):
        assert (walk_of(study, v) is None) == (end is not None), (study, v)
        assert end is None or where_it_breaks(study, v) == end, (study, v, end)
    broken = [(v, end) for v, end in enumerate(ends) if end is not None]
    if broken:
        assert plan_seeded(file_of(study), 0, b"")[0] == (10, *broken[0]), study
        return "round" if broken[0][1] == CAME_ROUND else "goal" if broken[0][1] == study.goal(broken[0][0]) else "further back"
    return None


def test_runs_of(rng, study, plans):
    """Running answers 0 exactly for straight plans, and then the goal is the end state."""
    file, room = file_of(study), bytes(len(study.counts))
    for steps in [some_steps(rng, study) for _ in range(3)] + plans[:3]:
        numbers, buffer = run(file, 0, bytes(steps), room)
        assert (numbers[0] == 0) == (tuple(steps) in plans), (study, steps)
        assert buffer == (room if numbers[0] else bytes(goal_state(study)))


def test_both_ways(seed, files):
    """Both ways of planning on small files, with several rank lists each; `planned` asserts that they agree."""
    rng = random.Random(seed)
    seen, breaks, several, skipped = Counter(), Counter(), 0, 0
    for _ in range(files):
        study = small_study(rng)
        assert heard(file_of(study), 0) == study, "a generator's study does not load"
        breaks[test_breaks_of(study)] += 1
        try:
            plans = straight_plans(study, 4000)
        except TooMany:
            skipped += 1
            continue
        several += len(plans) > 1
        for _ in range(3):
            ranks = rank_list(rng, len(study.actions))
            try:
                planned(study, ranks, 4000)
                number = 0
            except Refused as refused:
                number = refused.numbers[0]
        seen[number] += 1
        test_runs_of(rng, study, plans)
        test_rings_of(study)
    assert all(seen[number] > files // 50 for number in (0, 10, 11, 12)), seen
    assert all(breaks[where] > files // 100 for where in ("round", "goal", "further back")), breaks
    tally = ", ".join(f"{number}: {seen[number]}" for number in sorted(seen))
    return (
        f"{files - skipped} random small files through both ways of planning, every list tried: agreed"
        f" ({tally}; {several} with several straight plans; {skipped} more had too many lists);"
        f" traces that come round {breaks['round']}, break off at the goal {breaks['goal']}, further back {breaks['further back']}"
    )


ANSWERS_TO_MEET = {
    "record_at": {0, 1, 2},
    "check": set(range(9)) | {21},
    "plan": set(range(14)) | {21, 22},
    "plan_seeded": set(range(14)) - {9} | {21, 22},
    "run": set(range(9)) | {13, 14, 15, 16, 17, 20, 21, 22},
    "draw": {0, 13, 18, 19},
    "write": {0, 3, 4, 5, 6, 7, 13, 21},
    "report": set(range(9)) | {13, 18, 19, 21, 22},
    "chart": set(range(9)) | {10, 11, 12, 14, 19, 21, 22, 25, 26, 27, 28},
    "replay": set(range(9)) | {14, 19, 20, 21, 22, 23},
    "journeys": set(range(15)) | {21, 22},
}


def worked_charts():
    """Charts worked by hand: the file, the actions and the pairs, in hexadecimal, and the three numbers. The porter's direct orders
    are 0 before 2 and 3, 1 before 2 and 3, 3 before 2; its two straight plans are 0 1 3 2 and 1 0 3 2."""
    orders = "0002 0003 0102 0103 0302"
    listed = "00010203"
    yield PORTER, listed, orders, (0, 4, 5)
    yield PORTER, "03020100", "0302 0103 0102 0003 0002", (0, 4, 5)
    yield PORTER, listed, "0003 0103 0302", (0, 4, 3)  # chains in place of two direct orders
    yield PORTER, listed, "0001 0103 0302", (0, 4, 3)  # each of its plans as a chain
    yield PORTER, listed, "0100 0003 0302", (0, 4, 3)
    yield PORTER, listed, "0001 0103 0302 0100", (27, 0, 0)
    yield PORTER, listed, orders + "0002 0002", (0, 4, 7)
    yield PORTER, listed, "0003 0103 0102 0002", (28, 3, 2)
    yield PORTER, listed, "0002 0102 0302 0103", (28, 0, 3)
    yield PORTER, listed, "0302", (28, 0, 2)  # the lowest of four that are lacking
    yield PORTER, listed, "0203 0003 0103", (28, 0, 2)
    yield PORTER, listed, "", (28, 0, 2)
    yield PORTER, listed, "00", (26, 0, 0)
    yield PORTER, listed, orders + "02", (26, 5, 0)
    yield PORTER, listed, orders + "0303", (26, 5, 0)
    yield PORTER, listed, orders + "0004", (26, 5, 0)
    yield PORTER, listed, "0001 0401 0100", (26, 1, 0)  # 26 comes before 27
    yield PORTER, listed, "ff00", (26, 0, 0)
    yield PORTER, "000102", orders, (25, 3, 0)
    yield PORTER, "0102", orders, (25, 0, 0)
    yield PORTER, "", "", (25, 0, 0)
    yield PORTER, "0001020303", orders, (25, 3, 0)
    yield PORTER, "0001020304", orders, (25, 4, 0)
    yield PORTER, "04000302", orders, (25, 1, 0)  # the lowest of the three kinds together
    yield PORTER, "00010503", orders, (14, 2, 0)
    yield PORTER, "ff", "", (14, 0, 0)
    yield PORTER, "00" * 257, "", (19, 257, 0)
    yield PORTER, "00" * 256, "", (25, 0, 0)
    yield PORTER, "05" * 256, "", (14, 0, 0)
    yield PORTER, "00" * 257, "00" * 8193, (19, 257, 0)
    yield PORTER, "ff", "00" * 8193, (19, 4097, 0)
    yield PORTER, listed, orders + "0002" * 4091, (0, 4, 4096)
    yield PORTER, listed, orders + "0002" * 4091 + "00", (19, 4097, 0)
    yield PORTER, listed, orders + "0002" * 4090 + "00", (26, 4095, 0)
    yield porter((0, 0, 0)), "", "", (0, 0, 0)
    yield porter((0, 0, 0)), "00", "", (25, 0, 0)
    yield porter((0, 0, 0)), "", "0001", (26, 0, 0)
    yield porter((0, 2, 1)), "00" * 257, "00", (11, 2, 0)
    yield porter((1, 0, 1), (0, 2, 0)), "", "", (10, 1, 0)
    yield two_wanting(1), "0001", "0001 0100", (12, 0, 0)
    yield PORTER[:55], "00" * 257, "00", (1, 55, 0)
    # (c): action 0 wants variable 1 at 0, which action 1 leaves
    leaver = file_of(Study([2, 2], [Action(0, 0, 1, [(1, 0)]), Action(1, 0, 1)], [(0, 1), (0, 1)], 1))
    yield leaver, "0001", "0001", (0, 2, 1)
    yield leaver, "0001", "", (28, 0, 1)
    yield leaver, "0001", "0100", (28, 0, 1)
    # an action out of force is there, and may not be used
    night = file_of(Study([2], [Action(0, 0, 1), Action(0, 1, 0, [], 2)], [(0, 1)], 1))
    yield night, "00", "", (0, 1, 0)
    yield night, "0001", "", (14, 1, 0)
    yield night, "00", "0001", (26, 0, 0)


def inputs_of_worked_chart(file, actions, pairs):
    return file, 0, bytes.fromhex(actions), bytes.fromhex(pairs)


def test_worked_charts():
    cases = list(worked_charts())
    for *call, numbers in cases:
        given = chart(*inputs_of_worked_chart(*call))
        assert given == (numbers, b""), f"chart {call}: {given} and not {numbers}"
    return f"{len(cases)} charts worked by hand: agreed"


def test_charts_by_orders(seed, n):
    """Small charts, by every order too: how many were tried, how many of them are accepted, how many leave several orders."""
    rng = random.Random(seed)
    seen, longer = Counter(), 0
    for _ in range(n):
        _, (file, crew, actions, data) = chart_on_small(rng)
        roster, pairs = read(file), pairs_in(data)
        study = study_of(roster, crew % len(roster.crews))
        numbers = judged_chart(study, list(actions), pairs, ACTIONS_TO_TRY + 1)
        longer += len(actions) > ACTIONS_TO_TRY + 1
        seen[numbers[0]] += 1
    assert all(seen[number] > n // 100 for number in (0, 10, 11, 12, 14, 25, 26, 27, 28)), seen
    assert longer < n // 5, longer
    tally = ", ".join(f"{number}: {seen[number]}" for number in sorted(seen))
    return f"{n} small charts, every order of {n - longer} tried: agreed ({tally})"


def worked_replays():
    """Replays worked by hand: the file, the log in hexadecimal, the three numbers, the record or None where it is as lent. The porter's
    actions: 0 takes the pass, 1 fetches the cart, 2 rides up and wants pass and ride, 3 books the ride and wants pass and cart, 4 hands
    the pass in."""
    record = lambda state, ticks=0, *waits: bytes(state).ljust(32, b"\0") + ticks.to_bytes(4, "little") + bytes([*(waits or (0, 0, 0)), 0])
    yield PORTER, "", (0, 0, 0), record((0, 0, 0))
    yield PORTER, "10000001", (0, 1, 0), record((0, 1, 0))
    yield PORTER, "10ffff01", (0, 1, 0), record((0, 1, 0))  # the first step is 0
    yield PORTER, "10000001 10000100 10000303 10000602", (0, 4, 0), record((1, 2, 1), 6)
    yield PORTER, "10000502", (0, 0, 1), record((0, 0, 0), 0, 1, 1, 1)  # the own variable first
    yield PORTER, "10000503", (0, 0, 1), record((0, 0, 0), 0, 1, 0, 1)  # the lowest of two conditions
    yield PORTER, "10000501 10000602", (0, 1, 1), record((0, 1, 0), 1, 1, 0, 1)
    yield PORTER, "10000501 10000600 10000702", (0, 2, 1), record((1, 1, 0), 2, 1, 2, 1)
    yield PORTER, "10000500 10000603 10000701 10000903", (0, 3, 1), record((1, 1, 1), 4)  # held, then done
    yield PORTER, "10000000 10000104 10000200 10000304", (0, 4, 0), record((0, 0, 0), 3)  # values again
    yield PORTER, "10000000 10000100", (0, 1, 1), record((1, 0, 0), 1, 1, 0, 0)
    yield PORTER, "10000000 10000000", (0, 1, 1), record((1, 0, 0), 0, 1, 0, 0)  # a step of 0
    yield PORTER, "10000000 107fff04", (0, 2, 0), record((0, 0, 0), 32767)
    yield PORTER, "10000000 10800004", (23, 4, 0), None
    yield PORTER, "10000000 10ffff04", (23, 4, 0), None
    yield PORTER, "10fffe00 10000304", (0, 2, 0), record((0, 0, 0), 5)  # round the roll
    yield PORTER, "10ffff00 107ffe04", (0, 2, 0), record((0, 0, 0), 32767)
    yield PORTER, "10ffff00 107fff04", (23, 4, 0), None
    yield PORTER, "10ffff00 107fff00", (23, 4, 0), None  # an event that could not be done either
    yield PORTER, "00", (2, 0, 0), None
    yield PORTER, "10", (1, 0, 0), None
    yield PORTER, "10000000 1000", (1, 4, 0), None
    yield PORTER, "10000000 100000", (1, 4, 0), None
    yield PORTER, "10000000 0f0000", (2, 4, 0), None  # 2 before 1
    yield PORTER, "10000000 06", (2, 4, 0), None
    yield PORTER, "10000005", (14, 0, 0), None
    yield PORTER, "10000000 10ffff05", (14, 4, 0), None  # 14 before 23
    yield PORTER, "11000005", (2, 0, 0), None
    many, held = "10000000" * MOST_EVENTS, record((1, 0, 0), 0, 1, 0, 0)
    yield PORTER, many, (0, 1, 16383), held
    yield PORTER, many + "10800000", (19, 65536, 0), None
    yield PORTER, many + "10ffff05", (19, 65536, 0), None  # 19 before 14 and 23
    yield PORTER, many + "100000", (1, 65536, 0), None  # 1 before 19
    yield PORTER, many + "ff", (2, 65536, 0), None
    yield PORTER[:55], "ff", (1, 55, 0), None
    night = file_of(Study([2], [Action(0, 0, 1), Action(0, 1, 0, [], 2)], [(0, 1)], 1))
    yield night, "10000000 10000001", (20, 4, 0), None
    yield night, "10000000 10ffff01", (20, 4, 0), None  # 20 before 23
    yield night, "10000000 10ffff02", (14, 4, 0), None
    rolling = "".join(event(32767 * index, 4 * (index % 2)).hex() for index in range(MOST_EVENTS))
    yield PORTER, rolling, (0, MOST_EVENTS, 0), record((0, 0, 0), 32767 * 16383)


def inputs_of_worked_replay(file, log):
    return file, 0, bytes.fromhex(log), bytes(range(200, 200 + OCCUPANT_LENGTH))


def test_worked_replays():
    cases = list(worked_replays())
    for *call, numbers, record in cases:
        inputs = inputs_of_worked_replay(*call)
        given = replay(*inputs)
        assert given == (numbers, record or inputs[-1]), f"replay {call}: {given} and not {numbers}, {record and record.hex()}"
    return f"{len(cases)} replays worked by hand: agreed"


def with_ticks_moved(log, amount):
    """The same log, each tick of a whole event moved by an amount round the roll."""
    parts = [log[at : at + EVENT_LENGTH] for at in range(0, len(log), EVENT_LENGTH)]
    moved = [one[:1] + event(256 * one[1] + one[2] + amount, one[3])[1:] if len(one) == EVENT_LENGTH else one for one in parts]
    return b"".join(moved)


def test_replays(seed, n):
    """Of random logs: where no event is held, the actions run from the start to the state left; ticks that are all moved by one
    amount, another record lent and an empty rest alter nothing; what is refused is refused with anything behind it; each event
    of one more is done or held."""
    rng, straight, refused = random.Random(seed), 0, 0
    for _, (file, crew, log, lent) in itertools.islice((call for call in replays(seed, 2 * n) if len(call[1][2]) < 1000), n):
        numbers, left = replay(file, crew, log, lent)
        assert replay(file, crew, with_ticks_moved(log, 40000), lent) == (numbers, left), (file, log)
        other = rng.randbytes(OCCUPANT_LENGTH)
        assert replay(file, crew, log, other) == (numbers, other if numbers[0] else left), (file, log)
        if numbers[0]:
            at_event = numbers[0] in (14, 20, 23) or numbers[0] == 2 and numbers[1] % EVENT_LENGTH == 0
            assert not at_event or replay(file, crew, log + rng.randbytes(9), lent) == (numbers, lent), (file, log)
            refused += 1
            continue
        assert sum(numbers[1:]) * EVENT_LENGTH == len(log)
        study, actions = heard(file, crew), log[3::EVENT_LENGTH]
        state = start_state(study)
        for number in actions:
            state = done(state, study.actions[number]) if may_be_done(state, study.actions[number]) else state
        assert bytes(state) == left[: len(state)] and not any(left[len(state) : STATE_ROOM])
        if numbers[2] == 0 and actions:
            straight += 1
            said = run(file_of(replace(study, tasks=[(start, q) for (start, _), q in zip(study.tasks, state)])), 0, actions, bytes(32))[0]
            assert said[0] in (0, 16), said  # a run stops where a value comes again
    assert straight > n // 20 and refused > n // 5, (straight, refused)
    return f"{n} replays, {straight} of them without an event held, {refused} refused: as they should be"


def test_reports():
    """The porter with 64 seeds: two plans, which differ in their first two steps."""
    numbers, left = report(PORTER, 0, 1, 64, b"\xaa" * 30)
    assert numbers == (0, 25, 0) and left[25:] == b"\xaa" * 5, (numbers, left)
    plans, *barred, different = left[:5]
    assert (plans, barred, different) == (64, [0, 0, 0], 2)
    at = [list(left[5 + 5 * position : 10 + 5 * position]) for position in range(4)]
    assert at[0][0] + at[0][1] == 64 and at[0][0] == at[1][1] and at[0][1] == at[1][0] and at[0][0] > 0 and at[0][1] > 0
    assert at[2] == [0, 0, 0, 64, 0] and at[3] == [0, 0, 64, 0, 0]
    assert report(PORTER, 0, 1, 64, bytes(24)) == ((13, 25, 0), bytes(24))
    assert report(coming_round(), 0, 7, 9, b"\xaa" * 6) == ((0, 5, 0), bytes([0, 9, 0, 0, 0, 0xAA]))
    assert report(two_wanting(1), 0, 7, 64, bytes(5)) == ((0, 5, 0), bytes([0, 0, 0, 64, 0]))
    assert report(horse_breeder(), 0, 1, 1, bytes(4)) == ((13, 5, 0), bytes(4))
    assert report(porter((0, 0, 0)), 0, 1, 64, bytes(5)) == ((0, 5, 0), bytes([64, 0, 0, 0, 1]))
    for first, count, expected in [
        (1, 0, (19, 0, 0)),
        (0, 65, (19, 65, 0)),
        (0, 1, (18, 0, 0)),
        (LARGEST_SEED, 1, (0, 25, 0)),
        (LARGEST_SEED, 2, (18, 2147483647, 0)),
        (LARGEST_SEED - 62, 64, (18, 2147483647, 0)),
        (LARGEST_SEED - 63, 64, (0, 25, 0)),
        (2**64 - 1, 64, (18, 2**64 - 1, 0)),
    ]:
        assert report(PORTER, 0, first, count, bytes(25))[0] == expected, (first, count)
    assert report(PORTER[:55], 0, 0, 0, b"")[0] == (1, 55, 0)
    return "reports worked by hand: agreed"


def worked_journeys():
    """Journeys worked by hand: the file, the ranks, the rides and the start floor, the buffer's length, the three numbers and what then
    stands in front. By rising ranks the porter's plan is 0 1 3 2, by falling ones 1 0 3 2."""
    rising, falling = "0001020304", "0403020100"
    yield PORTER, rising, "020007", 0, 8, (0, 1, 0), "03 00 07"  # from the person's floor
    yield PORTER, rising, "020007", 5, 8, (0, 2, 0), "03 05 00 03 00 07"  # from another
    yield PORTER, rising, "", 0, 0, (0, 0, 0), ""
    yield PORTER, rising, "", 199, 5, (0, 0, 0), ""
    yield PORTER, rising, "040102", 9, 5, (0, 0, 0), ""  # of an action that is on no walk
    yield PORTER, rising, "000001 010103", 0, 20, (0, 2, 0), "00 00 01 01 01 03"  # two in a row
    yield PORTER, falling, "000001 010103", 0, 20, (0, 4, 0), "00 00 01 00 01 03 01 03 00 01 00 01"
    yield PORTER, rising, "020304 000001 030102 010500", 0, 40, (0, 7, 0), "00 00 01 01 01 05 01 05 00 02 00 01 02 01 02 03 02 03 03 03 04"
    yield PORTER, rising, "020304 000001 030102 010500", 0, 21, (0, 7, 0), "00 00 01 01 01 05 01 05 00 02 00 01 02 01 02 03 02 03 03 03 04"
    yield PORTER, rising, "020304 000001 030102 010500", 0, 20, (13, 21, 0), ""
    yield PORTER, rising, "020007", 0, 2, (13, 3, 0), ""
    yield PORTER, rising, "02c700 0000c7", 199, 9, (0, 3, 0), "00 c7 00 00 00 c7 03 c7 00"
    yield PORTER, rising, "020007 000001", 200, 8, (5, 2, 0), ""
    yield PORTER, rising, "020007 00", 256, 8, (5, 1, 0), ""
    yield PORTER, rising, "ff", 2**64 - 1, 8, (5, 0, 0), ""
    yield PORTER, rising, "02", 0, 8, (1, 0, 0), ""
    yield PORTER, rising, "0200", 0, 8, (1, 0, 0), ""
    yield PORTER, rising, "020007 050102 00", 0, 8, (14, 1, 0), ""  # a cut last ride behind a faulty one
    yield PORTER, rising, "020007 000102 0001", 0, 8, (1, 2, 0), ""
    yield PORTER, rising, "05c8c8", 0, 8, (14, 0, 0), ""
    yield PORTER, rising, "020007 00c8c8", 0, 8, (5, 1, 0), ""
    yield PORTER, rising, "020007 0000c8", 0, 8, (5, 1, 0), ""
    yield PORTER, rising, "020007 02ffc7", 0, 8, (5, 1, 0), ""
    yield PORTER, rising, "020007 020303", 0, 8, (6, 1, 0), ""
    yield PORTER, rising, "020007 000102 020007", 0, 8, (7, 2, 0), ""
    yield PORTER, rising, "040007 000102 040102", 0, 8, (7, 2, 0), ""  # of a ride that is never used
    yield PORTER, rising, "040007 000101 040102", 0, 8, (6, 1, 0), ""
    yield PORTER, rising[2:], "ff", 200, 0, (9, 4, 1), ""
    yield PORTER, "0001020303", "ff", 200, 0, (9, 4, 0), ""
    yield porter((1, 0, 1), (0, 2, 0)), rising, "ff", 200, 0, (10, 1, 0), ""
    yield porter((0, 2, 1)), rising, "ff", 200, 0, (11, 2, 0), ""
    yield two_wanting(1), "0001", "ff", 200, 0, (12, 0, 0), ""
    yield PORTER[:55], rising, "ff", 200, 0, (1, 55, 0), ""
    # an action out of force is there: its ride is in order and makes no journey
    night = file_of(Study([2], [Action(0, 0, 1), Action(0, 1, 0, [], 2)], [(0, 1)], 1))
    yield night, "0001", "010305 000304", 3, 8, (0, 1, 0), "00 03 04"
    yield night, "0001", "010305 000304 010001", 3, 8, (7, 2, 0), ""


def inputs_of_worked_journeys(file, ranks, rides, start, length):
    return file, 0, bytes.fromhex(ranks), bytes.fromhex(rides), start, b"\xaa" * length


def test_worked_journeys():
    cases = list(worked_journeys())
    for *call, numbers, made in cases:
        given = journeys(*inputs_of_worked_journeys(*call))
        left = bytes.fromhex(made)
        assert given == (numbers, left + b"\xaa" * (call[-1] - len(left))), f"journeys {call}: {given} and not {numbers}"
    return f"{len(cases)} lists of rides worked by hand: agreed"


def test_journeys_join(seed, n):
    """What document 02 says of the journeys as a whole: each begins where the one before ended, none stays, without those that precede
    a ride they are the rides of the plan's steps; and the plan is that of the call that plans, whatever the rides."""
    rng = random.Random(seed)
    seen, longest = Counter(), 0
    for _ in range(n):
        _, (file, crew, ranks, data, start, buffer) = rng.choices([travel_on_small, travel_on_larger], [20, 1])[0](rng)
        numbers, left = journeys(file, crew, ranks, data, start, bytes(1536))
        planned_numbers, steps = plan(file, crew, ranks, bytes(256))
        seen[numbers[0] if planned_numbers[0] == 0 else "no plan"] += 1
        if planned_numbers[0]:
            assert numbers == planned_numbers
        if numbers[0] or planned_numbers[0]:
            continue
        longest = max(longest, numbers[1])
        made = [tuple(left[at : at + 3]) for at in range(0, 3 * numbers[1], 3)]
        rides = {data[at]: (data[at + 1], data[at + 2]) for at in range(0, len(data), 3)}
        assert all(begins != ends for _, begins, ends in made)
        assert [start, *(ends for _, _, ends in made)][: len(made)] == [begins for _, begins, _ in made]
        alone = [made[k] for k in range(len(made)) if k + 1 == len(made) or made[k + 1][0] != made[k][0]]
        ridden = [(step, *rides[action]) for step, action in enumerate(steps[: planned_numbers[1]]) if action in rides]
        assert alone == ridden and len(made) <= 2 * len(ridden)
    assert all(seen[number] > n // 200 for number in (0, 1, 5, 6, 7, 14, "no plan")), seen
    assert longest > 256, longest
    tally = ", ".join(f"{number}: {seen[number]}" for number in sorted(seen, key=str))
    return f"{n} lists of rides, their journeys joined and held to the plan: agreed ({tally}; up to {longest} journeys)"


def answers_to(file, crew, lists):
    """What each call that names a crew answers: some rank list, some steps, some chart."""
    ranks, steps, pairs = lists
    return [
        plan(file, crew, ranks, bytes(256)),
        plan(file, crew, ranks[1:], bytes(256)),
        plan_seeded(file, crew, bytes(256)),
        run(file, crew, steps, bytes(40)),
        report(file, crew, 1, 2, bytes(5000)),
        chart(file, crew, steps, pairs),
        replay(file, crew, log_of(enumerate(steps + pairs)), bytes(range(OCCUPANT_LENGTH))),
        journeys(file, crew, ranks, bytes(byte for action in steps for byte in (action, *pairs[:2])), 7, bytes(1536)),
    ]


def test_crews(seed, files):
    """A crew among others answers as it does alone and as it does where crews are exchanged; one that is not there gets 22 from
    every call; a fault of any crew is the file's, at its place."""
    rng = random.Random(seed)
    many = Counter()
    for _ in range(files):
        study = small_study(rng)
        roster, number = crewed(rng, study)
        file, crews = file_of(roster), len(roster.crews)
        lists = rank_list(rng, len(study.actions)), bytes(steps_that_run(rng, study)), bytes(rng.randrange(4) for _ in range(4))
        alone = answers_to(file_of(study), 0, lists)
        assert answers_to(file, number, lists) == alone, roster
        other = rng.randrange(crews)
        turned = replace(roster, crews=list(roster.crews))
        turned.crews[number], turned.crews[other] = turned.crews[other], turned.crews[number]
        assert answers_to(file_of(turned), other, lists) == alone, turned
        for absent in (crews, 255, 2**64 - 1):
            assert {numbers for numbers, _ in answers_to(file, absent, lists)} == {(22, absent, 0)}, roster
        place = len(b"".join(records_of(replace(roster, crews=roster.crews[: other + 1]))[:-2]))
        turned.crews = list(roster.crews)
        turned.crews[other] = replace(roster.crews[other], seed=0)
        assert {numbers for numbers, _ in answers_to(file_of(turned), rng.choice([0, 255]), lists)} == {(5, place, 0)}, turned
        many[crews] += 1
    assert set(many) == set(range(1, MOST_CREWS + 1)), many
    return f"{files} files of one to eight crews, each crew as alone and where crews are exchanged: agreed"


KINDS_OF_CALLS = {calls: 1, writes: 5, reports: 20, charts: 10, replays: 10, travels: 10}  # a part of so many


def test_calls(seed, n):
    """Every call can be answered; a refusal alters nothing; each call meets each of its answers, and all limits are met."""
    seen = {name: Counter() for name in CALLS}
    longest_file = longest_plan = longest_written = 0
    drawn_edges, most_charted, most_events = set(), (0, 0), 0
    for name, inputs in itertools.chain(*(make(seed, n // part) for make, part in KINDS_OF_CALLS.items())):
        numbers, buffer = answer(name, inputs)
        seen[name][numbers[0]] += 1
        if name in ("plan", "plan_seeded", "run", "draw", "write", "report", "replay", "journeys"):
            assert len(buffer) == len(inputs[-1]) and (numbers[0] == 0 or buffer == inputs[-1])
        if name == "draw":
            drawn_edges.add((inputs[0], inputs[1], len(inputs[2])))
        elif name == "write":
            longest_written = max(longest_written, numbers[1] if numbers[0] == 0 else 0)
        elif name == "chart":
            most_charted = max(most_charted, numbers[1:] if numbers[0] == 0 else (0, 0))
        elif name == "replay":
            most_events = max(most_events, sum(numbers[1:]) if numbers[0] == 0 else 0)
        elif name != "record_at" and numbers[0] == 0:
            longest_file = max(longest_file, len(inputs[0]))
            if name == "check":
                lists = lists_of(read(inputs[0]))
                assert write(*lists, bytes(len(inputs[0]))) == ((0, len(inputs[0]), 0), inputs[0]), "written back"
        if name in ("plan", "plan_seeded") and numbers[0] == 0:
            longest_plan = max(longest_plan, numbers[1])
    for name, numbers in ANSWERS_TO_MEET.items():
        assert set(seen[name]) == numbers, f"{name} met {sorted(seen[name])} and not {sorted(numbers)}"
    assert set(draw_edges()) <= drawn_edges
    assert (longest_file, longest_plan, longest_written) == (LONGEST_FILE, 256, LONGEST_FILE), (longest_file, longest_plan)
    assert list(calls(seed, 300)) == list(calls(seed, 300)) and list(writes(seed, 300)) == list(writes(seed, 300))
    assert most_charted == (256, MOST_PAIRS) and most_events == MOST_EVENTS, (most_charted, most_events)
    for make in (reports, charts, replays, travels):
        assert list(make(seed, 100)) == list(make(seed, 100)), make
    answered = sum(sum(tally.values()) for tally in seen.values())
    lines = [f"{answered} calls answered, each answer of each call met, a file of {longest_file} bytes and a plan of 256 steps too"]
    for name in CALLS:
        tally = ", ".join(f"{number}: {seen[name][number]}" for number in sorted(seen[name]))
        lines.append(f"  {name} {sum(seen[name].values())} ({tally})")
    return "\n".join(lines)


def test_limits(seed):
    """The studies at the limits load and are what their names say."""
    rng = random.Random(seed)
    answers = {
        longest: (0, 256, 0),
        longest_at_rest: (0, 0, 0),
        most_steps: (0, 256, 0),
        one_action_each: (0, 32, 0),
    }
    for maker in dict.fromkeys(LARGE):
        roster, crew = crewed(rng, maker(rng), MOST_CREWS)
        file = file_of(roster)
        assert check(file)[0][0] == 0, maker
        numbers, buffer = plan_seeded(file, crew, bytes(256))
        assert numbers == answers.get(maker, numbers), (maker, numbers)
        if maker.__name__.startswith("longest"):
            assert len(file) == LONGEST_FILE, (maker, len(file))
        if numbers[0] == 0:
            assert run(file, crew, buffer[: numbers[1]], bytes(32))[0][0] == 0, maker
    for maker, number in ((longest_without_walk, 10), (longest_off_walk, 11), (longest_with_ring, 12)):
        study = maker(rng)
        numbers, _ = plan_seeded(file_of(study), 0, bytes(256))
        assert numbers[0] == number, maker
        assert number != 10 or numbers[2] == study.goal(numbers[1]), maker
    return "studies at the limits: as their names say"


def self_test():
    begun = time.monotonic()
    tests = [
        (test_worked_cases, ()),
        (test_file_cases, ()),
        (test_worked_writes, ()),
        (test_reports, ()),
        (test_worked_charts, ()),
        (test_charts_by_orders, (1, 2000)),
        (test_worked_replays, ()),
        (test_replays, (1, 2000)),
        (test_worked_journeys, ()),
        (test_journeys_join, (1, 2000)),
        (test_crews, (1, 400)),
        (test_limits, (1,)),
        (test_both_ways, (1, 5000)),
        (test_calls, (1, 20000)),
    ]
    for test, inputs in tests:
        started = time.monotonic()
        said = test(*inputs)
        print(f"{said} [{time.monotonic() - started:.1f} s]", flush=True)
    print(f"self-test passed in {time.monotonic() - begun:.1f} s")


if __name__ == "__main__":
    if sys.argv[1:] != ["--self-test"]:
        sys.exit("usage: python3 tests/oracle.py --self-test")
    self_test()
