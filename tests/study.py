"""Study files, by the text of documents 01 and 02 alone: what our programs' outputs are compared with, so nothing here is taken from their code."""

from dataclasses import dataclass, field

VARIABLE, ACTION, CONDITION, TASK, SEED, END, SITUATIONS, SITUATION, CREW = range(1, 10)
BODY_LENGTHS = {VARIABLE: 1, ACTION: 3, CONDITION: 2, TASK: 3, SEED: 4, END: 0, SITUATIONS: 1, SITUATION: 1, CREW: 0}
MOST_VARIABLES = 32
MOST_ACTIONS = 256
MOST_CREWS = 8
LONGEST_FILE = 26482
LARGEST_SEED = 2147483646
MOST_SITUATION = 7
ALL_EIGHT = 255

PORTER = bytes.fromhex(
    "01 02 01 03 01 02 02 00 00 01 02 01 00 01 02 01 01 02 03 00 01 03 02 01 02 02 00 01 03 00 01 03 01 01 02 00 01 00"
    " 04 00 00 01 04 01 00 02 04 02 00 01 05 00 00 00 01 06"
)


@dataclass
class Action:
    variable: int
    pre: int
    post: int
    conditions: list = field(default_factory=list)  # (variable, value), in rising order of variable
    situations: int = ALL_EIGHT  # the set's byte
    place: int = field(default=0, compare=False)  # of its record, in a file that was read


@dataclass
class Crew:
    starts: list = field(default_factory=list)  # by variable
    goals: list = field(default_factory=list)
    seed: int = 0


@dataclass
class Study:
    counts: list = field(default_factory=list)  # by variable: how many values
    actions: list = field(default_factory=list)
    crews: list = field(default_factory=lambda: [Crew()])
    situation: int = 0

    def in_force(self, action):
        return action.situations & 2**self.situation != 0


class Refused(Exception):
    """A file that says no study: the answer number, 1 to 8 with its place, or 21 with its variable."""

    def __init__(self, number, place):
        super().__init__(number, place)
        self.number = number
        self.place = place


# One record at a place.


def record_at(data, at):
    """0, the kind, the body's start and length and the place after it; or 2 or 1, no kind, and an empty body at the refusal's place."""
    if at >= len(data):
        return 1, 0, len(data), 0, len(data)
    kind = data[at]
    if kind not in BODY_LENGTHS:
        return 2, 0, at, 0, at
    start = at + 1
    after = start + BODY_LENGTHS[kind]
    if after > len(data):
        return 1, 0, at, 0, at
    return 0, kind, start, after - start, after


# A file: records are tested one by one, each in the order 2, 3, 1, 4, 5, 6; at the end record 7, then 21, then 8.


def kinds_allowed(study, last):
    """The kinds that may come after a record of kind last (None: at the file's start)."""
    if last is None:
        return {SITUATION, VARIABLE}
    if last == SITUATION:
        return {VARIABLE}
    if last == VARIABLE:
        return {VARIABLE, ACTION, TASK}
    if last in (ACTION, CONDITION):
        return {ACTION, CONDITION, SITUATIONS, TASK}
    if last == SITUATIONS:
        return {ACTION, TASK}
    if last == TASK:
        return {TASK} if len(study.crews[-1].starts) < len(study.counts) else {SEED}
    if last == CREW:
        return {TASK}
    return {CREW, END}


def has_value(study, variable, value):
    return variable < len(study.counts) and value < study.counts[variable]


def take_variable(study, count):
    """Each take_ function answers the fault, 4 to 6, or else 0 with the record taken into the study."""
    if len(study.counts) == MOST_VARIABLES:
        return 4
    if not 2 <= count <= 16:
        return 5
    study.counts.append(count)
    return 0


def take_action(study, variable, pre, post):
    if len(study.actions) == MOST_ACTIONS:
        return 4
    if not has_value(study, variable, pre) or not has_value(study, variable, post):
        return 5
    if pre == post:
        return 6
    study.actions.append(Action(variable, pre, post))
    return 0


def take_condition(study, variable, value):
    action = study.actions[-1]
    if not has_value(study, variable, value):
        return 5
    if variable == action.variable:
        return 6
    if action.conditions and variable <= action.conditions[-1][0]:
        return 6
    action.conditions.append((variable, value))
    return 0


def take_task(study, variable, start, goal):
    crew = study.crews[-1]
    if variable != len(crew.starts):
        return 5
    if not has_value(study, variable, start) or not has_value(study, variable, goal):
        return 5
    crew.starts.append(start)
    crew.goals.append(goal)
    return 0


def take_seed(study, *digits):
    number = int.from_bytes(digits, "big")
    if not 1 <= number <= LARGEST_SEED:
        return 5
    study.crews[-1].seed = number
    return 0


def take_end(study):
    return 0


def take_situations(study, byte):
    if byte == ALL_EIGHT:
        return 6
    study.actions[-1].situations = byte
    return 0


def take_situation(study, number):
    if number > MOST_SITUATION:
        return 5
    if number == 0:
        return 6
    study.situation = number
    return 0


def take_crew(study):
    if len(study.crews) == MOST_CREWS:
        return 4
    study.crews.append(Crew())
    return 0


TAKE = {
    VARIABLE: take_variable,
    ACTION: take_action,
    CONDITION: take_condition,
    TASK: take_task,
    SEED: take_seed,
    END: take_end,
    SITUATIONS: take_situations,
    SITUATION: take_situation,
    CREW: take_crew,
}


def read(data):
    """The study that a file says; raises Refused."""
    study = Study()
    at = 0
    last = None
    while last != END:
        if at == len(data):
            raise Refused(1, at)
        kind = data[at]
        if kind not in BODY_LENGTHS:
            raise Refused(2, at)
        if kind not in kinds_allowed(study, last):
            raise Refused(3, at)
        after = at + 1 + BODY_LENGTHS[kind]
        if after > len(data):
            raise Refused(1, at)
        fault = TAKE[kind](study, *data[at + 1 : after])
        if fault:
            raise Refused(fault, at)
        if kind == ACTION:
            study.actions[-1].place = at
        at = after
        last = kind
    refuse_repeats(study)
    refuse_unused(study)
    if at < len(data):
        raise Refused(8, at)
    return study


def refuse_repeats(study):
    """7 at the first action in force that sets what one before it, in force, sets."""
    sets = set()
    for action in filter(study.in_force, study.actions):
        if (action.variable, action.post) in sets:
            raise Refused(7, action.place)
        sets.add((action.variable, action.post))


def refuse_unused(study):
    """21 with the lowest variable that no action changes and no condition names."""
    left = set(range(len(study.counts)))
    for action in study.actions:
        left -= {action.variable, *dict(action.conditions)}
    if left:
        raise Refused(21, min(left))


def check(data):
    """The three numbers of checking a file."""
    try:
        study = read(data)
    except Refused as refused:
        return refused.number, refused.place, 0
    return 0, len(study.actions), len(study.counts)


# Files from records.


def variable_record(count):
    return bytes([VARIABLE, count])


def action_record(variable, pre, post):
    return bytes([ACTION, variable, pre, post])


def condition_record(variable, value):
    return bytes([CONDITION, variable, value])


def task_record(variable, start, goal):
    return bytes([TASK, variable, start, goal])


def seed_record(number):
    return bytes([SEED]) + number.to_bytes(4, "big")


def end_record():
    return bytes([END])


def situations_record(byte):
    """Nothing for a set of all eight."""
    return b"" if byte == ALL_EIGHT else bytes([SITUATIONS, byte])


def situation_record(number):
    """Nothing for situation 0."""
    return bytes([SITUATION, number]) if number else b""


def crew_record():
    return bytes([CREW])


def crew_records(crew):
    return b"".join(task_record(v, p, q) for v, (p, q) in enumerate(zip(crew.starts, crew.goals))) + seed_record(crew.seed)


def written(study):
    """The file that says this study."""
    data = situation_record(study.situation) + b"".join(variable_record(count) for count in study.counts)
    for a in study.actions:
        data += action_record(a.variable, a.pre, a.post)
        data += b"".join(condition_record(*c) for c in a.conditions) + situations_record(a.situations)
    return data + crew_record().join(map(crew_records, study.crews)) + end_record()
