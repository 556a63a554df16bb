"""Running lists on the porter file, on source 004's table and on a file with as many actions as there may be."""

from study import PORTER, Action, Crew, Refused, Study, read, written


def run(data, number, entries, buffer):
    """The three numbers, and the buffer with the end state of a crew in its first bytes."""
    try:
        study = read(data)
    except Refused as refused:
        return (refused.number, refused.place, 0), buffer
    if number >= len(study.crews):
        return (22, number, 0), buffer
    crew = study.crews[number]
    if len(buffer) < len(study.counts):
        return (13, len(study.counts), 0), buffer
    state = list(crew.starts)
    held = [{start} for start in crew.starts]
    for index, entry in enumerate(entries):
        if entry >= len(study.actions):
            return (14, index, 0), buffer
        action = study.actions[entry]
        if not study.in_force(action):
            return (20, index, 0), buffer
        if state[action.variable] != action.pre:
            return (15, index, action.variable), buffer
        failing = [v for v, value in action.conditions if state[v] != value]
        if failing:
            return (15, index, min(failing)), buffer
        if action.post in held[action.variable]:
            return (16, index, action.variable), buffer
        state[action.variable] = action.post
        held[action.variable].add(action.post)
    away = [v for v, goal in enumerate(crew.goals) if state[v] != goal]
    if away:
        return (17, min(away), 0), buffer
    return (0, len(state), 0), bytes(state) + buffer[len(state) :]


# Table 1 of source 004: haystack, bucket, water; a1 to a7.
HORSE = written(
    Study(
        counts=[3, 2, 3],
        actions=[
            Action(0, 1, 0),
            Action(0, 0, 1, [(1, 0)]),
            Action(0, 1, 2),
            Action(1, 1, 0),
            Action(1, 0, 1, [(0, 0)]),
            Action(2, 0, 1, [(1, 1)]),
            Action(2, 1, 2, [(1, 1)]),
        ],
        crews=[Crew([0, 0, 0], [2, 0, 2], 1)],
    )
)

# As many actions as there may be: 17 variables that go up to 15, and one that goes up to 1.
TALL = written(
    Study(
        counts=[16] * 18,
        actions=[Action(v, q, q + 1) for v in range(17) for q in range(15)] + [Action(17, 0, 1)],
        crews=[Crew([0] * 18, [15] * 17 + [1], 1)],
    )
)


def show(book, name, data, entries, room=20, says=None, leaves=None, crew=0):
    book.case(name)
    add(book, data, entries, room, says, leaves, crew)


def add(book, data, entries, room=20, says=None, leaves=None, crew=0):
    """A call more of the case that was begun."""
    book.use(data)
    made = "run", lambda buffer: run(data, crew, entries, buffer)
    book.lend(made, crew, bytes(entries).hex(), room=room, says=says, leaves=leaves)


def porter_cases(book):
    show(book, "case 12", PORTER, [0, 1, 3, 2], says=(0, 3, 0), leaves=[1, 2, 1])
    show(book, "case 12, 15", PORTER, [1, 3], says=(15, 1, 0), leaves=[])
    show(book, "case 12, 16", PORTER, [0, 4], says=(16, 1, 0), leaves=[])
    show(book, "case 12, the empty run", PORTER, [], says=(17, 0, 0), leaves=[])

    show(book, "a list that ends before the goal", PORTER, [0, 1, 3])
    show(book, "one step", PORTER, [0])
    show(book, "a first step that may not be done", PORTER, [2])
    show(book, "a second step whose conditions fail", PORTER, [1, 2])
    show(book, "a third step whose second condition fails", PORTER, [0, 1, 2])
    show(book, "a step that waits for the cart", PORTER, [0, 3])
    show(book, "a step again", PORTER, [0, 1, 3, 2, 0])
    show(book, "a step back behind the goal", PORTER, [0, 1, 3, 2, 4])
    show(book, "an action that is not there", PORTER, [5])
    show(book, "an action that is not there behind the goal", PORTER, [0, 1, 3, 2, 255])

    show(book, "room for the state", PORTER, [1, 0, 3, 2], room=3)
    show(book, "a byte less", PORTER, [1, 0, 3, 2], room=2)
    show(book, "a byte less, and an action that is not there", PORTER, [5], room=2)
    show(book, "no room", PORTER, [], room=0)

    show(book, "the porter file and a byte", PORTER + b"\0", [0, 1, 3, 2])
    show(book, "the porter file cut to 55", PORTER[:55], [0, 1, 3, 2], room=2)
    show(book, "the porter file cut to 54", PORTER[:54], [5])
    show(book, "no file", b"", [], room=0)
    show(book, "the porter file with seed 0", PORTER[:54] + b"\0" + PORTER[55:], [0, 1, 3, 2])


def horse_cases(book):
    show(book, "the plan that 004 publishes, a5 a6 a7 a4 a2 a3, which puts the bucket back", HORSE, [4, 5, 6, 3, 1, 2])
    show(book, "its first steps", HORSE, [4, 5, 6])
    show(book, "the haystack alone", HORSE, [1, 2])
    show(book, "a condition that the step before broke", HORSE, [4, 1])
    show(book, "the haystack there and back", HORSE, [1, 0])
    show(book, "a start value that a step has left", HORSE, [1, 4])
    show(book, "an action that is not there", HORSE, [4, 5, 6, 7])


# Two ways to load a cart: 0 by day, which needs a pass, and 1 by night, in situation 2; 2 takes the pass.
def loading(situation):
    actions = [Action(0, 0, 1, [(1, 1)], 0b11111011), Action(0, 0, 1, [], 4), Action(1, 0, 1)]
    return written(Study([2, 2], actions, [Crew([0, 0], [1, 1], 1)], situation))


def situation_cases(book):
    for situation in range(8):
        day, night = loading(situation), situation == 2
        show(book, f"by night in situation {situation}", day, [1, 2], says=(0, 2, 0) if night else (20, 0, 0))
        show(book, f"by day in situation {situation}", day, [2, 0], says=(20, 1, 0) if night else (0, 2, 0))
    show(book, "an action out of force that may not be done either: 20 before 15", loading(2), [0], says=(20, 0, 0))
    show(book, "an action out of force that takes a value again: 20 before 16", loading(0), [2, 0, 1], says=(20, 2, 0))
    show(book, "an action that is not there: 14", loading(2), [3, 0], says=(14, 0, 0))
    show(book, "an action out of force, and no room: 13", loading(2), [0], room=1, says=(13, 2, 0))


def write(book):
    porter_cases(book)
    situation_cases(book)
    horse_cases(book)
    show(book, "256 steps", TALL, list(range(256)))
    show(book, "256 steps and room for the state", TALL, list(range(256)), room=18)
    show(book, "256 steps and a byte less", TALL, list(range(256)), room=17)
    show(book, "255 of the steps", TALL, list(range(255)))
    show(book, "300 steps", TALL, [k % 256 for k in range(300)])
