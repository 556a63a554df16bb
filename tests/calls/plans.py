"""Planning: the oracle's answers, held against those that document 01 states."""

import sys
from dataclasses import replace

from oracle import (
    PORTER,
    Action,
    Study,
    coming_round,
    done,
    drawn,
    file_of,
    goal_state,
    heard,
    horse_breeder,
    may_be_done,
    plan,
    plan_seeded,
    porter,
    start_state,
    two_wanting,
)

RISING = bytes(range(5))


def add_plan(book, file, ranks, room=12, says=None, leaves=None, crew=0):
    """A call more of the case that was begun."""
    book.use(file)
    made = "plan", lambda buffer: plan(file, crew, bytes(ranks), buffer)
    book.lend(made, crew, bytes(ranks).hex(), room=room, says=says, leaves=leaves)


def add_seeded(book, file, room=12, says=None, leaves=None, crew=0):
    book.use(file)
    made = "seeded", lambda buffer: plan_seeded(file, crew, buffer)
    book.lend(made, crew, room=room, says=says, leaves=leaves)


def show_plan(book, name, file, ranks, room=12, says=None, leaves=None, crew=0):
    book.case(name)
    add_plan(book, file, ranks, room, says, leaves, crew)


def show_seeded(book, name, file, room=12):
    book.case(f"{name}, by the file's seed")
    add_seeded(book, file, room)


def case(book, name, file, ranks, numbers, steps=(), room=12):
    """A case that document 01 works out."""
    show_plan(book, name, file, ranks, room, numbers, steps)


def to_goal(book, name, file, numbers, steps=()):
    case(book, name, file, RISING, numbers, steps)
    show_seeded(book, name, file)


def worked(book):
    case(book, "case 3", PORTER, RISING, (0, 4, 0), [0, 1, 3, 2])
    case(book, "case 4", PORTER, [3, 0, 4, 1, 2], (0, 4, 0), [1, 0, 3, 2])
    show_seeded(book, "case 4", PORTER)
    to_goal(book, "case 5", porter((0, 0, 0)), (0, 0, 0))
    to_goal(book, "case 6", porter((0, 2, 1)), (11, 2, 0))
    to_goal(book, "case 7", porter((1, 2, 0)), (11, 2, 2))
    to_goal(book, "case 8", porter((1, 1, 1)), (0, 3, 0), [0, 1, 3])
    to_goal(book, "case 9", porter((1, 0, 1), start=(0, 2, 0)), (10, 1, 0))
    case(book, "case 10, room for 3", PORTER, RISING, (13, 4, 0), room=3)
    case(book, "case 10, room for 4", PORTER, RISING, (0, 4, 0), [0, 1, 3, 2], room=4)
    case(book, "case 11, a rank repeated", PORTER, [0, 1, 1, 3, 4], (9, 2, 0))
    case(book, "case 11, four ranks", PORTER, [0, 1, 2, 3], (9, 4, 1))
    case(book, "case 13, both at 1", two_wanting(1), [0, 1], (12, 0, 0))
    case(book, "case 13, both at 0", two_wanting(0), [0, 1], (12, 0, 0))
    case(book, "case 13, both at 1 and a third", two_wanting(1, more=True), [0, 1, 2], (12, 1, 0))
    case(book, "case 13, both at 0 and a third", two_wanting(0, more=True), [0, 1, 2], (12, 1, 0))
    show_seeded(book, "case 13, both at 0 and a third", two_wanting(0, more=True), 0)
    case(book, "case 14", coming_round(), [0, 1], (10, 0, 255))
    case(book, "case 15", horse_breeder(), range(7), (11, 5, 1))


NO_RING = file_of(Study([2] * 3, [Action(0, 0, 1, [(1, 0)]), Action(1, 0, 1, [(0, 1)]), Action(2, 0, 1)], [(0, 1)] * 3, 1))

# Actions 0 and 1 are a ring. Action 2 comes before it, 3 after it, 4 after 3; 5 is apart.
RING_BETWEEN = file_of(
    Study(
        [2] * 6,
        [
            Action(0, 0, 1, [(1, 1), (2, 1)]),
            Action(1, 0, 1, [(0, 1)]),
            Action(2, 0, 1),
            Action(3, 0, 1, [(1, 1)]),
            Action(4, 0, 1, [(3, 1)]),
            Action(5, 0, 1),
        ],
        [(0, 1)] * 6,
        1,
    )
)


def still(goal):
    """One variable, and an action that leads it back to its start."""
    return file_of(Study([2], [Action(0, 1, 0)], [(0, goal)], 1))


def without_action(goal):
    """One variable, which nobody uses."""
    return file_of(Study([2], [], [(0, goal)], 1))


def other_files(book):
    show_plan(book, "no ring", NO_RING, [0, 1, 2])
    show_plan(book, "no ring, other ranks", NO_RING, [0, 2, 1])
    show_plan(book, "a ring between", RING_BETWEEN, range(6))
    show_plan(book, "a ring between, and no room", RING_BETWEEN, [5, 4, 3, 2, 1, 0], 0)
    show_seeded(book, "a ring between", RING_BETWEEN)
    show_plan(book, "one action, at the goal", still(0), [0], 0)
    show_seeded(book, "one action, at the goal", still(0))
    show_plan(book, "one action, and the goal elsewhere", still(1), [0])
    show_plan(book, "one action, and two ranks", still(1), [0, 1])
    case(book, "no action, at the goal", without_action(0), [], (21, 0, 0))
    case(book, "no action, and a rank", without_action(0), [0], (21, 0, 0))
    case(book, "no action, away from the goal", without_action(1), [], (21, 0, 0))
    dead = replace(heard(PORTER, 0), counts=[2, 3, 2, 2], tasks=[(0, 1), (0, 2), (0, 1), (0, 0)])
    case(book, "the porter with a dead pass", file_of(dead), range(5), (21, 3, 0))
    case(book, "the porter with a dead pass, and ranks too few", file_of(dead), [0], (21, 3, 0))


def rank_lists(book):
    show_plan(book, "falling ranks", PORTER, [4, 3, 2, 1, 0])
    show_plan(book, "a rank of 5", PORTER, [0, 1, 2, 3, 5])
    show_plan(book, "a rank repeated before one of 9", PORTER, [4, 4, 9, 0, 0])
    show_plan(book, "a rank of 255 before one repeated", PORTER, [255, 1, 1, 3, 4])
    show_plan(book, "six ranks", PORTER, [0, 1, 2, 3, 4, 4])
    show_plan(book, "no ranks", PORTER, [])


def which_first(book):
    """Where two refusals could be given, the first in their order is."""
    no_walk = porter((1, 0, 0), start=(0, 2, 0))
    show_plan(book, "ranks and room", PORTER, [0, 1, 1, 3, 4], 3)
    show_plan(book, "ranks and no walk", no_walk, [0, 1, 2, 3])
    show_plan(book, "no walk and room", no_walk, RISING, 0)
    show_plan(book, "off a walk and room", porter((1, 2, 0)), RISING, 0)
    show_plan(book, "no room wanted", porter((0, 0, 0)), RISING, 0)


def seeds(book):
    for seed in (1, 2, 256, 2147483646, 2147483647, 0):
        show_seeded(book, f"seed {seed}", file_of(replace(heard(PORTER, 0), seed=seed)))
    show_seeded(book, "room for 3", PORTER, 3)
    show_seeded(book, "room for 4", PORTER, 4)


def with_byte(at, byte):
    return PORTER[:at] + bytes([byte]) + PORTER[at + 1 :]


def faults(book):
    """Faults of the file come first, before a wrong rank list and a short buffer."""
    for name, file in [
        ("nothing", b""),
        ("cut to 54", PORTER[:54]),
        ("cut to 55", PORTER[:55]),
        ("an unknown kind", with_byte(6, 10)),
        ("a crew for an action", with_byte(6, 9)),
        ("a set for an action", with_byte(6, 7)),
        ("an end for an action", with_byte(6, 6)),
        ("a variable of 17 values", with_byte(1, 17)),
        ("pre equal to post", with_byte(9, 0)),
        ("a value set twice", with_byte(11, 0)),
        ("33 variables", bytes([1, 2]) * 33),
        ("a byte more", still(0) + b"\0"),
    ]:
        show_plan(book, name, file, [0], 2)
        show_seeded(book, name, file, 2)


def in_one_buffer(book):
    """Nothing is kept between calls but the buffer's bytes."""
    with_bucket = file_of(replace(heard(horse_breeder(), 0), tasks=[(0, 2), (1, 0), (0, 2)]))
    book.case("in one buffer: porter, horse, horse with the bucket, porter to 1 1 1, and porter again with room for 3 and for 8")
    add_plan(book, PORTER, RISING, 8)
    add_plan(book, horse_breeder(), range(7), 8)
    add_plan(book, with_bucket, [6, 5, 4, 3, 2, 1, 0], 8)
    add_plan(book, porter((1, 1, 1)), RISING, 8)
    add_plan(book, PORTER, [3, 0, 4, 1, 2], 3)
    add_seeded(book, PORTER, 8)
    add_seeded(book, PORTER, 8)


# A plan of 120 steps.


def long(seed):
    """8 variables that go from 0 to 15, one value a step."""
    return Study([16] * 8, [Action(v, q, q + 1) for v in range(8) for q in range(15)], [(0, 15)] * 8, seed)


def first_tried(study, ranks):
    """The straight plan that is met first where lists are tried in dictionary order of ranks."""
    in_order = sorted(range(len(study.actions)), key=lambda number: ranks[number])

    def tried(steps, state, held):
        if state == goal_state(study):
            return steps
        for number in in_order:
            action = study.actions[number]
            taken = (action.variable, action.post)
            if may_be_done(state, action) and taken not in held:
                found = tried(steps + [number], done(state, action), held | {taken})
                if found is not None:
                    return found
        return None

    start = start_state(study)
    return tried([], start, frozenset(enumerate(start)))


def compare_long(study, ranks):
    """The oracle tries no list of a file with so many; here they are tried in order until one is a straight plan."""
    steps = bytes(first_tried(study, ranks))
    if plan(file_of(study), 0, bytes(ranks), bytes(120)) != ((0, 120, 0), steps):
        sys.exit(f"120 steps: the first straight plan is {list(steps)}")


def show_long(book, step, room):
    ranks = [step * i % 120 for i in range(120)]
    compare_long(long(1), ranks)
    show_plan(book, f"120 steps, action i of rank {step} i modulo 120, room for {room}", file_of(long(1)), ranks, room)


def show_long_seeded(book, seed, room):
    compare_long(long(seed), drawn(seed, 120)[0])
    show_seeded(book, f"120 steps, room for {room}", file_of(long(seed)), room)


# Two ways to load a cart: by day a pass is needed, by night, in situation 2, none. In situation 3 neither holds.


def loading(situation):
    actions = [Action(0, 0, 1, [(1, 1)], 0b11110011), Action(1, 0, 1), Action(0, 0, 1, [], 4)]
    return file_of(Study([2, 2], actions, [(0, 1), (0, 1)], 1, situation))


def situations(book):
    for situation in (0, 1, 4, 7):
        case(book, f"by day, situation {situation}", loading(situation), [0, 1, 2], (0, 2, 0), [1, 0])
    case(book, "by night", loading(2), [0, 1, 2], (0, 2, 0), [1, 2])
    case(book, "by night, other ranks", loading(2), [0, 2, 1], (0, 2, 0), [2, 1])
    case(book, "neither by day nor by night", loading(3), [0, 1, 2], (10, 0, 1))
    case(book, "a rank for each action, in force or not", loading(2), [0, 1], (9, 2, 1))
    for situation in (0, 2, 3):
        show_seeded(book, f"loading in situation {situation}", loading(situation))
    no_pass = [Action(0, 0, 1, [(1, 1)]), Action(1, 0, 1, [], 2)]
    case(book, "what sets the wanted value is out of force", file_of(Study([2, 2], no_pass, [(0, 1), (0, 0)], 1)), [0, 1], (11, 0, 1))
    ring = [Action(0, 0, 1, [(1, 1)]), Action(1, 0, 1, [(0, 1)], 1), Action(1, 0, 1, [], 2)]
    case(book, "a ring by day", file_of(Study([2, 2], ring, [(0, 1)] * 2, 1)), [0, 1, 2], (12, 0, 0))
    case(book, "no ring by night", file_of(Study([2, 2], ring, [(0, 1)] * 2, 1, 1)), [0, 1, 2], (0, 2, 0), [2, 0])


# Where a walk breaks: at a value that no action sets, or nowhere, as the trace comes round.


def chain(variable, *values):
    """Actions from each value to the next."""
    return [Action(variable, pre, post) for pre, post in zip(values, values[1:])]


def breaking(book, name, counts, actions, tasks, numbers, steps=(), situation=0):
    file = file_of(Study(counts, actions, tasks, 1, situation))
    case(book, f"a walk: {name}", file, range(len(actions)), numbers, steps, 16)


def broken_walks(book):
    breaking(book, "broken at the goal itself", [3], chain(0, 0, 1), [(0, 2)], (10, 0, 2))
    breaking(book, "broken at the goal, which an action leaves", [3], chain(0, 2, 1, 0), [(0, 2)], (10, 0, 2))
    breaking(book, "broken in the middle", [6], chain(0, 0, 1, 2) + chain(0, 3, 4, 5), [(0, 5)], (10, 0, 3))
    breaking(book, "broken beside the start", [4], chain(0, 1, 2, 3), [(0, 3)], (10, 0, 1))
    breaking(book, "broken at 0", [3], chain(0, 0, 2), [(1, 2)], (10, 0, 0))
    breaking(book, "broken at 15", [16], chain(0, 15, 1), [(0, 1)], (10, 0, 15))
    breaking(book, "broken at 15, the goal", [16], chain(0, 1, 2), [(0, 15)], (10, 0, 15))
    breaking(book, "broken after 14 actions", [16], chain(0, *range(1, 16)), [(0, 15)], (10, 0, 1))
    breaking(book, "whole, of 15 actions", [16], chain(0, *range(16)), [(0, 15)], (0, 15, 0), range(15))


def out_of_force(book):
    """One action by night alone, in situation 1; one by day, in situation 0, that leads round."""
    one = [Action(0, 0, 1, [], 2), Action(0, 1, 2)]
    two = [Action(0, 0, 1, [], 2), Action(0, 1, 2), Action(0, 2, 1, [], 1)]
    breaking(book, "broken where the action is out of force", [3], one, [(0, 2)], (10, 0, 1))
    breaking(book, "whole where it is in force", [3], one, [(0, 2)], (0, 2, 0), [0, 1], 1)
    breaking(book, "round by day", [3], two, [(0, 2)], (10, 0, 255))
    breaking(book, "whole by night", [3], two, [(0, 2)], (0, 2, 0), [0, 1], 1)
    breaking(book, "broken in a third situation", [3], two, [(0, 2)], (10, 0, 1), situation=2)
    breaking(book, "broken at a goal that is set out of force", [2], [Action(0, 0, 1, [], 0)], [(0, 1)], (10, 0, 1))


def circles(book):
    breaking(book, "round, and the start is on no circle", [4], chain(0, 1, 2, 3, 1), [(0, 1)], (10, 0, 255))
    breaking(book, "round a circle without the goal", [5], chain(0, 1, 2, 1) + chain(0, 2, 3, 4), [(0, 4)], (10, 0, 255))
    breaking(book, "round through 15 values", [16], chain(0, *range(1, 16), 1), [(0, 15)], (10, 0, 255))
    breaking(book, "round at the end of 13 actions", [16], chain(0, 2, 1, *range(2, 16)), [(0, 15)], (10, 0, 255))
    breaking(book, "round, but for the start on the circle", [3], chain(0, 0, 1, 2, 0), [(1, 0)], (0, 2, 0), [1, 2])
    breaking(book, "all 16 values round, the start among them", [16], chain(0, *range(16), 0), [(5, 4)], (0, 15, 0), [*range(5, 16), *range(4)])


def lowest_broken(book):
    """Of several variables the lowest is told of, whichever way it breaks."""
    round_at = [chain(v, 1, 2, 1) for v in range(4)]
    breaking(book, "two come round", [3, 3], round_at[0] + round_at[1], [(0, 2)] * 2, (10, 0, 255))
    breaking(book, "one breaks, one comes round", [3, 3], chain(0, 1, 2) + round_at[1], [(0, 1), (0, 2)], (10, 0, 1))
    breaking(book, "one comes round, one breaks", [3, 3], round_at[0] + chain(1, 1, 2), [(0, 2), (0, 1)], (10, 0, 255))
    lower, tasks = chain(0, 0, 1, 2) + chain(1, 0, 2), [(0, 2), (1, 1), (0, 2), (0, 2)]
    breaking(book, "two have one, the third breaks", [3] * 4, lower + chain(2, 1, 2) + round_at[3], tasks, (10, 2, 1))
    breaking(book, "two have one, the third comes round", [3] * 4, lower + round_at[2] + chain(3, 1, 2), tasks, (10, 2, 255))
    breaking(book, "the last of 32", [16] * 32, [*chain(31, 7, 8), Action(31, 8, 9, [(v, 3) for v in range(31)])], [(3, 3)] * 31 + [(3, 9)], (10, 31, 7))


def many_broken(book):
    """80 actions: five variables, each of whose 16 values is set from the one below it."""
    actions = [Action(v, (q - 1) % 16, q) for v in range(5) for q in range(16)]
    for name, number, other, end in [("broken among 80 actions", 73, None, 9), ("round among 80 actions", 73, 12, 255)]:
        some = actions[:number] + ([Action(4, other, number % 16)] if other else []) + actions[number + 1 :]
        breaking(book, name, [16] * 5, some, [(0, 15)] * 4 + [(4, 15)], (10, 4, end))


def write(book):
    worked(book)
    situations(book)
    broken_walks(book)
    out_of_force(book)
    circles(book)
    lowest_broken(book)
    many_broken(book)
    other_files(book)
    rank_lists(book)
    which_first(book)
    seeds(book)
    faults(book)
    in_one_buffer(book)
    show_long(book, 1, 124)
    show_long(book, 119, 120)
    show_long(book, 7, 120)
    show_long(book, 7, 119)
    show_long_seeded(book, 1, 120)
    show_long_seeded(book, 2, 124)
