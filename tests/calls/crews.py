"""Crews: the calls that name one, held against document 02's rules worked out by hand."""

from dataclasses import replace

from calls import charts, checks, plans, reports, runs
from oracle import PORTER, Crew, file_of, heard, read
from study import MOST_CREWS, crew_record, seed_record, task_record

# The porter's crews, each with what its plan by rising ranks is. The second comes back from where the pass is taken, the third has
# nothing to do, the fourth wants a ride and no pass, the fifth a cart that no action takes back.
CREWS = [
    (Crew([(0, 1), (0, 2), (0, 1)], 1), (0, 4, 0), [0, 1, 3, 2]),
    (Crew([(1, 0), (0, 1), (0, 0)], 2), (0, 2, 0), [1, 4]),
    (Crew([(0, 0), (0, 0), (0, 0)], 3), (0, 0, 0), []),
    (Crew([(0, 0), (0, 2), (0, 1)], 4), (11, 2, 0), []),
    (Crew([(0, 1), (2, 0), (0, 1)], 5), (10, 1, 0), []),
    (Crew([(0, 1), (0, 1), (0, 1)], 6), (0, 3, 0), [0, 1, 3]),
    (Crew([(1, 1), (1, 2), (0, 1)], 7), (0, 2, 0), [3, 2]),
    (Crew([(0, 1), (0, 0), (0, 0)], 2147483646), (0, 1, 0), [0]),
]
NOT_THERE = [1, 2, 7, 8, 9, 255, 256, 2**32, 2**32 + 1, 2**64 - 1]


def manned(*numbers):
    """The porter's file with these of the crews."""
    return file_of(replace(read(PORTER), crews=[CREWS[number][0] for number in numbers]))


def all_calls(book, name, file, crew, number, numbers, steps):
    """Each call that names a crew, for one of the crews above."""
    plans.show_plan(book, f"crews: {name}", file, plans.RISING, 12, numbers, steps, crew)
    plans.add_seeded(book, file, 12, crew=crew)
    end = [goal for _, goal in CREWS[number][0].tasks]
    straight = ((0, 3, 0), end) if numbers[0] == 0 else (None, None)
    runs.add(book, file, steps, 12, *straight, crew=crew)
    reports.show(book, f"{name}, a report", file, 1, 9, 28, crew=crew)
    chain = list(zip(steps, steps[1:]))
    charted = (0, len(steps), len(chain)) if numbers[0] == 0 else numbers
    charts.show(book, f"{name}, its steps as a chain", file, steps, chain, *charted, crew=crew)


def each_in_turn(book):
    for many in range(1, MOST_CREWS + 1):
        file = manned(*range(many))
        checks.show(book, f"crews: {many}", file, says=(0, 5, 3))
        for crew in range(many):
            all_calls(book, f"crew {crew} of {many}", file, crew, crew, *CREWS[crew][1:])


def exchanged(book):
    """A crew answers as it did, whatever its number is and whoever stands beside it."""
    for order in ([1, 0], [2, 1, 0], [3, 0, 4], [0, 0, 1, 1], [7, 6, 5, 4, 3, 2, 1, 0], [1, 1, 1, 1, 1, 1, 1, 0]):
        file = manned(*order)
        for crew in sorted({0, len(order) // 2, len(order) - 1}):
            number = order[crew]
            all_calls(book, f"{number} as crew {crew} of {order}", file, crew, number, *CREWS[number][1:])


def alike(book):
    """Two crews with the same tasks and another seed: the ranks drawn are those of each seed."""
    tasks = CREWS[0][0].tasks
    for first, second in ((1, 2), (2, 1), (1, 2147483646)):
        file = file_of(replace(read(PORTER), crews=[Crew(tasks, first), Crew(tasks, second)]))
        for crew, seed in enumerate((first, second)):
            alone = file_of(replace(heard(PORTER, 0), seed=seed))
            book.case(f"crews: seed {seed} as crew {crew} of seeds {first} and {second}, and alone")
            plans.add_seeded(book, file, 12, crew=crew)
            plans.add_seeded(book, alone, 12)


def not_there(book):
    """22 comes right after the file's own, before every other refusal of a call, and nothing is written."""
    for file, many in ((PORTER, 1), (manned(3, 4), 2), (manned(*range(8)), 8)):
        for crew in [number for number in NOT_THERE if number >= many]:
            says = 22, crew, 0
            plans.show_plan(book, f"crews: {crew} of {many}", file, [0], 0, says, [], crew)
            plans.add_plan(book, file, plans.RISING, 12, says, [], crew)
            plans.add_seeded(book, file, 12, says, [], crew)
            runs.add(book, file, [5], 0, says, [], crew)
            runs.add(book, file, [0, 1, 3, 2], 12, says, [], crew)
            reports.show(book, f"crew {crew} of {many}", file, 0, 0, 0, says, [], crew)
            charts.show(book, f"crew {crew} of {many}", file, [9] * 257, [], *says, crew=crew)


def faulty(book):
    """A fault of any crew is the file's, whichever crew is named."""
    crew = b"".join(task_record(v, 0, goal) for v, goal in enumerate((1, 2, 1))) + seed_record(1)
    begun = PORTER[:-1]
    ends = [
        ("a seed of 0", crew[:12] + seed_record(0) + b"\x06", (5, 12)),
        ("a goal too large", task_record(0, 0, 2) + crew[4:] + b"\x06", (5, 0)),
        ("a task of another variable", task_record(1, 0, 2) + crew[4:] + b"\x06", (5, 0)),
        ("a task too few", crew[:8] + crew[12:] + b"\x06", (3, 8)),
        ("a task too many", crew[:12] + crew[8:] + b"\x06", (3, 12)),
        ("no seed", crew[:12] + b"\x06", (3, 12)),
        ("no task", seed_record(1) + b"\x06", (3, 0)),
        ("no record", b"\x06", (3, 0)),
        ("no end", crew, (1, 17)),
        ("a cut seed", crew[:16], (1, 12)),
        ("another kind", b"\x0a", (2, 0)),
        ("an action", bytes([2, 2, 1, 0]) + crew + b"\x06", (3, 0)),
        ("another opening", b"\x09" + crew + b"\x06", (3, 0)),
        ("a byte behind the end", crew + b"\x06\x09", (8, 18)),
    ]
    for before in (1, 4, 7):
        head = begun + (b"\x09" + crew) * (before - 1) + b"\x09"
        for name, rest, (number, place) in ends:
            says = number, len(head) + place, 0
            checks.show(book, f"crews: {before}, and one with {name}", head + rest, says=says)
            for crew_named in (0, before, 255):
                plans.add_seeded(book, head + rest, 2, says, [], crew_named)
            runs.add(book, head + rest, [9], 0, says, [], 1)


def ninth(book):
    crew = PORTER[38:55]
    eight = PORTER[:-1] + (b"\x09" + crew) * 7
    for name, rest in (("whole", crew + b"\x06"), ("and nothing more", b""), ("without tasks", b"\x06"), ("opened twice", b"\x09")):
        checks.show(book, f"crews: a ninth, {name}", eight + b"\x09" + rest, says=(4, len(eight), 0))
        plans.add_seeded(book, eight + b"\x09" + rest, 4, (4, len(eight), 0), [], 8)
    checks.show(book, "crews: eight, and no ninth", eight + b"\x06", says=(0, 5, 3))


def misplaced(book):
    """What opens a crew may stand behind a seed alone."""
    for place in (0, 2, 6, 10, 18, 21, 24, 38, 42, 50):
        checks.show(book, f"crews: one opened at {place}", PORTER[:place] + crew_record() + PORTER[place:], says=(3, place, 0))
    checks.show(book, "crews: one opened for the end", PORTER[:55] + crew_record(), says=(1, 56, 0))
    checks.show(book, "crews: one opened behind the end", PORTER + crew_record(), says=(8, 56, 0))


def in_one_buffer(book):
    """Nothing is kept between calls, nor between crews, but the buffer's bytes."""
    file = manned(0, 1, 2, 3)
    book.case("crews: in one buffer, 0 1 2 3 0 1, of another file 1, and 0 by the seed")
    for crew in (0, 1, 2, 3, 0, 1):
        plans.add_plan(book, file, plans.RISING, 8, crew=crew)
    plans.add_plan(book, manned(4, 5), plans.RISING, 8, (0, 3, 0), [0, 1, 3], 1)
    plans.add_seeded(book, file, 8, crew=0)
    runs.add(book, file, [1, 4], 8, (0, 3, 0), [0, 1, 0], 1)
    runs.add(book, file, [1, 4], 8, (15, 1, 0), [], 0)


def write(book):
    for part in (each_in_turn, exchanged, alike, not_there, faulty, ninth, misplaced, in_one_buffer):
        part(book)
