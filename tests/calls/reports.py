"""Reports on seeds in a row: the oracle's, held against figures worked out from the rules."""

from dataclasses import replace

from oracle import PORTER, Action, Study, coming_round, drawn, file_of, heard, porter, report, two_wanting

LARGEST = 2**64 - 1
LAST_SEED = 2147483646


def show(book, name, file, first, count, room=28, says=None, leaves=None, crew=0):
    book.case(f"report: {name}")
    book.use(file)
    made = "report", lambda buffer: report(file, crew, first, count, buffer)
    book.lend(made, crew, first, count, room=room, says=says, leaves=leaves)


def reported(book, name, file, first, count, figures, room=28):
    show(book, name, file, first, count, room, (0, len(figures), 0), figures)


def refused(book, name, file, first, count, *numbers, room=28):
    show(book, name, file, first, count, room, (*numbers, 0), b"")


def figures_of(plans, actions):
    rows = [sum(plan[at] == action for plan in plans) for at in range(len(plans[0])) for action in range(actions)]
    return [len(plans), 0, 0, 0, len(set(plans)), *rows]


def by_ranks(free, then, actions, first, count):
    """The figures where each plan is the free actions by rank, and then others in one order."""
    plans = []
    for seed in range(first, first + count):
        ranks, _ = drawn(seed, actions)
        plans.append((*sorted(free, key=lambda action: ranks[action]), *then))
    return figures_of(plans, actions)


def porters(book):
    """Actions 0 and 1 by rank, then 3 and 2: a report of 5 and 4 times 5 figures."""

    def porter_figures(first, count):
        return by_ranks([0, 1], [3, 2], 5, first, count)

    for first, count in [(1, 64), (1, 1), (2, 1), (1, 2), (1000000, 63), (LAST_SEED - 63, 64), (LAST_SEED, 1)]:
        reported(book, f"the porter, {count} from {first}", PORTER, first, count, porter_figures(first, count))
    reported(book, "room for 25", PORTER, 1, 64, porter_figures(1, 64), room=25)
    refused(book, "room for 24", PORTER, 1, 64, 13, 25, room=24)
    refused(book, "no room", PORTER, 1, 1, 13, 25, room=0)


def seeds_refused(book):
    """19, then 18 with the first seed that is out of range, then 13."""
    for count in (0, 65, 256, 2**32 + 1, LARGEST):
        refused(book, f"{count} seeds", PORTER, 1, count, 19, count)
    for first in (0, LAST_SEED + 1, 2**32 + 1, LARGEST):
        refused(book, f"from {first}", PORTER, first, 64, 18, first)
    refused(book, "two from the last", PORTER, LAST_SEED, 2, 18, LAST_SEED + 1)
    refused(book, "64 that end behind the last", PORTER, LAST_SEED - 62, 64, 18, LAST_SEED + 1)
    refused(book, "no seed from 0", PORTER, 0, 0, 19, 0, room=0)
    refused(book, "from 0 into no room", PORTER, 0, 1, 18, 0, room=0)
    refused(book, "a cut file, no seed from 0, no room", PORTER[:54], 0, 0, 1, 50, room=0)
    refused(book, "no file", b"", 1, 1, 1, 0)


def no_plans(book):
    """All seeds are refused alike: five figures."""
    for name, file, at in [
        ("10", porter((1, 0, 1), start=(0, 2, 0)), 1),
        ("10, coming round,", coming_round(), 1),
        ("11", porter((0, 2, 1)), 2),
        ("12", two_wanting(1), 3),
    ]:
        for count in (1, 64):
            figures = [0] * 5
            figures[at] = count
            reported(book, f"{name} with {count}", file, 7, count, figures)
        refused(book, f"{name} in room for 4", file, 7, 64, 13, 5, room=4)


def other_plans(book):
    for count in (1, 64):
        reported(book, f"{count} empty plans", porter((0, 0, 0)), 3, count, [count, 0, 0, 0, 1], room=5)
    refused(book, "empty plans in room for 4", porter((0, 0, 0)), 3, 64, 13, 5, room=4)
    more = file_of(replace(heard(PORTER, 0), actions=[*heard(PORTER, 0).actions, Action(2, 1, 0, [], 0)]))
    reported(book, "an action out of force has its figures", more, 1, 40, by_ranks([0, 1], [3, 2], 6, 1, 40), room=30)


def many_actions(book):
    """Actions 1, 17 and 33 by rank; the others are on no walk."""
    actions = [Action(variable, 0 if post else 1, post) for variable in range(5) for post in range(16)]
    for many in (63, 64, 65, 80):
        variables = (many + 15) // 16
        file = file_of(Study([16] * variables, actions[:many], [(0, 1)] * 3 + [(0, 0)] * (variables - 3), 1))
        figures = by_ranks([1, 17, 33], [], many, 1, 64)
        reported(book, f"three steps of {many} actions", file, 1, 64, figures, room=5 + 3 * many)
        refused(book, f"three steps of {many} actions, a byte short", file, 1, 64, 13, 5 + 3 * many, room=4 + 3 * many)


def write(book):
    porters(book)
    seeds_refused(book)
    no_plans(book)
    other_plans(book)
    many_actions(book)
