"""Charts: the oracle's answers, held against document 02's rules worked out by hand."""

from oracle import PORTER, Action, Study, chart, coming_round, file_of, porter, two_wanting

# The porter's actions and direct orders; its straight plans are 0 1 3 2 and 1 0 3 2.
LISTED = [0, 1, 2, 3]
ORDERS = [(0, 2), (0, 3), (1, 2), (1, 3), (3, 2)]


def show(book, name, file, actions, pairs, *says, lone=(), crew=0):
    """Pairs are two numbers each; a lone last byte may follow."""
    book.case(f"chart: {name}")
    listed, paired = bytes(actions), bytes([*(action for pair in pairs for action in pair), *lone])
    book.use(file + listed + paired)
    numbers, _ = chart(file, crew, listed, paired)
    book.held(numbers, says)
    book.ask(f"chart {crew} {len(file)} {len(listed)}", "answers", *numbers)


def porters(book):
    show(book, "the porter's own orders", PORTER, LISTED, ORDERS, 0, 4, 5)
    show(book, ".. in another order", PORTER, LISTED[::-1], ORDERS[::-1], 0, 4, 5)
    show(book, "its first plan as a chain", PORTER, LISTED, [(0, 1), (1, 3), (3, 2)], 0, 4, 3)
    show(book, "its second plan as a chain", PORTER, LISTED, [(1, 0), (0, 3), (3, 2)], 0, 4, 3)
    show(book, "chains in place of two direct orders", PORTER, LISTED, [(0, 3), (1, 3), (3, 2)], 0, 4, 3)
    show(book, "one of them also a pair", PORTER, LISTED, [(0, 3), (1, 3), (3, 2), (0, 2)], 0, 4, 4)
    show(book, "a longer chain in place of one", PORTER, LISTED, [(0, 1), (1, 3), (3, 2), (1, 2)], 0, 4, 4)
    show(book, "repeats of pairs", PORTER, LISTED, ORDERS + [(0, 2), (3, 2), (0, 2)], 0, 4, 8)
    show(book, "nothing to do", porter((0, 0, 0)), [], [], 0, 0, 0)
    show(book, "three steps", porter((1, 1, 1)), [0, 1, 3], [(0, 3), (1, 3)], 0, 3, 2)


def wanting(value):
    """Action 0 wants the second variable at a value, which action 1 sets from 0."""
    return file_of(Study([2, 2], [Action(0, 0, 1, [(1, value)]), Action(1, 0, 1)], [(0, 1), (0, 1)], 1))


def one_rule_each(book):
    """A direct order of (a), of (b) and of (c), each alone: given, missing, turned round, both ways."""
    two_steps = file_of(Study([3], [Action(0, 1, 2), Action(0, 0, 1)], [(0, 2)], 1))
    for name, file, first, second in [("(a)", two_steps, 1, 0), ("(b)", wanting(1), 1, 0), ("(c)", wanting(0), 0, 1)]:
        show(book, f"{name} given", file, [0, 1], [(first, second)], 0, 2, 1)
        show(book, f"{name} missing", file, [0, 1], [], 28, first, second)
        show(book, f"{name} turned round", file, [0, 1], [(second, first)], 28, first, second)
        show(book, f"{name} both ways", file, [0, 1], [(second, first), (first, second)], 27, 0, 0)


def lists_refused(book):
    """14, then 25 with the lowest action that is amiss in any way."""
    show(book, "an entry that is no action", PORTER, [0, 1, 5, 3], ORDERS, 14, 2, 0)
    show(book, "the first of two", PORTER, [0, 255, 5, 3], ORDERS, 14, 1, 0)
    show(book, "14 before 25", PORTER, [4, 4, 5], [], 14, 2, 0)
    night = file_of(Study([2], [Action(0, 0, 1), Action(0, 1, 0, [], 2)], [(0, 1)], 1))
    show(book, "an action out of force", night, [0, 1], [], 14, 1, 0)
    show(book, "it is not listed", night, [0], [(0, 1)], 26, 0, 0)
    show(book, "without it", night, [0], [], 0, 1, 0)
    show(book, "a missing action", PORTER, [0, 1, 2], ORDERS, 25, 3, 0)
    show(book, "no action", PORTER, [], [], 25, 0, 0)
    show(book, "an action that repeats", PORTER, [0, 1, 2, 3, 1], ORDERS, 25, 1, 0)
    show(book, "an action on no walk", PORTER, [0, 1, 2, 3, 4], ORDERS, 25, 4, 0)
    show(book, "missing, below one that repeats and one on no walk", PORTER, [4, 3, 3, 0, 2], [], 25, 1, 0)
    show(book, "repeats, below one that is missing", PORTER, [4, 3, 1, 1, 0], [], 25, 1, 0)
    show(book, "on no walk, with nothing to do", porter((0, 0, 0)), [2, 1], [], 25, 1, 0)
    show(book, "25 before 26", PORTER, [0, 1, 2], [(0, 0)], 25, 3, 0)


def pairs_refused(book):
    """26 with the first pair's index, then 27, then 28 with the lowest two actions."""
    show(book, "a pair with an action that is not listed", PORTER, LISTED, ORDERS + [(0, 4)], 26, 5, 0)
    show(book, "with one as the first", PORTER, LISTED, [(4, 0), *ORDERS], 26, 0, 0)
    show(book, "with a number that is no action", PORTER, LISTED, [(0, 1), (0, 255)], 26, 1, 0)
    show(book, "with itself", PORTER, LISTED, ORDERS + [(3, 3)], 26, 5, 0)
    show(book, "a lone last byte", PORTER, LISTED, ORDERS, 26, 5, 0, lone=[2])
    show(book, "a lone byte and nothing else", PORTER, LISTED, [], 26, 0, 0, lone=[0])
    show(book, "a pair where nothing is listed", porter((0, 0, 0)), [], [(0, 1)], 26, 0, 0)
    show(book, "26 before 27", PORTER, LISTED, [(0, 1), (1, 0), (0, 0)], 26, 2, 0)
    show(book, "a circle of two", PORTER, LISTED, ORDERS + [(0, 1), (1, 0)], 27, 0, 0)
    show(book, "a circle of three", PORTER, LISTED, ORDERS + [(2, 0)], 27, 0, 0)
    show(book, "a circle of four", PORTER, LISTED, [(0, 1), (1, 2), (2, 3), (3, 0)], 27, 0, 0)
    show(book, "27 before 28", PORTER, LISTED, [(2, 3), (3, 2)], 27, 0, 0)
    show(book, "no pair", PORTER, LISTED, [], 28, 0, 2)
    show(book, "the last direct order missing", PORTER, LISTED, ORDERS[:4], 28, 3, 2)
    show(book, "two missing, by the first", PORTER, LISTED, [(0, 3), (0, 2), (1, 2)], 28, 1, 3)
    show(book, "two missing, by the second", PORTER, LISTED, [(1, 3), (1, 2)], 28, 0, 2)
    show(book, "a chain that is turned round", PORTER, LISTED, [(2, 3), (3, 1), (1, 0)], 28, 0, 2)


def files_refused(book):
    """The file's own, then 10 to 12, before 19."""
    many, lone = [0] * 257, [0]
    show(book, "a cut file", PORTER[:54], [], [], 1, 50, 0)
    show(book, "no file", b"", [], [], 1, 0, 0)
    show(book, "no walk", porter((1, 0, 1), start=(0, 2, 0)), many, [], 10, 1, 0)
    show(book, "a trace that comes round", coming_round(), many, [], 10, 0, 255)
    show(book, "a condition off its walk", porter((0, 2, 1)), many, [], 11, 2, 0, lone=lone)
    show(book, "a ring", two_wanting(1), [0, 1], [(0, 1), (1, 0)], 12, 0, 0)
    show(book, "a ring beside a free action", two_wanting(0, more=True), [2], [], 12, 1, 0)


def long_chain():
    """256 actions, each the next of its walk or the first of another: 17 variables of 15 steps, and one of one."""
    actions = [Action(k // 15, k % 15, k % 15 + 1) for k in range(256)]
    return file_of(Study([16] * 17 + [2], actions, [(0, 15)] * 17 + [(0, 1)], 1))


def limits(book):
    show(book, "256 actions", PORTER, [0] * 256, [], 25, 0, 0)
    show(book, "256 that are not there", PORTER, [5] * 256, [], 14, 0, 0)
    show(book, "257 actions", PORTER, [5] * 257, [], 19, 257, 0)
    repeats = [(0, 2)] * 4090
    show(book, "4,095 pairs", PORTER, LISTED, ORDERS + repeats, 0, 4, 4095)
    show(book, "4,096, the last lone", PORTER, LISTED, ORDERS + repeats, 26, 4095, 0, lone=[0])
    show(book, "4,096 pairs", PORTER, LISTED, ORDERS + repeats + [(0, 3)], 0, 4, 4096)
    show(book, "4,097, the last lone", PORTER, LISTED, ORDERS + repeats + [(0, 3)], 19, 4097, 0, lone=[0])
    show(book, "4,097 pairs", PORTER, LISTED, ORDERS + repeats + [(0, 3), (0, 3)], 19, 4097, 0)
    show(book, "257 actions before 4,097 pairs", PORTER, [5] * 257, ORDERS + repeats + [(0, 3), (0, 3)], 19, 257, 0)
    show(book, "4,097 pairs before an entry that is no action", PORTER, [5], [(0, 0)] * 4097, 19, 4097, 0)


def large(book):
    """256 actions and 4,096 pairs, all along one order: the chain, and of the rest those that are least apart."""
    apart = [(k, k + gap) for gap in range(1, 18) for k in range(256 - gap)][:4096]
    listed, file = list(range(256)), long_chain()
    show(book, "256 actions, 4,096 pairs", file, listed, apart, 0, 256, 4096)
    show(book, "the last pair leads back", file, listed, [*apart[:4095], (255, 0)], 27, 0, 0)
    chain = apart[:255]
    show(book, "256 actions, the chain alone", file, listed, chain, 0, 256, 255)
    show(book, "without a pair between walks", file, listed, chain[:14] + chain[15:], 0, 256, 254)
    show(book, "without two pairs of walks", file, listed, chain[:69] + chain[70:200] + chain[201:], 28, 69, 70)
    show(book, "the chain led back", file, listed, [*chain, (255, 0)], 27, 0, 0)
    show(book, "an action left out", file, listed[:200] + listed[201:], chain, 25, 200, 0)


def write(book):
    for part in (porters, one_rule_each, lists_refused, pairs_refused, files_refused, limits, large):
        part(book)
