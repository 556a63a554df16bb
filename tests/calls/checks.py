"""Checking files: the porter file whole, cut, damaged and with a record more, and files at document 01's limits."""

from study import LONGEST_FILE, MOST_CREWS, PORTER, action_record, check, condition_record, crew_record, end_record, seed_record
from study import situation_record, situations_record, task_record, variable_record

TELLING = [0, 1, 2, 3, 4, 5, 6, 7, 8, 9, 10, 16, 17, 32, 255]
MORE = [variable_record(2), action_record(1, 2, 0), condition_record(2, 0), task_record(0, 0, 0), seed_record(2), end_record()]
MORE += [situations_record(1), situation_record(7), crew_record()]


def show(book, name, *files, says=None):
    book.case(name)
    for data in files:
        numbers = check(data)
        book.held(numbers, says)
        book.use(data)
        book.ask("check", "answers", *numbers)


def with_byte(data, at, byte):
    return data[:at] + bytes([byte]) + data[at + 1 :]


def with_seed(seed):
    return PORTER.replace(seed_record(1), seed_record(seed))


def inserted(at, record):
    return PORTER[:at] + record + PORTER[at:]


def porter_cases(book):
    show(book, "case 16", PORTER, says=(0, 5, 3))
    show(book, "case 16, seed 0", with_seed(0), says=(5, 50, 0))
    show(book, "case 16, cut to 55", PORTER[:55], says=(1, 55, 0))
    show(book, "case 16, cut to 54", PORTER[:54], says=(1, 50, 0))
    show(book, "case 16, one byte more", PORTER + b"\0", says=(8, 56, 0))
    show(book, "the porter file cut to 0, 1 .. 56 bytes", *(PORTER[:length] for length in range(57)))
    for at in range(56):
        show(book, f"byte {at} set to " + " ".join(map(str, TELLING)), *(with_byte(PORTER, at, byte) for byte in TELLING))
    for at in range(56):
        show(book, f"byte {at} set to 0 .. 10, and cut behind it", *(PORTER[:at] + bytes([byte]) for byte in range(11)))
    for at in range(57):
        show(book, f"a record more of each kind at {at}", *(inserted(at, record) for record in MORE))


# Places of the porter file: variables at 0, 2, 4; actions at 6, 10, 14, 24, 34; conditions at 18, 21, 28, 31; tasks at 38, 42, 46;
# the seed at 50.
TWO_BYTES = [
    ("pre equal to post", 8, 0, 9, 0),
    ("pre equal to post, both too large", 8, 2, 9, 2),
    ("pre equal to post, of no variable", 7, 3, 9, 0),
    ("pre equal to post, and the post is set before", 36, 1, 37, 1),
    ("an action that comes before", 36, 0, 37, 1),
    ("an action whose post is set before, from another pre", 16, 2, 17, 1),
    ("conditions out of order", 19, 2, 22, 0),
    ("a condition repeated", 22, 0, 23, 1),
    ("the first condition on the own variable", 19, 1, 20, 0),
    ("the second condition on the own variable", 22, 1, 23, 0),
    ("a condition on the own variable, value too large", 19, 1, 20, 3),
    ("a condition repeated, value too large", 22, 0, 23, 2),
    ("a condition on no variable", 22, 3, 23, 0),
    ("a task of a later variable", 39, 1, 41, 1),
    ("a task of an earlier variable", 43, 0, 45, 1),
    ("start and goal as large as may be", 44, 2, 45, 2),
    ("start too large", 44, 3, 45, 2),
    ("goal too large", 44, 2, 45, 3),
]


def altered(book):
    for name, at, byte, and_at, and_byte in TWO_BYTES:
        show(book, name, with_byte(with_byte(PORTER, at, byte), and_at, and_byte))
    for seed in [1, 256, 16777216, 2147483646, 2147483647, 2147483648, 4294967295]:
        show(book, f"seed {seed}", with_seed(seed))


# Situations. A variable of 2 values, which actions of some sets take from 0 to 1, in some situation.


def ways(situation, *sets):
    actions = b"".join(action_record(0, 0, 1) + situations_record(byte) for byte in sets)
    return situation_record(situation) + variable_record(2) + actions + task_record(0, 0, 1) + seed_record(1) + end_record()


def situations(book):
    for situation in range(8):
        alone = [1 << s for s in range(8)]
        show(book, f"eight ways, one for each situation, in situation {situation}", ways(situation, *alone), says=(0, 8, 1))
        says = (7, 10, 0) if situation == 2 else (0, 2, 1)
        show(book, f"two ways in situation 2 alone, in situation {situation}", ways(situation, 0b11111100, 4), says=says)
    show(book, "three ways, none in force", ways(0, 254, 254, 0), says=(0, 3, 1))
    show(book, "out of force, in force, out of force, in force", ways(1, 1, 3, 1, 2), says=(7, 22, 0))
    show(book, "two ways, and a byte behind", ways(0, 255, 255) + b"\0", says=(7, 6, 0))
    show(book, "two ways, the seed 0", ways(0, 255, 255).replace(seed_record(1), seed_record(0)), says=(5, 14, 0))
    show(book, "two ways, and an action out of range out of force", ways(0, 255, 255, 2).replace(
        action_record(0, 0, 1) + situations_record(2), action_record(0, 0, 2) + situations_record(2)), says=(5, 10, 0))
    for name, first in (("0", 0), ("8", 8), ("255", 255)):
        show(book, f"a written situation {name}", bytes([8, first]) + ways(0, 255), says=(5 if first else 6, 0, 0))
    show(book, "a written set of all eight", ways(0, 255)[:6] + b"\x07\xff" + ways(0, 255)[6:], says=(6, 6, 0))
    show(book, "a second set", ways(0, 1)[:8] + b"\x07\x01" + ways(0, 1)[8:], says=(3, 8, 0))
    show(book, "a second situation", situation_record(1) + ways(1, 1), says=(3, 2, 0))
    show(book, "a situation behind a variable", variable_record(2) + ways(1, 1), says=(3, 2, 0))
    show(book, "a set behind a variable", variable_record(2) + situations_record(1) + ways(0, 1), says=(3, 2, 0))
    with_set = situation_record(2) + PORTER[:34] + situations_record(4) + PORTER[34:]
    show(book, "the porter, who books by night alone", with_set, says=(0, 5, 3))
    for at in range(len(with_set)):
        cut = [with_set[:at] + bytes([byte]) for byte in range(11)]
        show(book, f"the same cut to {at}, then 0 .. 10", *cut)
    show(book, "a condition behind a set", with_set[:38] + condition_record(2, 1) + with_set[38:], says=(3, 38, 0))


# Variables that nobody uses: no action changes them and no condition names them. Actions are (variable, conditions, set), each from 0 to 1.


def using(count, *actions):
    records = b"".join(
        action_record(own, 0, 1) + b"".join(condition_record(v, 1) for v in named) + situations_record(byte)
        for own, named, byte in actions
    )
    return variables(count, 2) + records + rest(count)


def unused(book):
    show(book, "used by actions", using(2, (0, [], 255), (1, [], 255)), says=(0, 2, 2))
    show(book, "used by a condition only", using(2, (0, [1], 255)), says=(0, 1, 2))
    show(book, "used by an action out of force only", using(2, (0, [], 255), (1, [], 254)), says=(0, 2, 2))
    show(book, "used by a condition of an action out of force only", using(2, (0, [], 255), (0, [1], 0)), says=(0, 2, 2))
    show(book, "one that only its task names", using(2, (0, [], 255)), says=(21, 1, 0))
    show(book, "the first of two", using(2, (1, [], 255)), says=(21, 0, 0))
    show(book, "two dead ones: the lowest", using(4, (1, [3], 255)), says=(21, 0, 0))
    show(book, "two dead ones behind one that is used", using(4, (0, [2], 255)), says=(21, 1, 0))
    show(book, "the last of 32", using(32, (0, range(1, 31), 255)), says=(21, 31, 0))
    show(book, "32, all named by one action", using(32, (0, range(1, 32), 255)), says=(0, 1, 32))
    show(book, "a value set twice, and a dead one", using(3, (0, [], 255), (0, [], 255)), says=(7, 10, 0))
    show(book, "a dead one, and a byte behind", using(2, (0, [], 255)) + b"\0", says=(21, 1, 0))
    show(book, "a dead one, and the seed 0", using(2, (0, [], 255)).replace(seed_record(1), seed_record(0)), says=(5, 16, 0))
    show(book, "a dead one, and no end", using(2, (0, [], 255))[:-1], says=(1, 21, 0))
    show(book, "no action, and a byte behind", using(3) + b"\x09", says=(21, 0, 0))


# The limits.


def variables(count, values):
    return variable_record(values) * count


def conditions(own, below):
    return b"".join(condition_record(v, 1) for v in range(below) if v != own)


def setters(count, below, others, more=b""):
    """For each of the first variables an action for each value below `below`, from the next of 16 values."""
    return b"".join(
        action_record(v, (q + 1) % 16, q) + conditions(v, others) + more for v in range(count) for q in range(below)
    )


def crew(count):
    return b"".join(task_record(v, 0, 1) for v in range(count)) + seed_record(1)


def rest(count):
    return crew(count) + end_record()


def many_variables(book):
    for count in [1, 31, 32, 33, 34]:
        show(book, f"{count} variables", variables(count, 2) + action_record(0, 0, 1) + conditions(0, count) + rest(count))
        show(book, f"{count} variables, and no action", variables(count, 2) + rest(count))
    for name, last in [
        ("a 33rd variable of no value", variable_record(0)),
        ("a 33rd variable that is cut", b"\x01"),
        ("a task that is cut", b"\x04\x00\x00"),
        ("a condition that may not come, cut", b"\x03"),
    ]:
        show(book, f"32 variables, then {name}", variables(32, 2) + last)


def many_actions(book):
    for name, count, set_count, more in [
        ("256 actions", 16, 16, b""),
        ("272 actions", 17, 17, b""),
        ("241 actions", 17, 15, action_record(15, 0, 1) + condition_record(16, 0)),
        ("241 actions, and the last variable not used", 17, 15, action_record(15, 0, 1)),
        ("240 actions, then a post that the first sets", 17, 15, action_record(0, 5, 0)),
        ("240 actions, then a post that the last but one sets", 17, 15, action_record(14, 5, 14)),
        ("257 actions", 17, 16, action_record(16, 0, 1)),
        ("257 actions, the last of no variable", 17, 16, action_record(17, 0, 1)),
        ("257 actions, the last as the first", 17, 16, action_record(0, 1, 0)),
        ("a condition of the 256th action", 17, 16, condition_record(16, 15)),
        ("a condition of the 256th action on its own variable", 17, 16, condition_record(15, 0)),
    ]:
        show(book, name, variables(count, 16) + setters(set_count, 16, 0) + more + rest(count))
    for name, last in [("a 257th action that is cut", b"\x02\x11\x00"), ("a seed that may not come, cut", b"\x05\x00")]:
        show(book, f"256 actions, then {name}", variables(17, 16) + setters(16, 16, 0) + last)


def many_conditions(book):
    for name, own, more in [
        ("31 conditions of an action on variable 0", 0, b""),
        ("31 conditions of an action on variable 15", 15, b""),
        ("31 conditions of an action on variable 31", 31, b""),
        ("31 conditions, then the last again", 15, condition_record(31, 1)),
        ("31 conditions, then one on the own variable", 15, condition_record(15, 1)),
        ("31 conditions, then one on the own variable, above the last", 31, condition_record(31, 1)),
        ("31 conditions, then one on no variable", 15, condition_record(32, 0)),
        ("31 conditions, then another action with one", 15, action_record(15, 1, 0) + condition_record(0, 0)),
    ]:
        show(book, name, variables(32, 2) + action_record(own, 0, 1) + conditions(own, 32) + more + rest(32))


def longest(book):
    data = situation_record(7) + variables(32, 16) + setters(32, 8, 32, situations_record(128))
    data += crew_record().join([crew(32)] * MOST_CREWS) + end_record()
    book.held(len(data), LONGEST_FILE)
    show(book, "the longest file", data)
    show(book, "the longest file and a byte", data + b"\0")
    show(book, "the longest file, and a ninth crew for its end", data[:-1] + crew_record(), says=(4, LONGEST_FILE - 1, 0))


def write(book):
    porter_cases(book)
    altered(book)
    situations(book)
    unused(book)
    many_variables(book)
    many_actions(book)
    many_conditions(book)
    longest(book)
