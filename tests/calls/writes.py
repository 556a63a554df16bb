"""Writing files from lists: the porter's lists whole, faulty and cut, and lists at document 01's limits."""

from study import ALL_EIGHT, PORTER, Refused, action_record, condition_record, crew_record, end_record, read, seed_record
from study import situation_record, situations_record, task_record, variable_record

UNLENT = 255  # each number of what is announced and not lent
UNLENT_SEED = 2**32 - 1


def crews_of(crews, tasks):
    """The records of the crews. One that is cut, and one that is not there, takes all tasks left."""
    while crews or tasks:
        many, seed = (crews[0], int.from_bytes(crews[1:5], "big")) if len(crews) > 4 else ((len(tasks) + 2) // 3, UNLENT_SEED)
        crews = crews[5:]
        data = b""
        for _ in range(many):
            data += task_record(*(tasks[:3] if len(tasks) > 2 else (UNLENT, UNLENT, UNLENT)))
            tasks = tasks[3:]
        yield data + seed_record(seed)


def file_of(situation, variables, actions, conditions, crews, tasks):
    """The bytes that the lists stand for."""
    data = situation_record(situation) + b"".join(variable_record(count) for count in variables)
    while actions or conditions:  # an action that is cut, and one that is not there, takes all conditions left
        all_left = (len(conditions) + 1) // 2
        unlent = UNLENT, UNLENT, UNLENT, ALL_EIGHT, all_left
        variable, pre, post, situations, many = actions[:5] if len(actions) > 4 else unlent
        actions = actions[5:]
        data += action_record(variable, pre, post)
        for _ in range(many):
            data += condition_record(*(conditions[:2] if len(conditions) > 1 else (UNLENT, UNLENT)))
            conditions = conditions[2:]
        data += situations_record(situations)
    return data + crew_record().join(crews_of(crews, tasks)) + end_record()


def written(lists, buffer):
    """The three numbers, and the buffer with the file in its first bytes."""
    data = file_of(*lists)
    try:
        read(data)
    except Refused as refused:
        return (refused.number, refused.place, 0), buffer
    if len(buffer) < len(data):
        return (13, len(data), 0), buffer
    return (0, len(data), 0), data + buffer[len(data) :]


def add(book, lists, room, says=None, leaves=None):
    """A call more of the case that was begun. The lists are given as the file's bytes, one after another."""
    situation, *parts = lists
    book.use(b"".join(parts))
    made = "write", lambda buffer: written(lists, buffer)
    book.lend(made, situation, *map(len, parts), room=room, says=says, leaves=leaves)


def show(book, name, lists, room=60, says=None, leaves=None):
    book.case(f"write: {name}")
    add(book, lists, room, says, leaves)


def refused(book, name, lists, *numbers):
    """A refusal that document 01 and the rules for lists settle."""
    show(book, name, lists, room=12, says=(*numbers, 0), leaves=b"")


VARIABLES = bytes([2, 3, 2])
ACTIONS = bytes.fromhex("000001ff00 010001ff00 010102ff02 020001ff02 000100ff00")
CONDITIONS = bytes.fromhex("0001 0201 0001 0101")
CREWS = bytes.fromhex("0300000001")
TASKS = bytes.fromhex("000001 010002 020001")
TWICE = ACTIONS[:20] + ACTIONS[:5]


def crew(many, seed=1):
    return bytes([many]) + seed.to_bytes(4, "big")


def one_crew(tasks, seed):
    return crew((len(tasks) + 2) // 3, seed)


def porter(variables=VARIABLES, actions=ACTIONS, conditions=CONDITIONS, crews=None, tasks=TASKS, seed=1, situation=0):
    """Where no crews are given, there is one, and it takes all tasks."""
    return situation, variables, actions, conditions, one_crew(tasks, seed) if crews is None else crews, tasks


def alone(variables=b"", actions=b"", conditions=b"", tasks=b"", seed=1, situation=0):
    return situation, variables, actions, conditions, one_crew(tasks, seed), tasks


def with_byte(data, at, byte):
    return data[:at] + bytes([byte]) + data[at + 1 :]


def whole(book):
    show(book, "the porter", porter(), says=(0, 56, 0), leaves=PORTER)
    show(book, "the porter, room for 56", porter(), room=56, says=(0, 56, 0), leaves=PORTER)
    show(book, "the porter, room for 55", porter(), room=55, says=(13, 56, 0), leaves=b"")
    show(book, "the porter, no room", porter(), room=0, says=(13, 56, 0), leaves=b"")
    show(book, "the largest seed", porter(seed=2147483646), says=(0, 56, 0))
    show(book, "a seed of four different bytes", porter(seed=0x01020304), says=(0, 56, 0))
    show(book, "one variable and one action", alone(bytes([2]), bytes([0, 0, 1, 255, 0]), tasks=bytes([0, 0, 0])), says=(0, 16, 0))
    book.case("write: in one buffer: the porter, the porter with seed 0, one without conditions")
    add(book, porter(), 60)
    add(book, porter(seed=0), 60)
    add(book, porter(actions=ACTIONS[:10] + bytes([2, 0, 1, 255, 0]), conditions=b"", seed=3), 60)


def faults(book):
    """3 to 7, each with its place, into a buffer that is too short for the file: 13 comes last."""
    refused(book, "nothing at all", alone(), 3, 0)
    refused(book, "no variable", porter(variables=b""), 3, 0)
    refused(book, "no variable, and conditions left over", alone(conditions=CONDITIONS), 3, 0)
    refused(book, "no variable, and tasks alone", alone(tasks=TASKS), 3, 0)
    refused(book, "no list at all", (0, b"", b"", b"", b"", b""), 3, 0)
    refused(book, "no crew", porter(crews=b"", tasks=b""), 3, 38)
    refused(book, "no task", porter(tasks=b""), 3, 38)
    refused(book, "a task too few", porter(tasks=TASKS[:6]), 3, 46)
    refused(book, "a task too many", porter(tasks=TASKS + TASKS[:3]), 3, 50)
    refused(book, "33 variables", alone(bytes([2] * 33)), 4, 64)
    refused(book, "33 variables, the last of no value", alone(bytes([2] * 32 + [0])), 4, 64)
    refused(book, "a variable of 1 value", porter(variables=bytes([2, 1, 2])), 5, 2)
    refused(book, "a variable of 17 values", porter(variables=bytes([2, 17, 2])), 5, 2)
    refused(book, "an action of no variable", porter(actions=with_byte(ACTIONS, 5, 3)), 5, 10)
    refused(book, "a pre too large", porter(actions=with_byte(ACTIONS, 11, 3)), 5, 14)
    refused(book, "a condition on no variable", porter(conditions=with_byte(CONDITIONS, 2, 3)), 5, 21)
    refused(book, "a condition's value too large", porter(conditions=with_byte(CONDITIONS, 7, 3)), 5, 31)
    refused(book, "tasks out of order", porter(tasks=TASKS[3:6] + TASKS[:3] + TASKS[6:]), 5, 38)
    refused(book, "a goal too large", porter(tasks=with_byte(TASKS, 5, 3)), 5, 42)
    for seed in (0, 2147483647, 4294967295):
        refused(book, f"seed {seed}", porter(seed=seed), 5, 50)
    refused(book, "pre equal to post", porter(actions=with_byte(ACTIONS, 12, 1)), 6, 14)
    refused(book, "conditions out of order", porter(conditions=CONDITIONS[2:4] + CONDITIONS[:2] + CONDITIONS[4:]), 6, 21)
    refused(book, "a condition repeated", porter(conditions=with_byte(CONDITIONS, 2, 0)), 6, 21)
    refused(book, "a condition on the own variable", porter(conditions=with_byte(CONDITIONS, 0, 1)), 6, 18)
    refused(book, "an action that comes before", porter(actions=TWICE), 7, 34)
    refused(book, "an action that comes before, and seed 0", porter(actions=TWICE, seed=0), 5, 50)
    refused(book, "an action that comes before, and no task", porter(actions=TWICE, tasks=b""), 3, 38)


def cut(book):
    """Entries that are cut, conditions that are missing, conditions that are left over."""
    refused(book, "a byte more of actions", porter(actions=ACTIONS + b"\0"), 5, 38)
    refused(book, "an action cut", porter(actions=ACTIONS[:24]), 5, 34)
    refused(book, "an action cut that should take conditions", porter(actions=ACTIONS[:19]), 5, 24)
    refused(book, "a condition cut", porter(conditions=CONDITIONS[:7]), 5, 31)
    refused(book, "a condition missing", porter(conditions=CONDITIONS[:6]), 5, 31)
    refused(book, "all conditions missing", porter(conditions=b""), 5, 18)
    refused(book, "an action that announces 255", porter(actions=with_byte(ACTIONS, 24, 255)), 5, 38)
    refused(book, "a condition left over", porter(conditions=CONDITIONS + CONDITIONS[:2]), 5, 38)
    refused(book, "a byte of conditions left over", porter(conditions=CONDITIONS + b"\0"), 5, 38)
    refused(book, "conditions and no action", porter(actions=b""), 5, 6)
    refused(book, "a task cut", porter(tasks=TASKS[:8]), 5, 46)
    refused(book, "a task cut behind the last", porter(crews=crew(4), tasks=TASKS + b"\0\0"), 3, 50)


def crews(book):
    """They take their tasks in turn."""
    back = bytes.fromhex("000100 010000 020101")
    two = PORTER[:-1] + b"\x09" + bytes.fromhex("04000100 04010000 04020101 0501020304 06")
    show(book, "two crews", porter(crews=CREWS + crew(3, 0x01020304), tasks=TASKS + back), room=80, says=(0, 74, 0), leaves=two)
    show(book, "two crews, a byte short", porter(crews=CREWS * 2, tasks=TASKS * 2), room=73, says=(13, 74, 0), leaves=b"")
    show(book, "eight crews", porter(crews=CREWS * 8, tasks=TASKS * 8), room=182, says=(0, 182, 0))
    show(book, "eight crews in situation 1", porter(crews=CREWS * 8, tasks=TASKS * 8, situation=1), room=184, says=(0, 184, 0))
    refused(book, "nine crews", porter(crews=CREWS * 9, tasks=TASKS * 9), 4, 181)
    refused(book, "nine crews, the last without a task", porter(crews=CREWS * 9, tasks=TASKS * 8), 4, 181)
    refused(book, "eight crews, and a byte of tasks left over", porter(crews=CREWS * 8, tasks=TASKS * 8 + b"\0"), 4, 181)
    refused(book, "eight crews, and one that is cut", porter(crews=CREWS * 8 + b"\3", tasks=TASKS * 8), 4, 181)
    refused(book, "the second crew's seed 0", porter(crews=CREWS + crew(3, 0), tasks=TASKS * 2), 5, 68)
    refused(book, "the first crew's seed 0", porter(crews=crew(3, 0) + CREWS, tasks=TASKS * 2), 5, 50)
    refused(book, "the second crew's goal too large", porter(crews=CREWS * 2, tasks=TASKS + with_byte(TASKS, 5, 3)), 5, 60)
    refused(book, "the second crew a task too few", porter(crews=CREWS + crew(2), tasks=TASKS * 2), 3, 64)
    refused(book, "the second crew a task too many", porter(crews=CREWS + crew(4), tasks=TASKS * 2), 3, 68)
    refused(book, "the first crew a task too many", porter(crews=crew(4) + crew(2), tasks=TASKS * 2), 3, 50)
    refused(book, "the first crew a task too few", porter(crews=crew(2) + crew(4), tasks=TASKS * 2), 3, 46)
    refused(book, "the second crew without tasks", porter(crews=CREWS + crew(0)), 3, 56)
    refused(book, "the second crew's tasks missing", porter(crews=CREWS * 2), 5, 56)
    refused(book, "the second crew's last task missing", porter(crews=CREWS * 2, tasks=TASKS + TASKS[:6]), 5, 64)
    refused(book, "a crew that announces 255", porter(crews=crew(255)), 3, 50)
    refused(book, "a crew cut, with the tasks of one", porter(crews=CREWS[:4]), 5, 50)
    refused(book, "a crew cut, without a task", porter(crews=CREWS[:1], tasks=b""), 3, 38)
    refused(book, "tasks and no crew", porter(crews=b""), 5, 50)
    refused(book, "tasks left over", porter(crews=CREWS, tasks=TASKS * 2), 5, 68)
    refused(book, "a task left over", porter(crews=CREWS, tasks=TASKS + TASKS[:3]), 3, 60)
    refused(book, "a byte of tasks left over", porter(crews=CREWS, tasks=TASKS + b"\0"), 5, 56)
    refused(book, "the second crew cut", porter(crews=CREWS + CREWS[:2], tasks=TASKS * 2), 5, 68)
    refused(book, "the second crew cut, without a task", porter(crews=CREWS + CREWS[:2]), 3, 56)
    refused(book, "two crews, an action that comes before", porter(actions=TWICE, crews=CREWS * 2, tasks=TASKS * 2), 7, 34)
    refused(book, "two crews, one variable unused", porter(actions=ACTIONS[:10], conditions=b"", crews=CREWS * 2, tasks=TASKS * 2), 21, 2)


def unused(book):
    """21: by the lowest variable that no action changes and no condition names, in force or not; after 7, and before 13."""
    one, other = bytes([0, 0, 1, 255, 0]), bytes([2, 0, 1, 254, 0])
    refused(book, "no action", porter(actions=b"", conditions=b""), 21, 0)
    refused(book, "one variable alone", alone(bytes([2]), tasks=bytes([0, 0, 0])), 21, 0)
    refused(book, "the cart unused", porter(actions=one + other, conditions=b""), 21, 1)
    refused(book, "the ride unused", porter(actions=one + bytes([1, 0, 1, 255, 0]), conditions=b""), 21, 2)
    refused(book, "a value set twice, and two unused", porter(actions=one + one, conditions=b""), 7, 10)
    refused(book, "two unused, and the seed 0", porter(actions=one, conditions=b"", seed=0), 5, 22)
    named = one[:4] + b"\1"
    show(book, "the cart named by a condition", porter(actions=named + other, conditions=b"\1\2"), says=(0, 37, 0))
    show(book, ".. of an action out of force", porter(actions=one + other[:4] + b"\1", conditions=b"\1\2"), says=(0, 37, 0))


def each_byte(book):
    for which, data in enumerate((VARIABLES, ACTIONS, CONDITIONS, CREWS, TASKS)):
        name = ("variables", "actions", "conditions", "crews", "tasks")[which]
        book.case(f"write: {name} cut to 0, 1 .. {len(data)} bytes, and with one more")
        for changed in [data[:length] for length in range(len(data) + 1)] + [data + b"\1"]:
            add(book, porter(**{name: changed}), 0)
        for at in range(len(data)):
            book.case(f"write: byte {at} of {name} set to 0 1 2 3 255")
            for byte in (0, 1, 2, 3, 255):
                add(book, porter(**{name: with_byte(data, at, byte)}), 0)


# The limits. 17 variables of 16 values, and for each value of the first 16 an action.
SETTERS = bytes(byte for v in range(16) for q in range(16) for byte in (v, (q + 1) % 16, q, ALL_EIGHT, 0))


def many_actions(actions, conditions=b""):
    return alone(bytes([16] * 17), actions, conditions, bytes(byte for v in range(17) for byte in (v, 0, 1)))


def many_conditions(own, *more):
    conditions = bytes(byte for v in range(32) if v != own for byte in (v, 1)) + bytes(more)
    actions = bytes([own, 0, 1, ALL_EIGHT, len(conditions) // 2])
    return alone(bytes([2] * 32), actions, conditions, bytes(byte for v in range(32) for byte in (v, 0, 1)))


def limits(book):
    show(book, "32 variables", many_conditions(0), 264, says=(13, 295, 0))
    refused(book, "32 variables, and no action", alone(bytes([2] * 32), tasks=bytes(byte for v in range(32) for byte in (v, 0, 0))), 21, 0)
    show(book, "256 actions", many_actions(SETTERS[:-1] + b"\1", b"\x10\0"), 264, says=(13, 1135, 0))
    refused(book, "256 actions, and a variable that nobody uses", many_actions(SETTERS), 21, 16)
    refused(book, "257 actions", many_actions(SETTERS + bytes([16, 0, 1, 255, 0])), 4, 1058)
    refused(book, "257 actions, the last of no variable", many_actions(SETTERS + bytes([17, 0, 1, 255, 0])), 4, 1058)
    refused(book, "256 actions and one that is cut", many_actions(SETTERS + b"\0"), 4, 1058)
    refused(book, "256 actions and a condition left over", many_actions(SETTERS, b"\0\0"), 4, 1058)
    show(book, "31 conditions", many_conditions(15), 264, says=(13, 295, 0))
    refused(book, "31 conditions, then the last again", many_conditions(15, 31, 1), 6, 161)
    refused(book, "31 conditions, then one on no variable", many_conditions(15, 32, 0), 5, 161)


def situations(book):
    """Written or not, in force or not. The places move by the two bytes of each record that is written."""
    show(book, "the porter in situation 3", porter(situation=3), says=(0, 58, 0), leaves=b"\x08\x03" + PORTER)
    show(book, "the porter in situation 7, room for 57", porter(situation=7), room=57, says=(13, 58, 0), leaves=b"")
    refused(book, "situation 8", porter(situation=8), 5, 0)
    refused(book, "situation 255, and nothing else right", alone(situation=255, seed=0), 5, 0)
    refused(book, "a situation and no variable", alone(situation=1), 3, 2)
    refused(book, "a situation and 33 variables", alone(bytes([2] * 33), situation=1), 4, 66)
    for name, byte in (("no situation", 0), ("situation 0", 1), ("all but situation 0", 254)):
        show(book, f"an action that holds in {name}", porter(actions=with_byte(ACTIONS, 3, byte)), says=(0, 58, 0))
    all_sets = bytes(4 if at % 5 == 3 else byte for at, byte in enumerate(ACTIONS))
    show(book, "every action with its set", porter(actions=all_sets, situation=2), room=70, says=(0, 68, 0))
    only_two = with_byte(with_byte(TWICE, 3, 0b11111100), 23, 4)  # both in situation 2 alone
    for situation in range(8):
        says = (7, 38, 0) if situation == 2 else (0, 62 if situation else 60, 0)
        show(book, f"two ways to take the pass, situation {situation}", porter(actions=only_two, situation=situation), 62, says)
    never = with_byte(with_byte(TWICE, 3, 0), 23, 0)
    show(book, "two ways to take the pass, never", porter(actions=never), 60, says=(0, 60, 0))
    refused(book, "in force and out of it, then in force again", porter(actions=with_byte(TWICE, 3, 2) + ACTIONS[:5]), 7, 40)


def write(book):
    whole(book)
    situations(book)
    faults(book)
    unused(book)
    cut(book)
    crews(book)
    each_byte(book)
    limits(book)
