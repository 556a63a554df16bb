"""Replays of access logs: the oracle's answers, held against document 02's rules worked out by hand."""

from oracle import MOST_EVENTS, PORTER, Action, Study, event, file_of, log_of, porter, replay

from calls import checks, crews, records

LENT = b"\xaa" * 40
TAKE_PASS, FETCH_CART, RIDE_UP, BOOK_RIDE, RETURN_PASS = range(5)
PASS, CART, RIDE = range(3)


def record(state, ticks, waits=None):
    """The occupant's 40 bytes."""
    waiting = [1, *waits] if waits else [0, 0, 0]
    return bytes(state) + bytes(32 - len(state)) + ticks.to_bytes(4, "little") + bytes([*waiting, 0])


def show(book, name, file, log, says, left=None, crew=0):
    """A log as events (tick, action), or as bytes; where it is not refused, what is left."""
    book.case(f"replay: {name}")
    log = log if isinstance(log, bytes) else log_of(log)
    book.use(file + log)
    numbers, lent = replay(file, crew, log, LENT)
    book.held(numbers, says)
    book.held(lent, record(*left) if left else LENT)
    book.ask(f"replay {crew} {len(file)}", "answers", *numbers, "leaves", lent.hex())


def done(book):
    plan = [(9, FETCH_CART), (10, TAKE_PASS), (15, BOOK_RIDE), (40, RIDE_UP)]
    show(book, "nothing", PORTER, [], (0, 0, 0), ((0, 0, 0), 0))
    show(book, "the porter's plan", PORTER, plan, (0, 4, 0), ((1, 2, 1), 31))
    for events in range(1, 4):
        state = [(0, 1, 0), (1, 1, 0), (1, 1, 1)][events - 1]
        ticks = plan[events - 1][0] - 9
        show(book, f".. its first {events}", PORTER, plan[:events], (0, events, 0), (state, ticks))
    again = [(0, TAKE_PASS), (1, RETURN_PASS), (3, TAKE_PASS), (6, RETURN_PASS), (10, TAKE_PASS)]
    show(book, "values that come again", PORTER, again, (0, 5, 0), ((1, 0, 0), 10))
    show(book, "past the goal", PORTER, [*plan, (50, RETURN_PASS)], (0, 5, 0), ((0, 2, 1), 41))
    show(book, "from the goal of another study", porter((1, 2, 1), (1, 2, 1)), [(0, RETURN_PASS)], (0, 1, 0), ((0, 2, 1), 0))
    show(book, "where there is no plan", porter((0, 2, 1)), plan, (0, 4, 0), ((1, 2, 1), 31))


def held(book):
    ride = [(0, FETCH_CART), (1, TAKE_PASS), (2, RIDE_UP)]
    show(book, "held for the action's own variable", PORTER, [(5, RIDE_UP)], (0, 0, 1), ((0, 0, 0), 0, (CART, 1)))
    show(book, "held for the lower of two conditions", PORTER, [(5, BOOK_RIDE)], (0, 0, 1), ((0, 0, 0), 0, (PASS, 1)))
    show(book, "held for the higher of them", PORTER, [(5, TAKE_PASS), (6, BOOK_RIDE)], (0, 1, 1), ((1, 0, 0), 1, (CART, 1)))
    show(book, "held for the lower, the own variable being right", PORTER, ride[:1] + ride[2:], (0, 1, 1), ((0, 1, 0), 2, (PASS, 1)))
    show(book, "held for the higher, the own variable being right", PORTER, ride, (0, 2, 1), ((1, 1, 0), 2, (RIDE, 1)))
    show(book, "held for a value of 0", PORTER, [(0, TAKE_PASS), (9, TAKE_PASS)], (0, 1, 1), ((1, 0, 0), 9, (PASS, 0)))
    show(book, "held, then done", PORTER, [*ride, (8, BOOK_RIDE)], (0, 3, 1), ((1, 1, 1), 8))
    show(book, "held, then the same done", PORTER, [*ride, (8, BOOK_RIDE), (9, RIDE_UP)], (0, 4, 1), ((1, 2, 1), 9))
    show(book, "held twice, for another value", PORTER, [*ride, (4, TAKE_PASS)], (0, 2, 2), ((1, 1, 0), 4, (PASS, 0)))
    show(book, "held, all of them", PORTER, [(k, RIDE_UP) for k in range(9)], (0, 0, 9), ((0, 0, 0), 8, (CART, 1)))
    show(book, "done, and nothing is waited for any more", PORTER, [(0, RIDE_UP), (1, TAKE_PASS)], (0, 1, 1), ((1, 0, 0), 1))


def steps(book):
    """The pass taken at a tick and handed in at another."""
    for name, first, second, ticks in [
        ("a step of 0", 77, 77, 0),
        ("a step of 255", 1, 256, 255),
        ("a step of 32,767", 0, 32767, 32767),
        ("a step of 32,767 to the last tick", 32768, 65535, 32767),
        ("a step of 1 round the roll", 65535, 0, 1),
        ("a step of 5 round the roll", 65534, 3, 5),
        ("a step of 32,767 round the roll", 32769, 0, 32767),
        ("a step of 32,767 far round the roll", 65535, 32766, 32767),
    ]:
        show(book, name, PORTER, [(first, TAKE_PASS), (second, RETURN_PASS)], (0, 2, 0), ((0, 0, 0), ticks))
    for name, first, second in [
        ("a step of 32,768", 0, 32768),
        ("a step of 32,768 round the roll", 32768, 0),
        ("a step back by 1", 5, 4),
        ("a step back by 1 round the roll", 0, 65535),
        ("a step back to the first tick", 32767, 0),
    ]:
        show(book, name, PORTER, [(first, TAKE_PASS), (second, RETURN_PASS)], (23, 4, 0))
    show(book, "a first tick of 65,535", PORTER, [(65535, TAKE_PASS)], (0, 1, 0), ((1, 0, 0), 0))
    show(book, "a first tick of 32,768", PORTER, [(32768, TAKE_PASS)], (0, 1, 0), ((1, 0, 0), 0))
    show(book, "the step from an event that was held", PORTER, [(0, RIDE_UP), (9, TAKE_PASS)], (0, 1, 1), ((1, 0, 0), 9))
    show(book, "back behind one that was held", PORTER, [(0, TAKE_PASS), (30000, TAKE_PASS), (20000, RETURN_PASS)], (23, 8, 0))
    show(book, "far from all but the last", PORTER, [(0, TAKE_PASS), (30000, RETURN_PASS), (60000, TAKE_PASS)], (0, 3, 0), ((1, 0, 0), 60000))
    show(book, "went back, and could not be done", PORTER, [(9, TAKE_PASS), (8, TAKE_PASS)], (23, 4, 0))
    rolling = [(40000 * k % 65536, (TAKE_PASS, RETURN_PASS)[k % 2]) for k in range(2)]
    show(book, "forty thousand at once", PORTER, rolling, (23, 4, 0))


# A cart that is loaded with the pass; unloaded in situation 1 alone, which is not the file's; the pass taken.
NIGHT = file_of(Study([2, 2], [Action(0, 0, 1, [(1, 1)]), Action(0, 1, 0, [], 2), Action(1, 0, 1)], [(0, 1), (0, 1)], 1))


def refused(book):
    """Each alone; then two and more in one event."""
    good = event(7, TAKE_PASS)
    for name, rest, says in [
        ("another kind", bytes([15, 0, 8, 4]), (2, 4, 0)),
        ("the kind of a file's end", bytes([6, 0, 8, 4]), (2, 4, 0)),
        ("kind 17", bytes([17, 0, 8, 4]), (2, 4, 0)),
        ("an event of one byte", bytes([16]), (1, 4, 0)),
        ("an event of two bytes", bytes([16, 0]), (1, 4, 0)),
        ("an event of three bytes", bytes([16, 0, 8]), (1, 4, 0)),
        ("another kind, cut: 2 before 1", bytes([1]), (2, 4, 0)),
        ("another kind, cut behind its tick: 2 before 1", bytes([0, 0, 8]), (2, 4, 0)),
        ("an action that is not there", event(8, 5), (14, 4, 0)),
        ("action 255", event(8, 255), (14, 4, 0)),
        ("no action, and back: 14 before 23", event(6, 5), (14, 4, 0)),
        ("another kind, no action, and back: 2 first", bytes([0, 0, 6, 5]), (2, 4, 0)),
        ("back, and behind it another kind", event(6, 4) + b"\0", (23, 4, 0)),
        ("an event, and then one back", event(8, 4) + event(7, 0), (23, 8, 0)),
    ]:
        show(book, name, PORTER, good + rest, says)
    show(book, "another kind at once", PORTER, b"\0", (2, 0, 0))
    show(book, "a cut event at once", PORTER, bytes([16, 9, 9]), (1, 0, 0))
    show(book, "no action at once", PORTER, event(0, 5), (14, 0, 0))
    show(book, "a study file as a log", PORTER, PORTER, (2, 0, 0))
    show(book, "an action out of force", NIGHT, [(0, 1)], (20, 0, 0))
    show(book, "out of force, and back: 20 before 23", NIGHT, [(5, 2), (4, 1)], (20, 4, 0))
    show(book, "out of force, and could not be done", NIGHT, [(5, 2), (6, 1)], (20, 4, 0))
    show(book, "no action behind one out of force", NIGHT, [(5, 3), (6, 1)], (14, 0, 0))
    show(book, "with those in force", NIGHT, [(5, 0), (6, 2), (7, 0)], (0, 2, 1), ((1, 1), 2))


def files_refused(book):
    """The file's own and the crew's, before any of the log's."""
    show(book, "a cut file", PORTER[:55], b"\0", (1, 55, 0))
    show(book, "no file", b"", b"", (1, 0, 0))
    show(book, "an event in the file", PORTER[:6] + event(0, 0) + PORTER[6:], b"", (2, 6, 0))
    show(book, "a dead variable", file_of(Study([2, 2], [Action(0, 0, 1)], [(0, 1), (0, 0)], 1)), b"\0", (21, 1, 0))
    for crew in (1, 255, 2**64 - 1):
        show(book, f"no crew {crew}", PORTER, b"\0", (22, crew, 0), crew=crew)


def no_record(book):
    """Kind 16 is a kind of logs alone."""
    for name, file, place in [("before a study", event(0, 0) + PORTER, 0), ("behind the actions", PORTER[:38] + event(0, 0) + PORTER[38:], 38)]:
        checks.show(book, f"replay: an event {name} is no record", file, says=(2, place, 0))
        told = records.told(file, place)
        book.held(told, ["is", 2, 0, place, place, "body", ""])
        book.ask(f"record {place}", *told)


def of_crews(book):
    """Each from its own start."""
    file = crews.manned(0, 1, 4, 6)
    show(book, "the second crew hands the pass in", file, [(0, RETURN_PASS), (1, FETCH_CART)], (0, 2, 0), ((0, 1, 0), 1), 1)
    show(book, "which the first has not", file, [(0, RETURN_PASS), (1, FETCH_CART)], (0, 1, 1), ((0, 1, 0), 1), 0)
    show(book, "the third has its cart on the landing", file, [(0, FETCH_CART)], (0, 0, 1), ((0, 2, 0), 0, (CART, 0)), 2)
    show(book, "the fourth in the lobby", file, [(0, BOOK_RIDE), (1, RIDE_UP)], (0, 2, 0), ((1, 2, 1), 1), 3)
    show(book, "a fifth is not there", file, [], (22, 4, 0), crew=4)


def limits(book):
    """Steps of 32,767 without end, the pass taken and handed in: the largest sum. The last of them is done or held."""
    rolling = b"".join(event(32767 * k, (TAKE_PASS, RETURN_PASS)[k % 2]) for k in range(MOST_EVENTS))
    most = len(rolling), 32767 * (MOST_EVENTS - 1)  # bytes, and ticks
    show(book, "16,384 events", PORTER, rolling, (0, MOST_EVENTS, 0), ((0, 0, 0), most[1]))
    next_tick = 32767 * MOST_EVENTS
    for name, rest, number in [
        ("16,385 events", event(next_tick, TAKE_PASS), 19),
        ("no action and back in the 16,385th: 19 first", event(next_tick - 32768, 5), 19),
        ("the 16,385th cut: 1 before 19", event(next_tick, TAKE_PASS)[:3], 1),
        ("the 16,385th of another kind: 2 before 19", bytes([15, 0, 0, 0]), 2),
        ("the 16,385th of another kind, cut", b"\0", 2),
        ("16,386 events", event(next_tick, TAKE_PASS) + event(next_tick, 5), 19),
    ]:
        show(book, name, PORTER, rolling + rest, (number, most[0], 0))
    show(book, "16,383 events", PORTER, rolling[:-4], (0, MOST_EVENTS - 1, 0), ((1, 0, 0), most[1] - 32767))
    last = 32767 * (MOST_EVENTS - 1)
    show(book, "the 16,384th back", PORTER, rolling[:-4] + event(last + 1, RETURN_PASS), (23, most[0] - 4, 0))
    left = (1, 0, 0), most[1], (CART, 1)
    show(book, "the 16,384th held", PORTER, rolling[:-4] + event(last, RIDE_UP), (0, MOST_EVENTS - 1, 1), left)


def write(book):
    for part in (done, held, steps, refused, files_refused, no_record, of_crews, limits):
        part(book)
