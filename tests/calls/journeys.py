"""Journeys: the oracle's answers, held against document 02's rules worked out by hand."""

from pathlib import Path

from oracle import PORTER, Action, Study, coming_round, drawn, file_of, heard, journeys, porter, porter_crews, two_wanting

STUDIES = Path(__file__).resolve().parents[2] / "studies"

RISING, FALLING = [0, 1, 2, 3, 4], [4, 3, 2, 1, 0]

# By rising ranks the porter's plan is 0 1 3 2, by falling ones 1 0 3 2; action 4 is on no walk.
FOUR = [(2, 3, 4), (0, 0, 1), (3, 1, 2), (1, 5, 0)]
SEVEN = [(0, 0, 1), (1, 1, 5), (1, 5, 0), (2, 0, 1), (2, 1, 2), (3, 2, 3), (3, 3, 4)]


def show(book, name, rides, start, says=None, made=(), *, file=PORTER, ranks=RISING, room=24, crew=0, tail=()):
    """Rides and journeys are three numbers each; behind the rides a tail of bytes may follow."""
    book.case(f"journeys: {name}")
    ranks, rides = bytes(ranks), bytes([*(number for ride in rides for number in ride), *tail])
    book.use(file + ranks + rides)
    book.lend(
        ("journeys", lambda buffer: journeys(file, crew, ranks, rides, start, buffer)),
        crew,
        start,
        len(file),
        len(ranks),
        room=room,
        says=says,
        leaves=[number for journey in made for number in journey],
    )


def made(book):
    """A ride from the person's floor, and from another; two in a row; none at all."""
    show(book, "from the person's floor", [(2, 0, 7)], 0, (0, 1, 0), [(3, 0, 7)])
    show(book, "from another floor", [(2, 0, 7)], 5, (0, 2, 0), [(3, 5, 0), (3, 0, 7)])
    show(book, "two in a row", [(0, 0, 1), (1, 1, 3)], 0, (0, 2, 0), [(0, 0, 1), (1, 1, 3)])
    show(book, "by other ranks", [(0, 0, 1), (1, 1, 3)], 0, (0, 4, 0), [(0, 0, 1), (0, 1, 3), (1, 3, 0), (1, 0, 1)], ranks=FALLING)
    show(book, "two in a row, apart", [(0, 0, 1), (3, 1, 3)], 0, (0, 2, 0), [(0, 0, 1), (2, 1, 3)])
    show(book, "back to where the person was", [(0, 0, 1), (1, 1, 0)], 0, (0, 2, 0), [(0, 0, 1), (1, 1, 0)])
    show(book, "four rides", FOUR, 0, (0, 7, 0), SEVEN)
    show(book, "the same in another order", FOUR[::-1], 0, (0, 7, 0), SEVEN)
    show(book, "the highest floor", [(2, 199, 0), (0, 0, 199)], 199, (0, 3, 0), [(0, 199, 0), (0, 0, 199), (3, 199, 0)])
    show(book, "no ride", [], 0, (0, 0, 0))
    show(book, "no ride, and no room", [], 199, (0, 0, 0), room=0)
    show(book, "no step", FOUR, 9, (0, 0, 0), file=porter((0, 0, 0)))
    show(book, "an action that is not in the plan", [(4, 0, 7)], 3, (0, 0, 0))
    show(book, "beside one that is", [(4, 0, 7), (0, 3, 5)], 3, (0, 1, 0), [(0, 3, 5)])


def hotel_like():
    """Nine actions, three of which ride: 0 to 8 in a row, one value after another."""
    return file_of(Study([10], [Action(0, k, k + 1) for k in range(9)], [(0, 9)], 1))


def hotel(book):
    """The hotel's rides, as studies/hotel.rides has them, on the plan of its own seed: 9 0 2 13 18 4 10 14 5 15 19 and so on."""
    file = (STUDIES / "hotel.bin").read_bytes()
    ranks, _ = drawn(heard(file, 0).seed, 26)
    lift = [(0, 0, 1), (9, 1, 0), (4, 0, 1), (19, 1, 7), (22, 7, 10), (23, 10, 7), (25, 10, 0), (8, 7, 0)]
    trips = [(0, 0, 1), (0, 1, 0), (1, 0, 1), (5, 1, 0), (5, 0, 1), (10, 1, 7), (16, 7, 10), (17, 10, 7), (19, 7, 10), (19, 10, 0)]
    show(book, "the hotel's lift", lift, 0, (0, 10, 0), trips, file=file, ranks=ranks, room=40)
    show(book, "the hotel's lift, begun on the ground floor", lift, 1, (0, 9, 0), trips[1:], file=file, ranks=ranks, room=40)
    show(book, "the hotel's lift, and no room", lift, 0, (13, 30, 0), file=file, ranks=ranks, room=29)


def larger(book):
    file, ranks = hotel_like(), range(9)
    lift = [(1, 0, 4), (4, 4, 9), (7, 12, 0)]
    trips = [(1, 0, 4), (4, 4, 9), (7, 9, 12), (7, 12, 0)]
    show(book, "nine steps, three rides", lift, 0, (0, 4, 0), trips, file=file, ranks=ranks)
    every = [(k, 2 * k, 2 * k + 1) for k in range(9)]
    twice = [trip for k in range(9) for trip in ((k, 2 * k - 1 if k else 1, 2 * k), (k, 2 * k, 2 * k + 1))]
    show(book, "nine steps, nine rides", every, 1, (0, 18, 0), twice, file=file, ranks=ranks, room=54)
    show(book, "a byte too few for them", every, 1, (13, 54, 0), file=file, ranks=ranks, room=53)


def refused(book):
    """5 for the start floor, then ride by ride 1, 14, 5, 6, 7, each with the ride's index; then 13 in bytes."""
    show(book, "a start floor of 200", FOUR, 200, (5, 4, 0))
    show(book, "one of 256", FOUR, 256, (5, 4, 0), tail=[0, 0])
    show(book, "the largest, with faulty rides", [(9, 200, 200)], 2**64 - 1, (5, 1, 0), tail=[0])
    show(book, "one, with no whole ride", [], 255, (5, 0, 0), tail=[1, 2])
    show(book, "a ride of one byte", [], 0, (1, 0, 0), tail=[2])
    show(book, "a ride of two", [], 0, (1, 0, 0), tail=[2, 0])
    show(book, "a cut last ride", FOUR, 0, (1, 4, 0), tail=[4])
    show(book, "a cut last ride behind a faulty one", [(2, 0, 7), (5, 1, 2)], 0, (14, 1, 0), tail=[0])
    show(book, "an action that is not there", [(0, 1, 2), (5, 0, 7)], 0, (14, 1, 0))
    show(book, "14 before 5", [(255, 200, 200)], 0, (14, 0, 0))
    show(book, "a floor of 200 to ride from", [(0, 1, 2), (1, 200, 7)], 0, (5, 1, 0))
    show(book, "a floor of 200 to ride to", [(0, 1, 2), (1, 7, 200)], 0, (5, 1, 0))
    show(book, "5 before 6", [(0, 255, 255)], 0, (5, 0, 0))
    show(book, "a ride to its own floor", [(0, 1, 2), (1, 7, 7)], 0, (6, 1, 0))
    show(book, "6 before 7", [(0, 1, 2), (0, 7, 7)], 0, (6, 1, 0))
    show(book, "a second ride", [(0, 1, 2), (1, 0, 7), (0, 3, 4)], 0, (7, 2, 0))
    show(book, "the same ride again", [(0, 1, 2), (0, 1, 2)], 0, (7, 1, 0))
    show(book, "a second ride of an action that is not in the plan", [(4, 0, 7), (0, 1, 2), (4, 1, 2)], 0, (7, 2, 0))
    show(book, "the first fault, of a later rule", [(0, 1, 2), (0, 1, 3), (1, 2, 2), (9, 0, 0)], 0, (7, 1, 0))
    show(book, "no room for one", [(2, 0, 7)], 0, (13, 3, 0), room=2)
    show(book, "no room for the second of two", [(2, 0, 7)], 5, (13, 6, 0), room=5)
    show(book, "a byte too few", FOUR, 0, (13, 21, 0), room=20)
    show(book, "just enough", FOUR, 0, (0, 7, 0), SEVEN, room=21)
    show(book, "faults before 13", [(0, 1, 2), (0, 1, 2)], 0, (7, 1, 0), room=0)


def out_of_force(book):
    night = file_of(Study([2], [Action(0, 0, 1), Action(0, 1, 0, [], 2)], [(0, 1)], 1))
    show(book, "an action out of force", [(1, 3, 5), (0, 3, 4)], 3, (0, 1, 0), [(0, 3, 4)], file=night, ranks=[0, 1])
    show(book, "twice", [(1, 3, 5), (0, 3, 4), (1, 0, 1)], 3, (7, 2, 0), file=night, ranks=[0, 1])


def before_rides(book):
    """The file's refusals, the crew's, 9 to 12: before any of the rides' and the start floor's."""
    tail = [9]
    show(book, "a cut file", [], 200, (1, 50, 0), file=PORTER[:54], tail=tail, room=0)
    show(book, "no file", [], 200, (1, 0, 0), file=b"", tail=tail, room=0)
    show(book, "no such crew", [], 200, (22, 1, 0), crew=1, tail=tail, room=0)
    show(book, "a rank list that is too short", [], 200, (9, 4, 1), ranks=RISING[:4], tail=tail, room=0)
    show(book, "a rank that repeats", [], 200, (9, 3, 0), ranks=[0, 1, 2, 1, 4], tail=tail, room=0)
    show(book, "no walk", [], 200, (10, 1, 0), file=porter((1, 0, 1), start=(0, 2, 0)), tail=tail, room=0)
    show(book, "a trace that comes round", [], 200, (10, 0, 255), file=coming_round(), ranks=[0, 1], tail=tail, room=0)
    show(book, "a condition off its walk", [], 200, (11, 2, 0), file=porter((0, 2, 1)), tail=tail, room=0)
    show(book, "a ring", [], 200, (12, 0, 0), file=two_wanting(1), ranks=[0, 1], tail=tail, room=0)


def crews(book):
    """Each crew's own plan is travelled."""
    file = file_of(porter_crews((1, 2, 1), (1, 0, 0), (1, 1, 1)))
    show(book, "crew 0 of three", FOUR, 0, (0, 7, 0), SEVEN, file=file)
    show(book, "crew 1 of three", FOUR, 0, (0, 1, 0), SEVEN[:1], file=file, crew=1)
    show(book, "crew 2 of three", FOUR, 0, (0, 5, 0), SEVEN[:5], file=file, crew=2)
    show(book, "crew 3 of three", FOUR, 0, (22, 3, 0), file=file, crew=3)


def write(book):
    for part in (made, hotel, larger, refused, out_of_force, before_rides, crews):
        part(book)
