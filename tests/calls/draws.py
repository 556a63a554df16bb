"""The generator's published check, and the draw."""

LARGEST = 2**64 - 1


def next_number(last):
    return 16807 * last % 2147483647


def number_after(steps, seed):
    last = seed
    for _ in range(steps):
        last = next_number(last)
    return last


def draw(seed, count, buffer):
    """The three numbers, and the buffer with the list in its first bytes."""
    if not 1 <= seed <= 2147483646:
        return (18, seed, 0), buffer
    if count > 256:
        return (19, count, 0), buffer
    if count > len(buffer):
        return (13, count, 0), buffer
    ranks = list(range(count))
    last = seed
    for i in range(count - 1, 0, -1):
        last = next_number(last)
        j = last % (i + 1)
        ranks[i], ranks[j] = ranks[j], ranks[i]
    return (0, last, 0), bytes(ranks) + buffer[count:]


def write(book):
    book.case("the generator's published check")
    book.held(number_after(10000, 1), 1043618065)
    book.ask("number 10000 1", "is", number_after(10000, 1))

    def show(name, seed, count, room=8, says=None, leaves=None):
        book.case(name)
        made = "draw", lambda buffer: draw(seed, count, buffer)
        book.lend(made, seed, count, room=room, says=says, leaves=leaves)

    show("case 1", 1, 3, says=(0, 282475249, 0), leaves=[0, 2, 1])
    show("case 2", 1, 5, leaves=[3, 0, 4, 1, 2])
    show("case 17, a count of 1", 2147483646, 1, says=(0, 2147483646, 0), leaves=[0])
    show("a count of 0", 2147483646, 0, says=(0, 2147483646, 0), leaves=[])
    show("as many as there is room for", 2147483646, 8)
    show("seed 0", 0, 3, says=(18, 0, 0), leaves=[])
    show("case 17, seed 2147483647", 2147483647, 3, says=(18, 2147483647, 0), leaves=[])
    show("the largest seed that can be said", LARGEST, 3)
    show("one more than there is room for", 1, 9, says=(13, 9, 0), leaves=[])
    show("case 17, a count of 257", 1, 257, says=(19, 257, 0), leaves=[])
    show("the largest count that can be said", 1, LARGEST)
    show("a seed and a count out of range", 0, LARGEST)
    show("case 17, a count of 256", 1, 256, room=258)
