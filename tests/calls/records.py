"""One record at a place, and the records of a file one after another."""

from study import END, PORTER, record_at

# Bytes that are no kind among others; behind them, records that end with the file or are cut by its end.
ODD = bytes([0, 10, 7, 8, 255, 128, 1, 0, 2, 9, 10, 11, 6, 254, 5, 4, 3, 2, 1, 3, 5, 4, 3, 2, 1])

# Two records, then a byte that is no kind.
SHORT = bytes([1, 16, 3, 2, 1, 10, 6])

# Records of the kinds 8 and 7, whatever they say and wherever they stand.
SITUATIONS = bytes([8, 9, 7, 255, 7])

# What opens a crew, also where none may be opened.
CREWS = bytes([9, 9, 4, 9, 9, 9, 9, 5, 0, 0, 0, 1, 9, 6])


def told(data, at):
    """What is printed of the record at a place: the numbers, and the body's bytes."""
    number, kind, start, length, after = record_at(data, at)
    return ["is", number, kind, start, after, "body", data[start : start + length].hex()]


def each_place(book, name, data):
    book.case(f"each place of {name}, and behind it")
    book.use(data)
    for at in [*range(61), 2**64 - 1]:
        book.ask(f"record {at}", *told(data, at))


def one_by_one(book, name, data):
    """The records up to the end record; where one is not there, its refusal is the last that is printed."""
    book.case(f"the records of {name}")
    book.use(data)
    at, printed = 0, []
    while True:
        number, kind, _, _, after = record_at(data, at)
        printed += told(data, at) if number == 0 else told(data, at)[:5]
        if number != 0 or kind == END:
            break
        at = after
    book.ask("records", *printed)


def write(book):
    each_place(book, "the porter file", PORTER)
    each_place(book, "the porter file cut to 54", PORTER[:54])
    each_place(book, "odd bytes", ODD)
    each_place(book, "no bytes", b"")
    one_by_one(book, "the porter file", PORTER)
    one_by_one(book, "the porter file cut to 54", PORTER[:54])
    one_by_one(book, "the porter file cut to 55", PORTER[:55])
    one_by_one(book, "odd bytes", SHORT)
    one_by_one(book, "a situation, a set, a set that is cut", SITUATIONS)
    each_place(book, "records of crews", CREWS)
    one_by_one(book, "records of crews", CREWS)
    one_by_one(book, "no bytes", b"")
