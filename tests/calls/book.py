"""What the program `cases` reads and what it must write, case after case. crates/cases/src/main.rt says what the lines mean."""

import os
import sys

BUFFER = b"\xaa" * 272
BEHIND = 8  # so many bytes behind those that are lent are printed too
IN_A_LINE = 96  # of the file's bytes, at most
BACK = (1, 2, 4)  # how far back a byte may stand that comes again
WORTH = 64  # so many bytes that come again are not written out
MOST_AGAIN = 65535


def coming_again(file, at, back):
    """How many bytes from a place on are each as the one that stands so far before it."""
    end = at
    while end < min(len(file), at + MOST_AGAIN) and file[end] == file[end - back]:
        end += 1
    return end - at


class Book:
    def __init__(self):
        self.input = []
        self.output = []
        self.file = b""
        self.buffer = BUFFER
        self.name = ""

    def case(self, name):
        """Begins a case. Its calls share a buffer that nothing has written to."""
        self.input.append(f"# {name}")
        self.output.append(f"# {name}")
        self.buffer = BUFFER
        self.name = name

    def held(self, found, says):
        """Stops if an answer is not the one that document 01 states, where it states one."""
        if says is not None and found != says:
            sys.exit(f"{self.name}: document 01 says {says}, and not {found}")

    def use(self, file):
        """The calls that follow get this file. Of one that begins as the file before does, what follows is given; bytes that come again
        and again are given once."""
        if file == self.file:
            return
        at = len(os.path.commonprefix([self.file, file]))
        if at == len(file):
            self.input.append(f"file {at}")
        while at < len(file):
            line = file[at : at + IN_A_LINE]
            self.input.append(f"file {at} {line.hex()}")
            at += len(line)
            back, many = max(((back, coming_again(file, at, back)) for back in BACK), key=lambda one: one[1])
            if many >= WORTH:
                self.input.append(f"again {back} {many}")
                at += many
        self.file = file

    def ask(self, call, *answer):
        """A call that writes nothing."""
        self.input.append(call)
        self.output.append(" ".join(map(str, [call, "of", len(self.file), *answer])))

    def lend(self, call, *given, room, says=None, leaves=None):
        """A call, by its name and what gives its numbers and the lent bytes afterwards. The buffer's first bytes are lent."""
        name, made = call
        lent = self.buffer[:room]
        numbers, left = made(lent)
        self.held(numbers, says)
        if leaves is not None:
            self.held(left, bytes(leaves) + lent[len(leaves) :])
        self.buffer = left + self.buffer[room:]
        line = " ".join(map(str, [name, room, *given])).rstrip()
        self.ask(line, "answers", *numbers, "leaves", self.buffer[: room + BEHIND].hex())
