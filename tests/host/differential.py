"""The library against the oracle: every number and every byte of at least 25,000 calls.

    python3 tests/host/differential.py [--seed N] [--calls N] [--any-stack] COMMAND...

COMMAND starts tests/host/serve.c. The calls are those of tests/oracle.py: its worked cases, then calls from a seed, which
is drawn anew for each run (or given, also by MARROWKITE_SEED) and printed, then a fifth as many writes, a twentieth as many
reports, and of charts, replays and lists of rides an eighth as many each. A run goes on until each answer that each call can give
was met, for at most twice as many calls. Each file that loads is read by the oracle and written back by the library, which has to give the same bytes. Each call's stack is held to the limit that
include/marrowkite.h names, unless any stack will do, as for the yardstick.
The last line is 'N passed, M failed': calls that agree, calls that do not and answers that were never met.
"""

import argparse
import os
import random
import re
import struct
import subprocess
import sys
import time
from collections import Counter
from pathlib import Path

sys.dont_write_bytecode = True
ROOT = Path(__file__).resolve().parents[2]
sys.path.insert(0, str(ROOT / "tests"))
import oracle  # noqa: E402

# in the order of serve.c
NAMES = ["record_at", "check", "plan", "plan_seeded", "run", "draw", "write", "report", "chart", "replay", "journeys"]
FILE_FAULTS = {*range(1, 9), 21}
NO_CREW = 22
CAN_ANSWER = {
    "record_at": {0, 1, 2},
    "check": {0} | FILE_FAULTS,
    "plan": {0, 9, 10, 11, 12, 13, NO_CREW} | FILE_FAULTS,
    "plan_seeded": {0, 10, 11, 12, 13, NO_CREW} | FILE_FAULTS,
    "run": {0, 13, 14, 15, 16, 17, 20, NO_CREW} | FILE_FAULTS,
    "draw": {0, 13, 18, 19},
    "write": {0, 3, 4, 5, 6, 7, 13, 21},
    "report": {0, 13, 18, 19, NO_CREW} | FILE_FAULTS,
    "chart": {0, 10, 11, 12, 14, 19, 25, 26, 27, 28, NO_CREW} | FILE_FAULTS,
    "replay": {0, 14, 19, 20, 23, NO_CREW} | FILE_FAULTS,
    "journeys": {0, 9, 10, 11, 12, 13, 14, NO_CREW} | FILE_FAULTS,
}
SHOWN = 5
SLICES = 5  # that a call reads, at most


def parts(name, inputs):
    """A call as serve.c takes it: the crew, two numbers, the slices that are read, the buffer."""
    if name == "record_at":
        return 0, (inputs[1], 0), inputs[:1], b""
    if name == "check":
        return 0, (0, 0), inputs, b""
    if name == "draw":
        return 0, inputs[:2], (), inputs[2]
    if name == "write":
        return 0, (inputs[0], 0), inputs[1:6], inputs[6]
    file, crew, *rest = inputs
    if name == "report":
        return crew, rest[:2], (file,), rest[2]
    if name == "chart":
        return crew, (0, 0), (file, *rest), b""
    if name == "journeys":
        return crew, (rest[2], 0), (file, *rest[:2]), rest[3]
    *read, buffer = rest
    return crew, (0, 0), (file, *read), buffer


class Library:
    """The exported calls, through a running serve."""

    def __init__(self, command):
        self.process = subprocess.Popen(command, stdin=subprocess.PIPE, stdout=subprocess.PIPE)

    def read(self, length):
        read = self.process.stdout.read(length)
        if len(read) < length:
            raise EOFError
        return read

    def call(self, name, inputs):
        """The numbers, the buffer afterwards, whether guard bytes and inputs are whole, and the bytes of stack used."""
        crew, numbers, read, buffer = parts(name, inputs)
        lengths = [*map(len, read), *[0] * SLICES][:SLICES]
        head = struct.pack("<10Q", NAMES.index(name), crew, *numbers, *lengths, len(buffer))
        self.process.stdin.write(head + b"".join(read) + buffer)
        self.process.stdin.flush()
        *numbers, whole, stack = struct.unpack("<7Q", self.read(56))
        used = 5 if name == "record_at" else 3
        assert not any(numbers[used:])
        return tuple(numbers[:used]), self.read(len(buffer)), bool(whole), stack

    def end(self):
        """Whether it ended in order."""
        self.process.stdin.close()
        return self.process.wait() == 0


def stack_limits():
    """The table of marrowkite.h: bytes of stack by call."""
    rows = re.findall(r"^ \*   marrowkite_(\w+) +([\d,]+)$", (ROOT / "include/marrowkite.h").read_text(), re.M)
    return {name: int(limit.replace(",", "")) for name, limit in rows}


def crowded(length):
    """A file of that length with as many actions as one can have: two variables of 16 values, and conditions where 4 bytes do not fit."""
    actions = next(k for k in range((length - 18) // 4, -1, -1) if (length - 18 - 4 * k) % 3 == 0)
    conditions = (length - 18 - 4 * actions) // 3
    records = [bytes([2, k % 2, (k // 2 + 1) % 16, k // 2]) + b"\3\1\0" * (k % 2 == 0 and k // 2 < conditions) for k in range(actions)]
    return b"\1\x10\1\x10" + b"".join(records) + b"\4\0\0\1\4\1\0\1\5\0\0\0\1\6"


def around_short():
    """Calls on files about as long as those for which the library takes fewer rows, whole and cut."""
    for length in range(110, 147):
        file = crowded(length)
        actions = oracle.answer("check", (file,))[0][1]
        yield "check", (file,)
        yield "check", (crowded(200)[:length],)
        yield "plan_seeded", (file, 0, bytes(256))
        for plan in (bytes(range(actions)), bytes([actions - 1]), bytes([actions])):
            yield "run", (file, 0, plan, bytes(2))


def all_calls(seed, n, seen):
    """The worked cases; calls on files of a length at which other tables are taken; n calls, a fifth as many writes, a twentieth as many reports, and of charts, replays and lists of rides an
    eighth as many each; as many more as it takes to meet every answer, but at most as many again. Each with what it has to answer;
    behind each call on a file that loads, the write of what the file says."""
    worked = [(name, inputs) for _, name, inputs, *_ in oracle.worked_cases()]
    worked += [("write", oracle.inputs_of_worked_write(lists, length)) for lists, length, _ in oracle.worked_writes()]
    worked += [("chart", oracle.inputs_of_worked_chart(*call)) for *call, _ in oracle.worked_charts()]
    worked += [("replay", oracle.inputs_of_worked_replay(*call)) for *call, _, _ in oracle.worked_replays()]
    worked += [("journeys", oracle.inputs_of_worked_journeys(*call)) for *call, _, _ in oracle.worked_journeys()]
    for name, inputs in [*worked, *around_short()]:
        yield name, inputs, oracle.answer(name, inputs)
    kinds = [(n, oracle.calls, NAMES[:6]), (n // 5, oracle.writes, ["write"]), (n // 20, oracle.reports, ["report"])]
    kinds += [(n // 8, oracle.charts, ["chart"]), (n // 8, oracle.replays, ["replay"]), (n // 8, oracle.travels, ["journeys"])]
    for some, calls, names in kinds:
        for index, (name, inputs) in enumerate(calls(seed, 2 * some)):
            if index >= some and not unmet(seen, names):
                break
            yield name, inputs, oracle.answer(name, inputs)
            if name in ("check", "plan", "plan_seeded", "run"):
                yield from written_back(inputs[0])


def written_back(file):
    """The write of what a file says, if it loads: it has to give the same bytes."""
    try:
        roster = oracle.read(file)
    except oracle.Refused:
        return
    yield "write", (*oracle.lists_of(roster), b"\xaa" * len(file)), ((0, len(file), 0), file)


def unmet(seen, names):
    return [(name, number) for name in names for number in sorted(CAN_ANSWER[name]) if not seen[name, number]]


def differences(name, inputs, expected, library, limits):
    """What is wrong with a call; the numbers that the library gave and the bytes of stack that it used."""
    numbers, buffer, whole, stack = library.call(name, inputs)
    wrong = []
    if numbers != expected[0]:
        wrong.append(f"the library says {numbers}, the oracle {expected[0]}")
    if buffer != expected[1]:
        wrong.append(f"the library leaves {buffer.hex(' ')}, the oracle {expected[1].hex(' ')}")
    if not whole:
        wrong.append("a guard byte or an input was altered")
    if stack > limits.get(name, stack):
        wrong.append(f"{stack} bytes of stack; marrowkite.h says at most {limits[name]}")
    return wrong, numbers, stack


def shown(name, inputs):
    return f"{name}(" + ", ".join(part.hex(" ") or "empty" if isinstance(part, bytes) else str(part) for part in inputs) + ")"


def compare(seed, n, limits, command):
    """Prints what was found; how many agree and how many do not."""
    library = Library(command)
    seen, stacks, faults, agreed, longest_file, longest_plan = Counter(), Counter(), [], 0, 0, 0
    for name, inputs, expected in all_calls(seed, n, seen):
        try:
            wrong, numbers, stack = differences(name, inputs, expected, library, limits)
        except (EOFError, BrokenPipeError):
            faults.append((shown(name, inputs), ["the host died in this call"]))
            break
        seen[name, numbers[0]] += 1
        stacks[name] = max(stacks[name], stack)
        if name in ("plan", "plan_seeded") and numbers[0] == 0:
            longest_file, longest_plan = max(longest_file, len(inputs[0])), max(longest_plan, numbers[1])
        if wrong:
            faults.append((shown(name, inputs), wrong))
        else:
            agreed += 1
    if not library.end() and not faults:
        faults.append(("after the last call", ["the host did not end in order"]))
    for name in NAMES:
        tally = ", ".join(f"{number}: {seen[name, number]}" for number in sorted(CAN_ANSWER[name]))
        print(f"  {name}: {tally}; at most {stacks[name]} bytes of stack")
    print(f"  planned: files of up to {longest_file} bytes, plans of up to {longest_plan} steps")
    for call, wrong in sorted(faults, key=lambda fault: len(fault[0]))[:SHOWN]:
        print("differs:", call, *wrong, sep="\n    ")
    if n >= 20000:
        faults += [(f"{name} never answered {number}", []) for name, number in unmet(seen, NAMES)]
    return agreed, len(faults)


def main():
    reader = argparse.ArgumentParser(usage="differential.py [--seed N] [--calls N] [--any-stack] COMMAND...")
    reader.add_argument("--seed", type=int, default=os.environ.get("MARROWKITE_SEED") or random.SystemRandom().randrange(2**31))
    reader.add_argument("--calls", type=int, default=20000)
    reader.add_argument("--any-stack", action="store_true")
    reader.add_argument("command", nargs=argparse.REMAINDER)
    given = reader.parse_args()
    print(f"seed {given.seed} (MARROWKITE_SEED={given.seed} makes the same calls again)", flush=True)
    begun = time.monotonic()
    agreed, differ = compare(given.seed, given.calls, {} if given.any_stack else stack_limits(), given.command)
    print(f"  {agreed + differ} calls compared in {time.monotonic() - begun:.0f} s")
    print(f"{agreed} passed, {differ} failed")
    sys.exit(differ > 0)


if __name__ == "__main__":
    main()
