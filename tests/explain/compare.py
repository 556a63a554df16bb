"""Compares what the program `explain` prints with an explainer of its own, on the worked cases and on generated files of all
outcomes.

    python3 tests/explain/compare.py [--files N] [--seed S] COMMAND...

The command is the program, or the words that run it. The last line is 'N passed, M failed'.
"""

import argparse
import collections
import os
import random
import subprocess
import sys
from concurrent.futures import ThreadPoolExecutor

sys.dont_write_bytecode = True

import explainer
import oracle

STUDIES = [oracle.solvable, oracle.without_walk, oracle.off_walk, oracle.ringed, oracle.middling, oracle.small_study]
LARGE = [oracle.large_study, oracle.longest_with_ring, oracle.longest_off_walk, oracle.longest_without_walk]

# Cases 9, 13 and 14, the porter and the horse breeder; a value that two actions set, and a variable that nobody uses.
WORKED = [
    oracle.PORTER,
    oracle.horse_breeder(),
    oracle.porter((1, 0, 1), start=(0, 2, 0)),
    *(oracle.two_wanting(value, more) for value in (0, 1) for more in (False, True)),
    oracle.coming_round(),
    bytes.fromhex("0102 02000001 02000001 04000001 0500000001 06"),
    bytes.fromhex("0102 0102 02000001 04000001 04010001 0500000001 06"),
    oracle.file_of(oracle.porter_crews((1, 2, 1), (0, 2, 1), (0, 0, 0))),
]

# What the files have to show, each at least once. 9 and 13 are not among it: the program draws its ranks, and has room.
TO_MEET = ["plan", "after next", "after sets", "after leaves", "unset", "round", "wants", "walk", "a ring with a tail"]
TO_MEET += [f"{crews} crews" for crews in range(1, oracle.MOST_CREWS + 1)]
TO_MEET += [f"refused {number}" for number in (1, 2, 3, 4, 5, 6, 7, 21, 8, 10, 11, 12)] + [f"ring {rule}" for rule in explainer.RULES]


def files(rng, count):
    yield from WORKED
    for number in range(count - len(WORKED)):
        if number % 20 == 0:
            yield oracle.beyond_limits(rng) if number % 100 == 0 else oracle.damaged_file(rng)
        elif number % 50 == 1:
            yield oracle.file_of(LARGE[number // 50 % len(LARGE)](rng))
        else:
            study = oracle.each_used(rng, STUDIES[number % len(STUDIES)](rng))
            study = oracle.in_a_situation(rng, study) if number % 3 == 0 else study
            yield oracle.file_of(oracle.crewed(rng, study)[0])


def shown_to(file, crew):
    """What the explanation to one crew shows of what is to be met."""
    lines = list(explainer.explained_to(file, crew))
    words = {" ".join(word for word in line.split() if not word.isdecimal()) for line in lines}
    if lines[0].startswith("refused"):
        words.add(" ".join(lines[0].split()[:2]))
    if lines[0].startswith("refused 12"):
        lowest = min(explainer.stuck(oracle.heard(file, crew)))
        if str(lowest) not in {line.split()[2] for line in lines[1:]}:
            words.add("a ring with a tail")
    return words


def shown(file):
    """What a file shows of what is to be met."""
    crews = explainer.crews_in(file)
    return set().union(*(shown_to(file, crew) for crew in range(crews)), {f"{crews} crews"})


def main():
    reader = argparse.ArgumentParser(usage="compare.py [--files N] [--seed S] COMMAND...")
    reader.add_argument("--files", type=int, default=2000)
    reader.add_argument("--seed", type=int, default=6)
    reader.add_argument("command", nargs=argparse.REMAINDER)
    given = reader.parse_args()

    def printed(file):
        return subprocess.run(given.command, input=file, capture_output=True, check=False).stdout.decode()

    failed, met = 0, collections.Counter()
    made = list(files(random.Random(given.seed), given.files))
    with ThreadPoolExecutor(os.cpu_count()) as pool:
        for number, (file, text) in enumerate(zip(made, pool.map(printed, made))):
            expected = explainer.explained(file)
            met.update(shown(file))
            if text != expected:
                failed += 1
                print(f"file {number} differs: {file.hex()[:400]}\n{expected[:400]}\nis printed as\n{text[:400]}")
    print("; ".join(f"{name}: {met[name]}" for name in TO_MEET))
    missing = [name for name in TO_MEET if not met[name]]
    for name in missing:
        print(f"no file shows: {name}")
    print(f"{len(made) + len(TO_MEET) - failed - len(missing)} passed, {failed + len(missing)} failed")
    sys.exit(1 if failed or missing else 0)


main()
