"""Writes 40 files of many kinds into a folder, NAME.bin, and what the oracle says that the program prints for each, NAME.out.

    python3 tests/program/others.py FOLDER
"""

import random
import sys
from pathlib import Path

sys.path.insert(0, str(Path(__file__).resolve().parent.parent))

import oracle

STUDIES = [oracle.solvable, oracle.without_walk, oracle.off_walk, oracle.ringed, oracle.middling, oracle.large_study]
FILES = [oracle.damaged_file, oracle.beyond_limits]


def main():
    folder = Path(sys.argv[1])
    rng = random.Random(5)
    for number in range(40):
        kind = number % 8
        data = FILES[kind](rng) if kind < 2 else oracle.file_of(oracle.crewed(rng, STUDIES[kind - 2](rng))[0])
        Path(folder, f"other-{number}.bin").write_bytes(data)
        Path(folder, f"other-{number}.out").write_text(oracle.printed(data))


main()
