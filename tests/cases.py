"""The cases that the program `cases` runs, from the documents' text alone: nothing here is taken from the Rattle code.

usage: cases.py stdin     prints the program's input
       cases.py stdout    prints what the program must write
"""

import sys

sys.dont_write_bytecode = True

from calls import charts, checks, crews, draws, journeys, plans, records, replays, reports, runs, writes
from calls.book import Book

book = Book()
for kind in (draws, records, checks, runs, plans, writes, reports, charts, crews, replays, journeys):
    kind.write(book)
book.case("a word that the program does not know")
book.ask("fly 12", "not understood")
if sys.argv[1:] not in (["stdin"], ["stdout"]):
    sys.exit(__doc__)
print(*(book.input if sys.argv[1] == "stdin" else book.output), sep="\n")
