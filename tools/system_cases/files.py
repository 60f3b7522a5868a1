"""The files that the cases begin from, and what a script makes of them, by the editor in tools/second."""
from dataclasses import dataclass
from functools import lru_cache
from random import Random
from typing import Optional, Sequence

from image import Image
from layout import CPR, CVVR, ZVDR, fresh_image
from makers import foreign_file
from runrows import Row, Run
from validator import broken


@dataclass(frozen=True)
class Expected:
    """What a run has to write, its status, and the file that it leaves."""

    text: bytes
    status: int
    after: bytes


@lru_cache(maxsize=None)
def expected(script: bytes, before: Optional[bytes], words: tuple[str, ...] = ("FILE",)) -> Expected:
    """What comes of a script over a file. Each of its lines is a command."""
    run = Run(Row("", words=list(words), script=script), before)
    run.go()
    return Expected(run.text, run.status, run.after if run.after is None else bytes(run.after))


def made(script: bytes) -> bytes:
    """The file that a script makes of a new one."""
    result = expected(script, None, ("--new", "FILE"))
    assert result.status == 0 and broken(result.after) == [], result.text
    return result.after


def lines(*texts: str) -> bytes:
    return "".join(text + "\n" for text in texts).encode()


# A file of several pages of 4,096 bytes, which has some of everything
GOOD = made(
    lines(
        *(f"attr Attribute{n} {'global' if n % 2 else 'variable'}" for n in range(20)),
        'put-entry Attribute1 g 0 CHAR "an entry"',
        "zvar Counts UINT2 1 vary 3 T",
        *(f"put-rec Counts {n} {n} {n + 1} {n + 2}" for n in (0, 1, 2, 200, 399)),
        "zvar Late INT4 1 vary - -",
        "put-rec Late 0 1",
    )
)
NEW = bytes(fresh_image())

# An edit near the front of the file, one near its end, and records that make it longer
EDIT = lines(
    "rename-attr Attribute0 Renamed", "put-rec Counts 399 7 8 9", "attr Added global", "zvar More REAL8 1 vary 100 T", "list"
)
EDITED = expected(EDIT, GOOD)
# An edit that leaves the length
IN_PLACE = lines("rename-attr Attribute0 Renamed", "put-rec Counts 399 7 8 9")
IN_PLACE_DONE = expected(IN_PLACE, GOOD)
# A script that changes nothing
READ = lines("info", "list", "get-rec Counts 200")
READ_DONE = expected(READ, GOOD)
# An edit with refused lines
REFUSED = lines("attr Attribute1 global", "attr Added global", "del-attr Nothing", "get-rec Nowhere 0")
REFUSED_DONE = expected(REFUSED, GOOD)
# All that a file has, in a reply that is longer than what is written at once, between edits, and what taps say of it
DUMP = lines("zvar Long INT1 1 vary 40000 T", "set-blocking Long 8", "put-val Long 7 0 7", "dump", "report tally", "report vartype", "report vartype", "attr Added global")
DUMPED = expected(DUMP, GOOD)
# What is made new
MAKE = lines("attr Project global", "zvar Epoch EPOCH 1 vary - -", "list")
MADE = expected(MAKE, None, ("--new", "FILE"))

YES = b"yes\n"
NO_FILE = b"no file\n"


def with_number(file: bytes, place: int, width: int, value: int) -> bytes:
    return file[:place] + value.to_bytes(width, "big") + file[place + width :]


# A file whose eof is one too small, and bytes that are no CDF at all
WRONG_EOF = with_number(NEW, 356, 8, len(NEW) - 1)
WRONG_EOF_TEXT = b"rejected 3 4 320\n"
NO_CDF = b"these bytes are no CDF\n" * 40
NO_CDF_TEXT = b"rejected 1 1 0\n"


def unused_record(size: int) -> tuple[bytes, int]:
    """The front of a file of a new file's records and one unused record behind them, and the length of the whole."""
    front = with_number(with_number(NEW, 356, 8, size), 384, 8, len(NEW))
    return front + (size - len(NEW)).to_bytes(8, "big") + b"\xff" * 4, size


def with_unused(size: int) -> bytes:
    front, size = unused_record(size)
    return front.ljust(size, b"\0")


def is_read(file: bytes) -> bool:
    """Whether a file has nothing that the program does not read yet: packed variables."""
    return all(tile.type not in (CPR, CVVR) for tile in Image(file).tiles())


@lru_cache(maxsize=None)
def foreign(seeds: Sequence[int]) -> bytes:
    """A file as another maker writes it, with attributes and variables, of the first seed that gives such a file."""
    for seed in seeds:
        file = bytes(foreign_file(Random(seed)))
        image = Image(file)
        if image.attributes() and image.variables(ZVDR) and is_read(file) and broken(file) == []:
            return file
    raise AssertionError("no seed gives such a file")
