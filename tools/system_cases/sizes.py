"""5. Files of the greatest sizes. Each run takes about a gigabyte of memory, and the runs follow one after the other."""
import os
from typing import Iterator

from system_cases.case import Case, Folder, Wanted
from system_cases.files import MADE, MAKE, YES, unused_record
from system_cases.running import Ended, How, LeftOut

LIMIT = 1_073_741_824  # of an image
LONGEST = LIMIT + 16  # of a file, with its trailer
MOST_MEMORY = 1_300_000_000  # bytes
NEEDED = 1_600_000_000  # bytes that have to be free for such a run
LONG = How(seconds=180)


def free_memory() -> int:
    with open("/proc/meminfo", encoding="ascii") as lines:
        return next(int(line.split()[1]) * 1024 for line in lines if line.startswith("MemAvailable"))


def sparse(size: int, front: bytes = b""):
    """Makes a file of so many bytes, all 0 but for those in front, which takes no room on the disk."""

    def prepare(folder: Folder) -> None:
        if free_memory() < NEEDED:
            raise LeftOut("too little memory is free")
        folder.file.write_bytes(front)
        try:
            os.truncate(folder.file, size)
        except OSError as error:
            raise LeftOut(f"no file of {size} bytes can be made: {error.strerror}") from error
        folder.kept["before"] = traits(folder)

    return prepare


def traits(folder: Folder) -> tuple[int, int, int]:
    known = os.stat(folder.file)
    return known.st_size, known.st_mtime_ns, known.st_blocks


def kept_in_bounds(folder: Folder, ended: Ended) -> Iterator[tuple[str, str]]:
    """The file is as it was, by its length, time and blocks, and the run took no more memory than it may."""
    if traits(folder) != folder.kept["before"]:
        yield f"the file as before: {folder.kept['before']}", str(traits(folder))
    yield from in_bounds(folder, ended)


def in_bounds(_: Folder, ended: Ended) -> Iterator[tuple[str, str]]:
    if ended.memory > MOST_MEMORY:
        yield f"at most {MOST_MEMORY} bytes of memory", f"{ended.memory}"


def made_anew(folder: Folder, ended: Ended) -> Iterator[tuple[str, str]]:
    """What stood under the name is replaced, however long it was."""
    yield from in_bounds(folder, ended)
    if folder.file.stat().st_size != len(MADE.after) or folder.file.read_bytes() != MADE.after:
        yield f"a new file of {len(MADE.after)} bytes", f"a file of {folder.file.stat().st_size} bytes"


def sized(name: str, size: int, status: int, answer: bytes, words: tuple[str, ...] = ("--check", "FILE"), front: bytes = b"") -> Case:
    wanted = Wanted(status, answer, after=())
    return Case(f"sizes: {name}", wanted, words, before=None, prepare=sparse(size, front), how=LONG, also=kept_in_bounds)


CASES = [
    sized(f"{LONGEST} bytes of 0", LONGEST, 4, b"rejected 1 1 0\n"),
    sized(f"{LONGEST + 1} bytes of 0", LONGEST + 1, 4, b"rejected 0 2 0\n"),
    sized("3000000000 bytes of 0", 3_000_000_000, 4, b"rejected 0 2 0\n"),
    sized("3000000000 bytes of 0, a script", 3_000_000_000, 4, b"rejected 0 2 0\n", ("FILE",)),
    Case("sizes: --new over 3000000000 bytes of 0", Wanted(0, MADE.text, after=()), ("--new", "FILE"), MAKE, None, prepare=sparse(3_000_000_000), how=LONG, also=made_anew),
    sized(f"a good file of {LIMIT} bytes", LIMIT, 0, YES, front=unused_record(LIMIT)[0]),
]
