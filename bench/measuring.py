"""Runs of the programs, and the line of a case."""

import hashlib
import math
import os
import resource
import subprocess
import sys
import tempfile
import time
from dataclasses import dataclass, field
from pathlib import Path
from typing import Callable, Optional

from cases import Case, LibraryCase
from cases_shapes import COUNTS_FROM, TWICE_AS_LARGE, ShapeCase
from places import LIBRARIES, MADE, MB, MIB, NEW_FILE, PLAIN, PROGRAM, TIME


def input_of(make: Callable[[int], bytes], size: int) -> Path:
    path = MADE / f"{make.__name__}.{size}"
    if not path.exists() or path.stat().st_size != size:
        path.write_bytes(make(size))
    return path


@dataclass
class Run:
    seconds: float
    memory: int  # bytes
    status: int
    answer: bytes  # of a hashed run the hash of what it wrote
    user: float  # seconds that the processor worked for it, and not for the system
    laps: dict[str, float] = field(default_factory=dict)  # seconds of the parts, of cdf_bench and the plain program


def run_program(command: list[str], script: Optional[Path] = None, has_laps: bool = False, hashed: bool = False) -> Run:
    """One run. `time` starts the program, so that the memory of this script does not count as the program's."""
    note, answer = MADE / "memory", MADE / "answer"
    timed = [str(TIME), "-q", "-o", str(note), "-f", "%M", *command]
    with open(script or "/dev/null", "rb") as source, open(answer, "wb") as target:
        start, worked = time.perf_counter(), user_seconds()
        done = subprocess.run(timed, stdin=source, stdout=target if hashed else subprocess.PIPE, stderr=subprocess.PIPE)
        seconds, worked = time.perf_counter() - start, user_seconds() - worked
    # of a library these are the laps; what the program tells of a run is let go
    laps = dict(line.split() for line in done.stderr.decode().splitlines()) if has_laps else {}
    in_seconds = {part: int(micros) / MB for part, micros in laps.items()}
    memory = int(note.read_text()) * 1024
    return Run(seconds, memory, done.returncode, hash_of(answer) if hashed else done.stdout, worked, in_seconds)


def user_seconds() -> float:
    """How long the processor worked for all programs that were started here and have ended."""
    return resource.getrusage(resource.RUSAGE_CHILDREN).ru_utime


def hash_of(path: Path) -> bytes:
    """A hash of a file that may be too long to be held."""
    digest = hashlib.sha256()
    with open(path, "rb") as file:
        while piece := file.read(MIB):
            digest.update(piece)
    return digest.hexdigest().encode()


MEMORY = Path("/dev/shm")


def folder_in_memory() -> "tempfile.TemporaryDirectory[str]":
    """A folder for the files that the program opens, where a sync costs nothing; on the disk where there is no such place."""
    if not os.access(MEMORY, os.W_OK):
        print(f"bench/run: no {MEMORY}, so that all files are on the disk, and every save waits for it", file=sys.stderr)
    return tempfile.TemporaryDirectory(prefix="cdfedit-bench-", dir=MEMORY if os.access(MEMORY, os.W_OK) else MADE)


def seconds_of_copy(source: Path, copy: Path, on_disk: bool) -> float:
    """How long a copy takes. One on the disk is brought there afterwards, so that what the program saves is all that it waits for."""
    seconds = seconds_of(["cp", str(source), str(copy)])
    if on_disk:
        with open(copy, "rb") as file:
            os.fsync(file.fileno())
    return seconds


def seconds_of(command: list[str]) -> float:
    start = time.perf_counter()
    subprocess.run(command, stdout=subprocess.DEVNULL, check=True)
    return time.perf_counter() - start


RATIOS = [(name, 7, 2) for name in ("md5sum", "cat", "cp", "plain", "before")]
COLUMNS = [("seconds", 9, 3), ("user", 7, 2), *RATIOS, ("beyond", 7, 3), ("MiB", 9, 1), ("of size", 7, 2), ("bytes", 9, 0)]


def print_head() -> None:
    print(f"{'case':48}" + " ".join(f"{name:>{width}}" for name, width, _ in COLUMNS))


def print_line(name: str, numbers: "Numbers") -> bool:
    """Prints the numbers of a case, each with what is wanted at most, and says whether all are within it."""
    text = f"{name:48}"
    good = True
    for column, width, digits in COLUMNS:
        if column not in numbers:
            text += " " * (width + 1)
            continue
        value, wanted = numbers[column]
        fits = wanted is None or value <= wanted
        text += f"{value:{width}.{digits}f}{' ' if fits else '!'}"
        good = good and fits
    print(text.rstrip(), flush=True)
    return good


def print_wrong(run: Run) -> None:
    print(f"    wrong answer: status {run.status}, {run.answer[:80]!r}", flush=True)


@dataclass
class Compared:
    """The runs of a case, and the seconds of what it is compared to."""

    tries: list[Run] = field(default_factory=list)
    plains: list[Run] = field(default_factory=list)
    sums: list[float] = field(default_factory=list)
    cats: list[float] = field(default_factory=list)
    copies: list[float] = field(default_factory=list)


def run_case(case: Case, runs: int, opened: Path) -> Compared:
    """Runs a case in turn with what it is compared to. The program may write to the file that it opens."""
    made = input_of(case.file or case.script, case.size)
    script = input_of(case.script, case.size) if case.script else None
    hashed = bool(case.plain) and not case.answer
    of = Compared()
    for _ in range(runs):
        of.sums.append(seconds_of(["md5sum", str(made)]))
        if case.times_cat:
            of.cats.append(seconds_of(["sh", "-c", 'cat "$1" | cat > /dev/null', "sh", str(made)]))
        of.copies.append(seconds_of_copy(made if case.file else NEW_FILE, opened, case.on_disk))
        of.tries.append(run_program([str(PROGRAM), *case.flags, str(opened)], script, hashed=hashed))
        if case.plain:
            of.plains.append(run_program([str(PLAIN), *case.plain, str(made)], hashed=hashed))
    return of


def times_made(case: Case, runs: int, opened: Path, tries: list[Run]) -> float:
    """The memory beyond that of the script beside, in times of what the file that is left is larger by."""
    size = opened.stat().st_size
    seconds_of(["cp", str(NEW_FILE), str(opened)])
    beside = min(run_program([str(PROGRAM), *case.flags, str(opened)], input_of(case.beside, case.size)).memory for _ in range(runs))
    return (min(run.memory for run in tries) - beside) / (size - opened.stat().st_size)


Numbers = dict[str, tuple[float, Optional[float]]]  # each with what is wanted at most


def compared_numbers(case: Case, of: Compared, seconds: float, worked: float) -> Numbers:
    """How a case stands to what it is run in turn with."""
    numbers: Numbers = {"seconds": (seconds, case.most_seconds), "md5sum": (seconds / min(of.sums), case.times_md5sum)}
    if case.by_user:
        numbers["user"] = (worked, None)
    if case.plain:
        plain = min(run.user if case.by_user else run.seconds for run in of.plains)
        numbers["plain"] = ((worked if case.by_user else seconds) / max(plain, 0.01), case.times_plain)
    if case.times_cat:
        numbers["cat"] = (seconds / min(of.cats), case.times_cat)
    if case.times_cp:
        numbers["cp"] = (seconds / min(of.copies), case.times_cp)
    return numbers


def measure(case: Case, runs: int, folder: Path, memory: dict[str, int], earlier: dict[str, float]) -> bool:
    """Prints the line of a case, whose file is opened in a folder, and says whether all is as it is wanted."""
    opened = (MADE if case.on_disk else folder) / "opened.cdf"
    of = run_case(case, runs, opened)
    seconds, worked = min(run.seconds for run in of.tries), min(run.user for run in of.tries)
    most = memory[case.name] = max(run.memory for run in of.tries)
    compared = earlier[case.name] = worked if case.by_user else seconds
    numbers = compared_numbers(case, of, seconds, worked)
    wanted_memory = memory[case.memory_of] + MIB if case.memory_of in memory else None
    if case.memory_beyond:
        wanted_memory = case.size + case.memory_beyond
    numbers["MiB"] = (most / MIB, wanted_memory and wanted_memory / MIB)
    if case.times_size:
        numbers["of size"] = (most / case.size, case.times_size)
    if case.times_made:
        numbers["of size"] = (times_made(case, runs, opened, of.tries), case.times_made)
    if case.before in earlier:
        numbers["before"] = (compared / max(earlier[case.before], 0.01), case.times_before)
    if case.before in earlier and (case.seconds_beyond or case.on_disk):
        numbers["beyond"] = (seconds - earlier[case.before], case.seconds_beyond)
    good = print_line(case.name, numbers)
    answer = case.answer or (of.plains[-1].answer if case.plain else b"")
    right = all((run.status, run.answer) == (case.status, answer) for run in of.tries + of.plains)
    if not right:
        print_wrong(of.tries[-1])
    opened.unlink(missing_ok=True)
    return right and good


BESIDE = 24 * MB  # bytes that a program may take beside what it opens and what it makes
LONGEST_RUN = 120  # seconds, after which a run over a shape is ended
LONG_RUNS = 20.0  # seconds, after which a case of a shape is not run again
STOP = ["timeout", str(LONGEST_RUN)]
ENDED = 124  # the status of a run that `timeout` ended


def input_of_count(make: Callable[[int], bytes], count: int) -> Path:
    path = MADE / f"{make.__name__}.{count}"
    if not path.exists():
        made = MADE / "made-now"
        made.write_bytes(make(count))
        made.rename(path)
    return path


def run_shape(case: ShapeCase, command: list[str], opened: Path) -> tuple[Run, Optional[bytes]]:
    """A run of the program or the plain one over the file of a shape, and a hash of the file that it leaves."""
    opened.unlink(missing_ok=True)
    if case.file:
        seconds_of_copy(input_of_count(case.file, case.count), opened, on_disk=False)
    script = input_of_count(case.script, case.count) if case.script else None
    run = run_program([*STOP, *command, str(opened)], script, hashed=True)
    return run, hash_of(opened) if case.does != "check" and opened.exists() else None


def measure_shape(case: ShapeCase, runs: int, folder: Path, earlier: dict[str, float]) -> bool:
    """Prints the line of a shape, and says whether all is as it is wanted. The plain program runs but once where no limit is on its time."""
    if earlier.get(case.half) == math.inf:
        print(f"{case.name:48}    not run, since half of it was ended", flush=True)
        return False
    opened = folder / "opened.cdf"
    tries, plains, left, wanted = [], [], set(), set()
    for turn in range(runs):
        run, file = run_shape(case, [str(PROGRAM), *case.flags], opened)
        tries.append(run)
        left.add((run.status, run.answer, file))
        if turn == 0 or case.times_plain:
            plain, file = run_shape(case, [str(PLAIN), case.does], opened)
            plains.append(plain)
            wanted.add((plain.status, plain.answer, file))
        if sum(run.seconds for run in tries + plains) > LONG_RUNS:
            break
    opened.unlink(missing_ok=True)
    was_ended = any(run.status == ENDED for run in tries)
    good = print_line(case.name, shape_numbers(case, tries, plains, earlier))
    earlier[case.name] = math.inf if was_ended else min(run.user for run in tries)
    if was_ended:
        print(f"    ended after {LONGEST_RUN} seconds", flush=True)
    elif left != wanted or len(left) > 1:
        print(f"    wrong answer: status, answer and file {left}, where the plain program has {wanted}", flush=True)
    return good and not was_ended and left == wanted and len(left) == 1


def shape_numbers(case: ShapeCase, tries: list[Run], plains: list[Run], earlier: dict[str, float]) -> Numbers:
    worked, most = min(run.user for run in tries), max(run.memory for run in tries)
    numbers: Numbers = {
        "seconds": (min(run.seconds for run in tries), None),
        "user": (worked, case.most_user),
        "plain": (worked / max(min(run.user for run in plains), 0.01), case.times_plain),
        "MiB": (most / MIB, case.most_memory and case.most_memory / MIB),
    }
    if case.half in earlier:
        half = earlier[case.half]
        numbers["before"] = (worked / max(half, 0.01), TWICE_AS_LARGE if half >= COUNTS_FROM else None)
    return numbers


def measure_bytes(case: LibraryCase) -> bool:
    """Prints the line of a case that counts bytes, and says whether there are not too many."""
    run = run_program([str(LIBRARIES), *case.words])
    if run.status != 0:
        print_wrong(run)
        return False
    return print_line(case.name, {"seconds": (run.seconds, None), "MiB": (run.memory / MIB, None), "bytes": (int(run.answer), case.most_bytes)})


def run_library(case: LibraryCase, runs: int, copied: Path) -> Compared:
    """Runs a case of a library in turn with what it is compared to."""
    made = [str(input_of(case.file, case.size))] if case.file else []
    of = Compared()
    for _ in range(runs):
        of.tries.append(run_program([str(LIBRARIES), *case.words, *made], has_laps=True))
        if case.times_cp:
            of.copies.append(seconds_of_copy(Path(made[0]), copied, on_disk=False))
        if case.times_md5sum:
            of.sums.append(seconds_of(["md5sum", *made]))
        else:
            of.plains.append(run_program([str(PLAIN), *case.words, *made], has_laps=True))
    copied.unlink(missing_ok=True)
    return of


def library_numbers(case: LibraryCase, of: Compared, seconds: float, earlier: dict[str, float]) -> Numbers:
    most = max(run.memory for run in of.tries)
    numbers: Numbers = {"seconds": (seconds, case.most_seconds), "MiB": (most / MIB, None)}
    if case.times_md5sum:
        numbers["md5sum"] = (seconds / min(of.sums), case.times_md5sum)
    else:
        numbers["plain"] = (seconds / fastest(of.plains, case.parts), case.times_plain)
    if case.times_cp:
        numbers["cp"] = (seconds / min(of.copies), case.times_cp)
    if case.before in earlier:
        numbers["before"] = (seconds / earlier[case.before], case.times_before)
    if case.times_made:
        made = int(of.tries[-1].answer.split()[0])
        numbers["of size"] = ((most - case.size) / made, case.times_made + BESIDE / made)
    elif case.size:
        numbers["of size"] = (most / case.size, None)
    return numbers


def measure_library(case: LibraryCase, runs: int, folder: Path, earlier: dict[str, float]) -> bool:
    """Prints the line of a case of a library, and says whether all is as it is wanted."""
    if case.most_bytes:
        return measure_bytes(case)
    of = run_library(case, runs, folder / "copied.cdf")
    if any(run.status != 0 for run in of.tries + of.plains):
        print_wrong(of.tries[-1])
        return False
    earlier[case.name] = seconds = fastest(of.tries, case.parts)
    good = print_line(case.name, library_numbers(case, of, seconds, earlier))
    answer = of.plains[-1].answer if of.plains else hash_by_md5sum(case)
    right = all(run.answer == answer for run in of.tries)
    if not right:
        print_wrong(of.tries[-1])
    return right and good


def hash_by_md5sum(case: LibraryCase) -> bytes:
    """What md5sum says of the file."""
    made = str(input_of(case.file, case.size))
    return subprocess.run(["md5sum", made], stdout=subprocess.PIPE, check=True).stdout[:32] + b"\n"


def fastest(tries: list[Run], parts: list[str]) -> float:
    return min(sum(run.laps[part] for part in parts) for run in tries)
