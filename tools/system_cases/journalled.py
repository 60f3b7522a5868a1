"""13. Savings through a log: runs that are killed, logs that are none, and a plain run beside an open log."""
import random
import time
from collections import Counter
from pathlib import Path
from typing import Iterator

from system_cases.case import RIGHT, WRONG, Case, Folder, Verdict
from system_cases.files import lines
from system_cases.running import Ended, Program, Running

MOMENTS = 500
RECORDS, VALUES = 25_000, 1000  # 100 MB of INT4
PAGES, APART = 400, 62  # how many records are changed, each in a page of its own

VARIABLE = f"zvar V INT4 1 vary {VALUES} T"
FILLED = lines(VARIABLE, f"put-rec V {RECORDS - 1} {' '.join(['5'] * VALUES)}")
CHANGED = lines(*(f"put-val V {page * APART} 0 {page}" for page in range(PAGES)))
SMALL = lines("attr Project global")

# a log that is open, and promises more than it has
BAD_LOG = b"\x01" + bytes(7) + b"\xff" * 16


def log_of(folder: Folder) -> Path:
    return folder.file.with_name(folder.file.name + ".journal")


def is_open(log: Path) -> bool:
    data = log.read_bytes() if log.exists() else b""
    return len(data) > 8 and data[0] == 1


def start_saving(folder: Folder, program: Program, script: bytes) -> Running:
    """Starts a run through the log, whose saving begins as this returns."""
    running = program.start(["--journal", str(folder.file)], folder.notes, folder.path, None)
    running.wait_until_held()
    running.give(script)
    running.wait_until_held()
    running.close_script()
    return running


def put_back(folder: Folder, old: bytes) -> None:
    folder.file.write_bytes(old)
    log_of(folder).unlink(missing_ok=True)


def opened_next(folder: Folder, program: Program) -> Ended:
    return program.run(["--journal", "--check", str(folder.file)], folder.notes, folder.path)


def found_wrong(folder: Folder, program: Program, old: bytes, new: bytes, left: Counter) -> Iterator[str]:
    """What is wrong once a run was killed. Counts what is found when the file is opened next."""
    log = log_of(folder)
    if is_open(log):
        left["open logs"] += 1
        beside = program.run(["--check", str(folder.file)], folder.notes, folder.path)
        if b"--journal" not in beside.told:
            yield f"a plain run beside an open log told {beside.told!r}"
    ended = opened_next(folder, program)
    if (ended.status, ended.answer) != (0, b"yes\n"):
        yield f"opened next: status {ended.status}, {ended.answer!r}, {ended.told!r}"
    after = folder.file.read_bytes()
    left["old" if after == old else "new" if after == new else "neither"] += 1
    if after not in (old, new):
        yield "a file that is neither the old one nor the new one"


def killed_in_saving(case: Case, folder: Folder, program: Program) -> Verdict:
    """Times a saving, and then kills runs at random moments of it."""
    made = program.run(["--new", str(folder.file)], folder.notes, folder.path, FILLED)
    if made.status != 0:
        return Verdict(WRONG, wanted=["a file of 100 MB"], came=[f"status {made.status}"])
    old = folder.file.read_bytes()
    with start_saving(folder, program, case.script) as running:
        start = time.monotonic()
        status = running.ended().status
        seconds = time.monotonic() - start
    new = folder.file.read_bytes()
    if status != 0:
        return Verdict(WRONG, wanted=["status 0 without a kill"], came=[f"status {status}"])
    chance = random.Random(1)
    left: Counter = Counter()
    wrong: list[str] = []
    for _ in range(MOMENTS):
        put_back(folder, old)
        with start_saving(folder, program, case.script):
            time.sleep(chance.uniform(0, seconds))
        wrong += found_wrong(folder, program, old, new, left)
    counts = ", ".join(f"{left[kind]} {kind}" for kind in ("old", "new", "neither", "open logs"))
    note = f"{counts}; a saving takes {seconds:.3f} s"
    if wrong:
        return Verdict(WRONG, note, wanted=["the old file or the new one"], came=wrong[:5])
    return Verdict(RIGHT, note)


def beside_a_log(log: bytes, status: int, answer: bytes, told: bytes):
    """A run with the word that asks for a log, over a good file and a log of these bytes."""

    def attempt(case: Case, folder: Folder, program: Program) -> Verdict:
        program.run(["--new", str(folder.file)], folder.notes, folder.path, SMALL)
        before = folder.file.read_bytes()
        log_of(folder).write_bytes(log)
        ended = program.run(["--journal", str(folder.file)], folder.notes, folder.path, case.script)
        came = []
        if (ended.status, ended.answer) != (status, answer):
            came.append(f"status {ended.status}, {ended.answer!r}")
        if told not in ended.told:
            came.append(f"told {ended.told!r}")
        if status != 0 and folder.file.read_bytes() != before:
            came.append("another file")
        return Verdict(WRONG, wanted=[f"status {status}, {answer!r}"], came=came) if came else Verdict(RIGHT)

    return attempt


def through_a_folder(case: Case, folder: Folder, program: Program) -> Verdict:
    """The name of the log leads to a folder."""
    program.run(["--new", str(folder.file)], folder.notes, folder.path, SMALL)
    log_of(folder).mkdir()
    ended = program.run(["--journal", str(folder.file)], folder.notes, folder.path, case.script)
    log_of(folder).rmdir()
    if ended.status == 5 and ended.answer == b"":
        return Verdict(RIGHT)
    return Verdict(WRONG, wanted=["status 5"], came=[f"status {ended.status}, {ended.answer!r}, {ended.told!r}"])




CASES = [
    Case(f"journal: {MOMENTS} kills in savings of {PAGES} pages of 100 MB", script=CHANGED, before=None, attempt=killed_in_saving),
    Case("journal: a log that is open and no journal", script=SMALL, before=None, attempt=beside_a_log(BAD_LOG, 14, b"bad journal\n", b"journal")),
    Case("journal: a log of 8 bytes says nothing", script=lines("attr Second global"), before=None, attempt=beside_a_log(b"\x01" * 8, 0, b"1 ok\n", b"")),
    Case("journal: the log is a folder", script=SMALL, before=None, attempt=through_a_folder),
]
