"""8. A program that is killed while it saves: counted, never judged."""
import time
from collections import Counter

from system_cases.case import COUNTED, Case, Folder, Verdict
from system_cases.files import lines
from system_cases.running import Program, Running

MOMENTS = 50
TEXTS, LONG = 8, 2_000_000  # how many records there are, and how many letters each has


def put(letter: str) -> list[str]:
    return [f"put-rec Text {record} {letter * LONG}" for record in range(TEXTS)]


VARIABLE = f"zvar Text CHAR {LONG} vary - -"
FIRST, SECOND, BEYOND = lines(VARIABLE, *put("a")), lines(*put("b")), lines(*put("c"), f"put-rec Text {TEXTS} {'d' * LONG}")


def start_saving(folder: Folder, program: Program, script: bytes) -> Running:
    """Starts a run whose saving begins as this returns."""
    running = program.start([str(folder.file)], folder.notes, folder.path, None)
    running.wait_until_held()
    running.give(script)
    running.wait_until_held()
    running.close_script()
    return running


def killed_in_saving(case: Case, folder: Folder, program: Program) -> Verdict:
    """Times a saving, and then kills runs at moments that are spread evenly over this time, as leaving a `with` does."""
    made = program.run(["--new", str(folder.file)], folder.notes, folder.path, FIRST)
    if made.status != 0:
        return Verdict(COUNTED, f"none: the file could not be made, status {made.status}")
    old = folder.file.read_bytes()
    with start_saving(folder, program, case.script) as running:
        start = time.monotonic()
        status = running.ended().status
        seconds = time.monotonic() - start
    new = folder.file.read_bytes()
    if status != 0:
        return Verdict(COUNTED, f"none: without a kill the status was {status}")
    left: Counter = Counter()
    for moment in range(MOMENTS):
        folder.file.write_bytes(old)
        with start_saving(folder, program, case.script):
            time.sleep(seconds * moment / MOMENTS)
        after = folder.file.read_bytes()
        left["old" if after == old else "new" if after == new else "mixed"] += 1
    counts = ", ".join(f"{left[kind]} {kind}" for kind in ("old", "new", "mixed"))
    return Verdict(COUNTED, f"{counts}; a saving takes {seconds:.3f} s")


CASES = [
    Case(f"kill: at {MOMENTS} moments of a saving in place", script=SECOND, before=None, attempt=killed_in_saving),
    Case(f"kill: at {MOMENTS} moments of a saving in place and beyond", script=BEYOND, before=None, attempt=killed_in_saving),
]
