"""6. Limits of the system: of memory, of the length of a file, of open files."""
import errno
import resource
import signal
from collections import Counter
from typing import Iterator

from system_cases.case import COUNTED, RIGHT, WRONG, Case, Folder, Verdict, Wanted, described, said
from system_cases.files import DUMP, EDIT, EDITED, GOOD, IN_PLACE, IN_PLACE_DONE, YES, expected, lines, with_unused
from system_cases.running import Ended, How, Program

MIB = 1 << 20
STEPS = 200
LEAST_MEMORY, MOST_MEMORY = 3 * MIB, 800 * MIB

# ---- memory ----

LARGE = with_unused(8 * MIB)
ADD = lines("attr Added global", "attr Further variable", "zvar More REAL8 1 vary 1000 T", "put-rec More 0" + " 0000000000000000" * 1000, "list")


def memory_of_step(step: int) -> int:
    """From the least to the greatest, each step larger than the one before by the same part."""
    return int(LEAST_MEMORY * (MOST_MEMORY / LEAST_MEMORY) ** (step / (STEPS - 1))) // 4096 * 4096


def in_little_memory(case: Case, folder: Folder, program: Program) -> Verdict:
    """Runs an edit in more and more memory: it ends with 8 and the old file, or as without a limit and with the new one."""
    old, done = case.before, expected(case.script, case.before)
    ends: Counter = Counter()
    wrong, has_started = [], False
    for step in range(STEPS):
        most = memory_of_step(step)
        folder.file.write_bytes(old)
        try:
            ended = program.run([str(folder.file)], folder.notes, folder.path, case.script, How(limits=((resource.RLIMIT_AS, most),)))
        except OSError as error:
            if error.errno != errno.ENOMEM:
                raise
            ended = Ended(127, b"", b"", 0, 0.0)  # the system could not start it
        after = folder.file.read_bytes()
        problem = wrong_in_little_memory(ended, after, old, done)
        if problem:
            wrong.append((f"{most} bytes of memory: {problem[0]}", problem[1]))
        # what ends so once less memory was enough has started, and is to be looked at
        ends[said(ended.status) + (", though less was enough to start" if is_not_started(ended) and has_started else "")] += 1
        has_started = has_started or not is_not_started(ended)
    note = ", ".join(f"{count} times {what}" for what, count in ends.most_common())
    if wrong:
        return Verdict(WRONG, wanted=[wanted for wanted, _ in wrong[:5]], came=[came for _, came in wrong[:5]] + [note])
    return Verdict(RIGHT, note)


def is_not_started(ended: Ended) -> bool:
    """Whether the run failed before the program itself began, as where the loader cannot map what it needs."""
    return ended.status == 127 or (ended.status is not None and ended.status < 0)


def wrong_in_little_memory(ended: Ended, after: bytes, old: bytes, done) -> tuple[str, str] | None:
    if is_not_started(ended):
        return None if after in (old, done.after) else ("the old or the new file", described(after, old))
    if ended.status == 8:
        return None if after == old else ("with status 8 the old file", described(after, old))
    if ended.status != done.status:
        return f"status 8 or {done.status}", f"status {ended.status}, {ended.told[:200]!r}"
    if ended.answer != done.text or after != done.after:
        return "the answers and the file as without a limit", described(after, done.after)
    return None


# ---- the length of a file ----


def length_limit(most: int, ignored: tuple[int, ...] = (signal.SIGXFSZ,)) -> How:
    return How(limits=((resource.RLIMIT_FSIZE, most),), ignored=ignored)


def old_or_new_bytes(old: bytes, new: bytes):
    """Each byte of the file is an old or a new one."""

    def also(folder: Folder, _: Ended) -> Iterator[tuple[str, str]]:
        after = folder.file.read_bytes()
        if len(after) != len(old) or any(byte not in pair for byte, pair in zip(after, zip(old, new))):
            yield "bytes that are each an old or a new one", described(after, old)

    return also


def counted_end(case: Case, folder: Folder, program: Program) -> Verdict:
    """What comes of a run, which is not judged."""
    ended = program.run([str(folder.file)], folder.notes, folder.path, case.script, case.how)
    after = folder.file.read_bytes()
    left = "the old file" if after == case.before else "the new file" if after == expected(case.script, case.before).after else "another file"
    return Verdict(COUNTED, f"status {ended.status}, {left}")


GROW = lines(*(f"attr Added{n} global" for n in range(40)))  # by more than a page
NOTHING_CHANGED = (("nothing was", "unchanged", "as it was", "not changed", "nothing has"),)

# ---- open files ----


def open_files(most: int) -> How:
    return How(limits=((resource.RLIMIT_NOFILE, most),))


OR_NOT_OPENED = Wanted(5, b"")

CASES = [
    Case(f"limits: {STEPS} steps of memory, an edit", script=EDIT, attempt=in_little_memory, where="memory"),
    Case(f"limits: {STEPS} steps of memory, an edit of 8 MiB", script=ADD, before=LARGE, attempt=in_little_memory, where="memory"),
    Case(f"limits: {STEPS} steps of memory, a dump and reports", script=DUMP, attempt=in_little_memory, where="memory"),
    Case("limits: no byte beyond the file, it grows", Wanted(6, told=NOTHING_CHANGED), script=GROW, how=length_limit(len(GOOD))),
    Case("limits: few bytes beyond the file, it grows", Wanted(6, told=NOTHING_CHANGED), script=GROW, how=length_limit(len(GOOD) + 700)),
    Case("limits: a page beyond the file, it grows", Wanted(6, told=NOTHING_CHANGED), script=GROW, how=length_limit(len(GOOD) + 4096)),
    Case("limits: enough bytes beyond the file, it grows", Wanted(0, EDITED.text, after=(EDITED.after,)), script=EDIT, how=length_limit(len(EDITED.after))),
    Case("limits: within the file, an edit in place", Wanted(6, after=()), script=IN_PLACE, how=length_limit(8192), also=old_or_new_bytes(GOOD, IN_PLACE_DONE.after)),
    Case("limits: within the file, --check", Wanted(0, YES), ("--check", "FILE"), how=length_limit(8192)),
    Case("limits: few bytes beyond the file, it grows, the signal as it comes", script=GROW, how=length_limit(len(GOOD) + 700, ()), attempt=counted_end),
    Case("limits: within the file, an edit in place, the signal as it comes", script=IN_PLACE, how=length_limit(8192, ()), attempt=counted_end),
    Case("limits: 4 open files, an edit", (Wanted(0, EDITED.text, after=(EDITED.after,)), OR_NOT_OPENED), script=EDIT, how=open_files(4)),
    Case("limits: 4 open files, --check", (Wanted(0, YES), OR_NOT_OPENED), ("--check", "FILE"), how=open_files(4)),
    Case("limits: 5 open files, an edit", (Wanted(0, EDITED.text, after=(EDITED.after,)), OR_NOT_OPENED), script=EDIT, how=open_files(5)),
]
