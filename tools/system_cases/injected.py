"""12. Calls that fail one at a time, as strace has them fail; FILE as a stream; and what another program does beside a reading and a sync."""
import os
import re
import shutil
import threading
import time
from collections import Counter
from contextlib import contextmanager
from dataclasses import dataclass
from itertools import zip_longest
from typing import Callable, Iterator, Optional

from system_cases.case import (
    ABSENT, COUNTED, RIGHT, SAME, WRONG, Case, Folder, Verdict, Wanted,
    content_of, described, differences, judge, said, shortened, verdict_of, words_of,
)
from system_cases.files import EDIT, MAKE, READ, YES, Expected, expected, lines, made
from system_cases.other_writers import CHANGED_MEANWHILE, GRAIN, append, cut, leave, remove, replace
from system_cases.running import Ended, How, LeftOut, Notes, Program
from system_cases.stored import SYNCS, calls, places, real

# what a program asks of a file, and the calls of the system that stand for it
CALLS = {
    "openat": ("openat", "open", "creat"),
    "read": ("read", "pread64", "readv"),
    "write": ("write", "pwrite64", "writev"),
    "lseek": ("lseek",),
    "ftruncate": ("ftruncate", "truncate"),
    "fsync": ("fsync", "fdatasync"),
    "fstat": ("fstat", "newfstatat", "statx", "stat", "lstat"),
    "readlink": ("readlink", "readlinkat"),
}
# `?`: not each system has each of them
ALL_CALLS = ",".join(f"?{name}" for names in CALLS.values() for name in names)
ERRORS = ("EIO", "ENOSPC", "EINTR")
SYNC = ",".join(sorted(SYNCS))

SHOWN = 5  # so many runs that went wrong are shown of a case


# ---- the runs ----


@dataclass(frozen=True)
class Run:
    """A run of which the calls fail, one after the other."""

    name: str
    words: tuple[str, ...]
    script: bytes
    before: Optional[bytes]
    done: Expected  # what comes of it where nothing fails


def editing(name: str, script: bytes, before: Optional[bytes], words: tuple[str, ...] = ("FILE",)) -> Run:
    done = expected(script, before, words)
    assert done.status == 0, done.text
    return Run(name, words, script, before, done)


WIDE = 150_000  # bytes of a text, more than two of the pages that are saved


def wide(letter: str) -> list[str]:
    """A variable of one record, between an attribute in front of it and one behind it."""
    return ["attr First global", f"zvar Wide CHAR {WIDE} vary - -", "set-blocking Wide 1", f"put-rec Wide 0 {letter * WIDE}", "attr Last global"]


# A file of several saved pages; scripts that change its first page and its last one, and that make it longer besides
LARGE = made(lines(*wide("a")))
IN_PLACE = lines("rename-attr First Changed", "rename-attr Last Latest")
GROW = IN_PLACE + lines(f"put-rec Wide 1 {'b' * WIDE}")

RUNS = [
    editing("the file grows", GROW, LARGE),
    editing("an edit in place", IN_PLACE, LARGE),
    editing("--new of no file", MAKE, None, ("--new", "FILE")),
    editing("--new over a longer file", MAKE, LARGE, ("--new", "FILE")),
]


# ---- one call fails ----


@dataclass
class Times:
    """How often a run makes a call, and how many of these come before the program itself begins, as the loader's."""

    all: int = 0
    early: int = 0


def put_before(run: Run, folder: Folder) -> None:
    """The file stands again as before the run."""
    folder.file.unlink(missing_ok=True)
    if run.before is not None:
        folder.file.write_bytes(run.before)


def run_under_strace(case: Case, folder: Folder, program: Program, how: How) -> Ended:
    if not shutil.which("strace"):
        raise LeftOut("there is no strace")
    folder.notes.calls.unlink(missing_ok=True)
    ended = program.run(words_of(case, folder), folder.notes, folder.path, case.script, how)
    if b"strace:" in ended.told or not folder.notes.calls.exists():
        raise LeftOut(f"strace does not go here: {ended.told[:100]!r}")
    return ended


def times_of(folder: Folder) -> dict[str, Times]:
    """How often each call was made. The program begins where it first names FILE, or what holds the place of a closed stream."""
    times: dict[str, Times] = {}
    has_begun = False
    for call in calls(folder):
        has_begun = has_begun or f'"{folder.file}"' in call.rest or '"/dev/null"' in call.rest
        of_name = times.setdefault(call.name, Times())
        of_name.all += 1
        of_name.early += not has_begun
    return times


def has_not_begun(ended: Ended) -> bool:
    """Whether a run ended as one does that the loader gives up."""
    return ended.status == 127 or (ended.status is not None and ended.status < 0)


def left_by(told: bytes) -> Optional[str]:
    """What a failed saving left of the file, by the word for it on standard error."""
    found = re.search(rb'": (unchanged|partly|unstored): ', told)
    if found:
        return found[1].decode()
    return "partly" if b"in part" in told else None


def is_between(after: object, old: object, new: bytes) -> bool:
    """Whether each byte of a file is an old or a new one at its place."""
    if not isinstance(after, bytes):
        return False
    old_bytes = old if isinstance(old, bytes) else b""
    sides = zip_longest(after, old_bytes[: len(after)], new[: len(after)])
    return all(byte in (one, other) for byte, one, other in sides)


def wrong_after_saving(run: Run, ended: Ended, after: object) -> Iterator[tuple[str, str]]:
    """What is wrong of a run that ended with 6: the file is what the word on standard error says."""
    old = ABSENT if run.before is None else run.before
    word = left_by(ended.told)
    if word is None:
        yield "with status 6 standard error with unchanged, partly or unstored", shortened(ended.told)
    elif word == "unchanged" and after not in olds_of(run):
        yield "with unchanged the old file", described(after, old)
    elif word == "unstored" and after != run.done.after:
        yield "with unstored the new file", described(after, run.done.after)
    elif word == "partly" and not is_between(after, old, run.done.after):
        yield "with partly a file of old and new bytes", described(after, old)


def olds_of(run: Run) -> tuple[object, ...]:
    """What counts as the old file: where there was none, also the empty one that --new has made."""
    return (ABSENT, b"") if run.before is None else (run.before,)


def wrong_of(run: Run, ended: Ended, after: object) -> Iterator[tuple[str, str]]:
    """What is wrong of a run of which one call failed, and what stands under the name after it."""
    if ended.status == 0:
        if after != run.done.after:
            yield "with status 0 the new file", described(after, run.done.after)
        if ended.answer != run.done.text:
            yield "with status 0 all answers", shortened(ended.answer)
    elif ended.status == 6:
        yield from wrong_after_saving(run, ended, after)
        if ended.answer != run.done.text:
            yield "with status 6 all answers", shortened(ended.answer)
    elif ended.status in (5, 7, 8, 9):
        if after not in olds_of(run):
            yield f"with status {ended.status} the old file", described(after, olds_of(run)[0])
    else:
        yield "status 0 or 5 to 9", said(ended.status)


@dataclass(frozen=True)
class Refusal:
    """The call that is refused: its name, which of them it is, from 1, and the error."""

    name: str
    number: int
    error: str

    def how(self) -> How:
        return How(traced=self.name, failing=f"{self.name}:error={self.error}:when={self.number}")


def after_refusal(run: Run, refusal: Refusal, is_early: bool, ended: Ended, after: object) -> tuple[str, list[tuple[str, str]]]:
    """How a run ended of which one call was refused, and what is wrong of it. One that has not begun is not judged."""
    if is_early and has_not_begun(ended):
        return "not begun", [] if after in olds_of(run) else [("the old file", described(after))]
    found = list(wrong_of(run, ended, after))
    if refusal.name in SYNCS and refusal.error != "EINTR" and ended.status == 0:
        found.append(("another status than 0 where a sync failed", said(0)))
    return said(ended.status), found


def times_without_fault(run: Run, case: Case, folder: Folder, program: Program) -> tuple[dict[str, Times], list[tuple[str, str]]]:
    """How often each call is made where none is refused, and what is wrong of that run."""
    put_before(run, folder)
    ended = run_under_strace(case, folder, program, How(traced=ALL_CALLS))
    found = [] if ended.status == 0 else [("status 0", said(ended.status))]
    found += wrong_of(run, ended, content_of(folder.file))
    return times_of(folder), [(f"without a fault {wanted}", came) for wanted, came in found]


def each_refused(run: Run, names: tuple[str, ...], error: str) -> Callable[[Case, Folder, Program], Verdict]:
    """Runs it as often as it makes such calls, each time with another one of them refused."""

    def attempt(case: Case, folder: Folder, program: Program) -> Verdict:
        times, wrong = times_without_fault(run, case, folder, program)
        if wrong:
            return verdict_of(wrong)
        made_names = [name for name in names if name in times]
        if not made_names:
            return Verdict(COUNTED, "the run makes no such call")
        ends: Counter = Counter()
        for refusal in (Refusal(name, number + 1, error) for name in made_names for number in range(times[name].all)):
            put_before(run, folder)
            ended = run_under_strace(case, folder, program, refusal.how())
            is_early = refusal.number <= times[refusal.name].early
            end, found = after_refusal(run, refusal, is_early, ended, content_of(folder.file))
            ends[end] += 1
            wrong += [(f"{refusal.name} {refusal.number}: {wanted}", came) for wanted, came in found]
        note = " and ".join(f"{times[name].all} of {name}" for name in made_names)
        note += ": " + ", ".join(f"{count} times {end}" for end, count in ends.most_common())
        return Verdict(WRONG if wrong else RIGHT, note, [wanted for wanted, _ in wrong[:SHOWN]], [came for _, came in wrong[:SHOWN]])

    return attempt


def refused_case(run: Run, call: str, error: str) -> Case:
    return Case(f"injected: {run.name}, {call} {error}", (), run.words, run.script, run.before, attempt=each_refused(run, CALLS[call], error))


# ---- a sync that failed, and the script once more ----

AGAIN = editing("the same bytes again", lines("put-rec Wide 0 " + "c" * WIDE), LARGE)
UNSTORED = Wanted(6, AGAIN.done.text, after=(AGAIN.done.after,), told=(("unstored:",),))
STORED = Wanted(0, AGAIN.done.text, after=(AGAIN.done.after,))


def asked_again(case: Case, folder: Folder, program: Program) -> Verdict:
    """A script of which the sync fails, twice, and once more where it goes: no page differs the second time, and the system is asked."""
    found = []
    failing = How(traced=SYNC, failing=f"{SYNC}:error=EIO")
    for turn, how, wanted in (("first", failing, UNSTORED), ("second", failing, UNSTORED), ("third", How(traced=SYNC), STORED)):
        ended = run_under_strace(case, folder, program, how)
        found += [(f"of the {turn} run: {was}", came) for was, came in differences(wanted, folder, ended)]
    if not places(folder, SYNCS, real(folder)):
        found.append(("of the third run: an fsync of the file", "none"))
    return verdict_of(found)


# ---- FILE is a standard stream ----


def given_file(stream: str, name: Optional[str] = None) -> Callable[[Folder], How]:
    """A run of which a stream is FILE, by its name or another one: what is written to it is added to FILE."""
    return lambda folder: How(**{stream: str(folder.beside(name) if name else folder.file)})


def second_name(folder: Folder) -> None:
    os.link(folder.file, folder.beside("second"))


def stream_case(stream: str, name: str, words: tuple[str, ...], script: bytes) -> Case:
    """Status 5, and FILE as before; where standard error is FILE nothing may be told."""
    told = () if stream == "told_behind" else ((name,),)
    what = f"{' '.join(words)}, " + ("no script" if not script else "an edit" if script in (EDIT, MAKE) else "a script that only reads")
    return Case(f"streams: FILE is {name}, {what}", Wanted(5, b"", told=told), words, script, how=given_file(stream))


WRITTEN = (("answer_behind", "standard output"), ("told_behind", "standard error"))
WRITTEN_RUNS = ((("FILE",), EDIT), (("FILE",), READ), (("--no-save", "FILE"), READ), (("--check", "FILE"), b""), (("--new", "FILE"), MAKE))
READ_RUNS = ((("FILE",), b""), (("--check", "FILE"), b""))


# ---- a check beside a program that writes ----

# Two files of one length; one that is part of each is rejected. The small ones are written too quickly to be met half-written.
SMALL_TWINS = [made(lines(f"attr {letter} global", "checksum md5")) for letter in "ab"]
LARGE_TWINS = [made(lines(*wide(letter), "checksum md5")) for letter in "ab"]
WRITING = 1.5  # seconds for which files are checked while another program writes


def rename_over(folder: Folder, file: bytes) -> None:
    folder.beside("next").write_bytes(file)
    os.replace(folder.beside("next"), folder.file)


def write_in_place(folder: Folder, file: bytes) -> None:
    """By one call, so that the file is whole before it and behind it."""
    descriptor = os.open(folder.file, os.O_WRONLY)
    try:
        assert os.pwrite(descriptor, file, 0) == len(file)
    finally:
        os.close(descriptor)


@contextmanager
def rewritten(folder: Folder, twins: list[bytes], write: Callable[[Folder, bytes], None], pause: float) -> Iterator[Counter]:
    """Another program writes whole good files under the name, again and again. Yields how many it has written."""
    is_over, written = threading.Event(), Counter()

    def go_on() -> None:
        while not is_over.wait(pause):
            write(folder, twins[written["files"] % len(twins)])
            written["files"] += 1

    writer = threading.Thread(target=go_on)
    writer.start()
    try:
        yield written
    finally:
        is_over.set()
        writer.join()


@dataclass(frozen=True)
class Writer:
    """Another program that writes whole good files under the name: how, how long it waits before each, and which."""

    name: str
    write: Callable[[Folder, bytes], None]
    pause: float  # in seconds, more than the grain of the clock where it writes in place
    twins: list[bytes]


def checked_beside(writer: Writer, how: How) -> Callable[[Case, Folder, Program], Verdict]:
    """Checks the file again and again while another program writes it."""

    def attempt(case: Case, folder: Folder, program: Program) -> Verdict:
        if how.traced and not shutil.which("strace"):
            raise LeftOut("there is no strace")
        ends: Counter = Counter()
        with rewritten(folder, writer.twins, writer.write, writer.pause) as written:
            until = time.monotonic() + WRITING
            while time.monotonic() < until:
                ended = program.run(words_of(case, folder), folder.notes, folder.path, b"", how)
                ends[said(ended.status)] += 1
                verdict = judge(case, folder, ended)
                if verdict.kind != RIGHT:
                    break
        assert written["files"], "nothing was written beside"
        verdict.note = f"beside {written['files']} writings " + ", ".join(f"{count} times {end}" for end, count in ends.most_common())
        return verdict

    return attempt


WHOLE = Wanted(0, YES, after=())
CHANGED_WHILE_READ = Wanted(5, b"", after=(), told=(("while it was read",),))
SLOW_READS = How(traced="read,pread64", failing="read,pread64:delay_enter=20000")  # microseconds


def check_case(writer: Writer, how: How = How(), wanted: tuple[Wanted, ...] = (WHOLE, CHANGED_WHILE_READ)) -> Case:
    """A check is never told that the file is rejected."""
    return Case(f"beside: --check, {writer.name}", wanted, ("--check", "FILE"), before=writer.twins[0], attempt=checked_beside(writer, how))


def checked_beside_editor(run: Run) -> Callable[[Case, Folder, Program], Verdict]:
    """Counts what checks find while another editor saves again and again. A file that is half saved stands still while it is stored."""

    def attempt(case: Case, folder: Folder, program: Program) -> Verdict:
        notes = Notes(folder.notes.path / "other")
        notes.path.mkdir()

        def edit(_: Folder, file: bytes) -> None:
            rename_over(folder, file)
            program.run([str(folder.file)], notes, folder.path, run.script)

        ends: Counter = Counter()
        with rewritten(folder, [run.before], edit, 0.0) as written:
            until = time.monotonic() + WRITING
            while time.monotonic() < until:
                ends[said(program.run(words_of(case, folder), folder.notes, folder.path).status)] += 1
        return Verdict(COUNTED, f"beside {written['files']} savings " + ", ".join(f"{count} times {end}" for end, count in ends.most_common()))

    return attempt


def editor_case(run: Run) -> Case:
    return Case(f"beside: --check, another editor saves, {run.name}", (), ("--check", "FILE"), before=run.before, attempt=checked_beside_editor(run))


# ---- what another program does between the last write and the end ----

SLOW_SYNC = How(traced=SYNC, failing=f"{SYNC}:delay_exit=1000000")  # microseconds


def in_sync(act: Callable[[Folder], None], run: Run) -> Callable[[Case, Folder, Program], Verdict]:
    """Another program acts once all new bytes are there, while the last sync takes its time."""

    def attempt(case: Case, folder: Folder, program: Program) -> Verdict:
        if not shutil.which("strace"):
            raise LeftOut("there is no strace")
        with program.start(words_of(case, folder), folder.notes, folder.path, case.script, SLOW_SYNC) as running:
            until = time.monotonic() + running.how.seconds
            while content_of(folder.file) != run.done.after and not running.has_ended() and time.monotonic() < until:
                time.sleep(0.01)
            time.sleep(GRAIN)
            if running.has_ended():
                return verdict_of([("a sync behind the last write", "the end of the run")], running.ended())
            act(folder)
            leave(folder)
            return judge(case, folder, running.ended())

    return attempt


def sync_case(name: str, act: Callable[[Folder], None], run: Run) -> Case:
    wanted = Wanted(6, run.done.text, after=(SAME,), told=(CHANGED_MEANWHILE,))
    return Case(f"beside: a sync, another one {name}, {run.name}", wanted, run.words, run.script, run.before, attempt=in_sync(act, run))


REMOVES, CUTS, APPENDS, REPLACES = ("removes it", remove), ("cuts it", cut), ("appends", append), ("replaces it", replace)

CASES = [
    *(refused_case(run, call, error) for run in RUNS for call in CALLS for error in ERRORS),
    Case("injected: a script once more, of which the sync failed", (), AGAIN.words, AGAIN.script, AGAIN.before, attempt=asked_again),
    *(stream_case(stream, name, words, script) for stream, name in WRITTEN for words, script in WRITTEN_RUNS),
    *(stream_case("script", "standard input", words, script) for words, script in READ_RUNS),
    Case("streams: a second name of FILE is standard output", Wanted(5, b"", told=(("standard output",),)), script=EDIT,
         prepare=second_name, how=given_file("answer_behind", "second")),
    check_case(Writer("another one renames over it", rename_over, 0.002, LARGE_TWINS)),
    check_case(Writer("another one writes it in place", write_in_place, 0.02, SMALL_TWINS)),
    check_case(Writer("another one writes it in place while it is read slowly", write_in_place, 0.02, LARGE_TWINS),
               SLOW_READS, (CHANGED_WHILE_READ,)),
    *(editor_case(run) for run in RUNS[:2]),
    *(sync_case(name, act, run) for name, act in (REMOVES, CUTS, APPENDS, REPLACES) for run in RUNS[:2]),
    *(sync_case(name, act, RUNS[2]) for name, act in (REMOVES, REPLACES)),
]
