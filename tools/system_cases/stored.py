"""9. What the system is asked for, as strace tells it: what is saved is brought to the disk, and nothing more is written than that."""
import os
import re
import shutil
from dataclasses import dataclass
from typing import Iterator

from system_cases.case import SAME, Case, Folder, Verdict, Wanted, content_of, how_of, judge, words_of
from system_cases.files import EDIT, EDITED, IN_PLACE, IN_PLACE_DONE, MADE, MAKE, READ, READ_DONE, REFUSED, REFUSED_DONE, YES, Expected, made
from system_cases.running import Ended, How, LeftOut, Program

CALLS = "lseek,fsync,fdatasync,sync,syncfs,openat,open,creat,truncate,ftruncate,fallocate,write,writev,pwrite64,pwritev,copy_file_range,sendfile,rename,renameat,renameat2,unlink,unlinkat"
WRITES = {"write", "writev", "pwrite64", "pwritev", "copy_file_range", "sendfile"}
CUTS = {"ftruncate", "fallocate"}
SYNCS = {"fsync", "fdatasync"}

# a call, the file of its first descriptor, the rest, and what it answered
LINE = re.compile(r"^\d*\s*(\w+)\((?:(-?\w+)<([^>]*)>)?(.*)\)\s*= (-?\d+|\?)")


@dataclass
class Call:
    name: str
    path: str  # of the descriptor that it is about
    rest: str  # what it was given, behind the descriptor
    answer: int


def calls_of(text: str) -> list[Call]:
    found = []
    for line in text.splitlines():
        parts = LINE.match(line)
        if parts:
            name, _, path, rest, answer = parts.groups()
            found.append(Call(name, path or "", rest, -1 if answer == "?" else int(answer)))
    return found


def calls(folder: Folder) -> list[Call]:
    return calls_of(folder.notes.calls.read_text(errors="replace"))


def places(folder: Folder, names: set[str], path: str) -> list[int]:
    """At which calls one of these was made of a file and succeeded."""
    return [place for place, call in enumerate(calls(folder)) if call.name in names and call.path == path and call.answer >= 0]


def real(folder: Folder) -> str:
    return os.path.realpath(folder.file)


def cuts_of(folder: Folder) -> list[int]:
    """At which calls the file was cut or made longer as such, by its opening too."""
    opened = [place for place, call in enumerate(calls(folder)) if f'"{folder.file}"' in call.rest and ("O_TRUNC" in call.rest or call.name in ("creat", "truncate")) and call.answer >= 0]
    return sorted(opened + places(folder, CUTS, real(folder)))


def traced(case: Case, folder: Folder, program: Program) -> Verdict:
    """One run under strace."""
    if not shutil.which("strace"):
        raise LeftOut("there is no strace")
    folder.before = content_of(folder.file)
    ended = program.run(words_of(case, folder), folder.notes, folder.path, case.script, how_of(case, folder))
    if b"strace:" in ended.told or not folder.notes.calls.exists():
        raise LeftOut(f"strace does not go here: {ended.told[:100]!r}")
    return judge(case, folder, ended)


def synced(folder: Folder, _: Ended) -> Iterator[tuple[str, str]]:
    """The file was written, and was brought to the disk behind the last write or cut."""
    writes, syncs = places(folder, WRITES, real(folder)), places(folder, SYNCS, real(folder))
    if not writes:
        yield "a write to the file", "none"
    elif not syncs:
        yield "an fsync of the file", "none"
    elif syncs[-1] < max(writes + cuts_of(folder)):
        yield "an fsync of the file behind its last write", "a write behind the last fsync"


def growth_synced(folder: Folder, ended: Ended) -> Iterator[tuple[str, str]]:
    """What the file grows by was brought to the disk before a byte of the old file was written over."""
    yield from synced(folder, ended)
    place, has_grown, is_synced = 0, False, False
    for call in (call for call in calls(folder) if call.path == real(folder) and call.answer >= 0):
        if call.name == "lseek":
            place = call.answer
        elif call.name in SYNCS:
            is_synced = True
        elif call.name in WRITES:
            if call.name.startswith("pwrite"):
                place = int(call.rest.rsplit(",", 1)[1])
            if place >= len(folder.before):
                has_grown, is_synced = True, False
            elif has_grown and not is_synced:
                yield "an fsync between the growth and the first byte that is written over", "none"
                return
            place += call.answer


def folder_synced(folder: Folder, ended: Ended) -> Iterator[tuple[str, str]]:
    """The folder was brought to the disk too, once the name was there."""
    yield from synced(folder, ended)
    if not places(folder, SYNCS, os.path.realpath(folder.path)):
        yield "an fsync of the folder", "none"


def same_length(folder: Folder, ended: Ended) -> Iterator[tuple[str, str]]:
    """A save that leaves the length makes no cut."""
    yield from synced(folder, ended)
    if cuts_of(folder):
        yield "no cut of the file", "a cut"


def shorter(folder: Folder, ended: Ended) -> Iterator[tuple[str, str]]:
    """A save that makes the file shorter cuts it once."""
    yield from synced(folder, ended)
    if len(cuts_of(folder)) != 1:
        yield "one cut of the file", f"{len(cuts_of(folder))}"


def nothing_written(folder: Folder, _: Ended) -> Iterator[tuple[str, str]]:
    """The run asked for no write, cut or sync of the file."""
    for what, found in (("write", places(folder, WRITES, real(folder))), ("cut", cuts_of(folder)), ("sync", places(folder, SYNCS, real(folder)))):
        if found:
            yield f"no {what} of the file", f"a {what}"
    if any(call.name in ("sync", "syncfs") for call in calls(folder)):
        yield "no sync of all files", "a sync"


def stored(name: str, result: Expected, also, words: tuple[str, ...] = ("FILE",), **more: object) -> Case:
    wanted = Wanted(result.status, result.text, after=(result.after,))
    return Case(f"stored: {name}", wanted, words, how=How(traced=CALLS), also=also, attempt=traced, **more)


def only_read(name: str, status: int, answer: bytes, words: tuple[str, ...] = ("FILE",), **more: object) -> Case:
    return Case(f"stored: {name}", Wanted(status, answer), words, how=How(traced=CALLS), also=nothing_written, attempt=traced, **more)


# each byte is new as far as reads tell; where the file grew, the sync that fails comes before an old byte is written over
NOT_STORED_WORDS = (("unstored:",), ("stored", "to the disk", "on the disk", "sync"))
NOT_STORED = Wanted(6, IN_PLACE_DONE.text, after=(IN_PLACE_DONE.after,), told=NOT_STORED_WORDS)
NOT_GROWN = Wanted(6, EDITED.text, after=(SAME,), told=(("unchanged:",),))
ALL_SYNCS_FAIL = How(traced=CALLS, failing="fsync,fdatasync:error=EIO")

LONGER = made(MAKE + b"".join(b"attr More%d global\n" % n for n in range(10)))

CASES = [
    stored("an edit, the file grows", EDITED, growth_synced, script=EDIT),
    stored("an edit in place", IN_PLACE_DONE, same_length, script=IN_PLACE),
    stored("an edit with refused lines", REFUSED_DONE, synced, script=REFUSED),
    stored("--new of no file", MADE, folder_synced, ("--new", "FILE"), script=MAKE, before=None),
    stored("--new over a longer file", MADE, shorter, ("--new", "FILE"), script=MAKE, before=LONGER),
    Case("stored: an edit, the file grows, and the disk does not take it", NOT_GROWN, script=EDIT, how=ALL_SYNCS_FAIL, attempt=traced),
    Case("stored: an edit in place, and the disk does not take it", NOT_STORED, script=IN_PLACE, how=ALL_SYNCS_FAIL, attempt=traced),
    Case("stored: --new of no file, and the disk does not take it", Wanted(6, MADE.text, after=(MADE.after,), told=NOT_STORED_WORDS), ("--new", "FILE"), MAKE, None, how=ALL_SYNCS_FAIL, attempt=traced),
    only_read("a script that only reads", 0, READ_DONE.text, script=READ),
    only_read("an empty script", 0, b""),
    only_read("refused lines alone", 1, b"1 refused 2 NoSuchAttr\n", script=b"del-attr Nothing\n"),
    only_read("--check", 0, YES, ("--check", "FILE")),
    only_read("--no-save", 0, EDITED.text, ("--no-save", "FILE"), script=EDIT),
]
