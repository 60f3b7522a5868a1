"""11. What a person is told on standard error, by some of its words."""
import gzip
import re
from typing import Iterator

from system_cases.case import ABSENT, Case, Folder, Wanted
from system_cases.files import EDIT, EDITED, GOOD, MADE, MAKE, READ, READ_DONE, REFUSED, REFUSED_DONE, lines
from system_cases.full_disk import GROW, NO_ROOM, NOTHING_CHANGED, filled
from system_cases.kinds import folder_there, pipe
from system_cases.running import Ended, How

FOLDER_WORDS = ("directory", "folder")
FLAGS = tuple((flag,) for flag in ("--new", "--check", "--no-save", "--space"))
MANY_REFUSED = b"".join(b"del-attr Nothing%d\n" % n for n in range(37)) + b"attr Added global\n"


def one_line(_: Folder, ended: Ended) -> Iterator[tuple[str, str]]:
    if ended.told.count(b"\n") != 1 or not ended.told.endswith(b"\n"):
        yield "one line on standard error", repr(ended.told[:300])


def whole_help(_: Folder, ended: Ended) -> Iterator[tuple[str, str]]:
    """The usage is one line on standard output, and the help has many lines."""
    if ended.answer.count(b"\n") != 1:
        yield "one line on standard output", repr(ended.answer[:300])
    if ended.told.count(b"\n") < 8:
        yield "eight lines or more on standard error", f"{ended.told.count(bytes([10]))}"


def version_named(_: Folder, ended: Ended) -> Iterator[tuple[str, str]]:
    """A line names the program with a number."""
    if not re.search(rb"cdfedit[^\n]*\d", ended.answer + ended.told):
        yield "a line with cdfedit and a number", repr((ended.answer + ended.told)[:300])


def counted_refusals(count: int):
    """The last line, and no other, says how many lines were refused."""

    def also(folder: Folder, ended: Ended) -> Iterator[tuple[str, str]]:
        yield from one_line(folder, ended)
        if not re.search(rb"\b%d\b[^\n]*refused|refused[^\n]*\b%d\b" % (count, count), ended.told):
            yield f"a line that says that {count} lines were refused", repr(ended.told[:300])

    return also


CASES = [
    Case("told: a folder is called one", Wanted(5, b"", told=(FOLDER_WORDS, ("a.cdf",)), after=()), ("--check", "FILE"), before=None, prepare=folder_there, also=one_line),
    Case("told: a folder is called one, --new", Wanted(5, b"", told=(FOLDER_WORDS,), after=()), ("--new", "FILE"), MAKE, None, prepare=folder_there, also=one_line),
    Case("told: a pipe, in one line", Wanted(5, b"", told=(("a.cdf",),), after=()), ("--check", "FILE"), before=None, prepare=pipe, also=one_line, how=How(seconds=5)),
    Case("told: there is no room", Wanted(6, told=(NO_ROOM, NOTHING_CHANGED, ("a.cdf",))), script=GROW, where="small", prepare=filled(), also=one_line),
    Case("told: /dev/full", Wanted(7, told=(("answers", "output"),)), script=EDIT, how=How(output="/dev/full"), also=one_line),
    Case("told: three lines refused", Wanted(1, REFUSED_DONE.text, after=(REFUSED_DONE.after,)), script=REFUSED, also=counted_refusals(3)),
    Case("told: 37 lines refused", Wanted(1, after=()), script=MANY_REFUSED, also=counted_refusals(37)),
    Case("told: one line refused", Wanted(1), script=lines("del-attr Nothing"), also=counted_refusals(1)),
    Case("told: nothing, where no line is refused", Wanted(0, READ_DONE.text, is_silent=True), script=READ),
    Case("told: nothing of an edit", Wanted(0, EDITED.text, after=(EDITED.after,), is_silent=True), script=EDIT),
    Case("told: --help", Wanted(2, begins=b"usage: cdfedit", told=FLAGS, after=(ABSENT,)), ("--help",), before=None, also=whole_help),
    Case("told: --version", Wanted((0, 2), after=(ABSENT,)), ("--version",), before=None, also=version_named),
    Case("told: a gzip file", Wanted(4, b"rejected 1 1 0\n", told=(("gzip",), ("a.cdf",))), ("--check", "FILE"), before=gzip.compress(GOOD, mtime=0), also=one_line),
    Case("told: --new over a file", Wanted(0, MADE.text, after=(MADE.after,), told=(("a.cdf",), (f"{len(GOOD)}",))), ("--new", "FILE"), MAKE, also=one_line),
    Case("told: --new of no file", Wanted(0, MADE.text, after=(MADE.after,), is_silent=True), ("--new", "FILE"), MAKE, None),
]
