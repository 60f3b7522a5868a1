"""1. Streams that are closed: what the program opens in their place must not be taken for them."""
from itertools import combinations

from system_cases.case import ABSENT, SAME, Case, Wanted
from system_cases.files import DUMP, DUMPED, EDIT, EDITED, GOOD, MADE, MAKE, NEW, REFUSED, REFUSED_DONE, WRONG_EOF, WRONG_EOF_TEXT, YES, Expected
from system_cases.running import How

CLOSED = [some for count in (1, 2, 3) for some in combinations((0, 1, 2), count)]
NAMES = ("standard input", "standard output", "standard error")

# what is run, its words, its script, the file before it, what comes of it, and what comes of it with an empty script
RUNS = [
    ("--check of a good file", ("--check", "FILE"), b"", GOOD, Expected(YES, 0, GOOD), Expected(YES, 0, GOOD)),
    ("--check of a rejected file", ("--check", "FILE"), b"", WRONG_EOF, Expected(WRONG_EOF_TEXT, 4, WRONG_EOF), Expected(WRONG_EOF_TEXT, 4, WRONG_EOF)),
    ("an edit", ("FILE",), EDIT, GOOD, EDITED, Expected(b"", 0, GOOD)),
    ("refused lines", ("FILE",), REFUSED, GOOD, REFUSED_DONE, Expected(b"", 0, GOOD)),
    ("an edit of a rejected file", ("FILE",), EDIT, WRONG_EOF, Expected(WRONG_EOF_TEXT, 4, WRONG_EOF), Expected(WRONG_EOF_TEXT, 4, WRONG_EOF)),
    ("a dump between edits", ("FILE",), DUMP, GOOD, DUMPED, Expected(b"", 0, GOOD)),
    ("--new of no file", ("--new", "FILE"), MAKE, None, MADE, Expected(b"", 0, NEW)),
    ("--new over a file", ("--new", "FILE"), MAKE, GOOD, MADE, Expected(b"", 0, NEW)),
    ("no file", ("FILE",), EDIT, None, Expected(b"no file\n", 3, None), Expected(b"no file\n", 3, None)),
]


def without_output(before: object) -> Wanted:
    """The answers cannot be written: nothing is saved, but with --new an empty file may have been made."""
    return Wanted(7, after=(SAME, b"") if before is None else (SAME,))


def closed_case(run: tuple, closed: tuple[int, ...]) -> Case:
    name, words, script, before, given, without_script = run
    due = without_script if 0 in closed else given
    if 1 in closed and due.text:
        wanted = without_output(before)
    else:
        # where standard output is closed the program cannot answer, and where standard error is closed it cannot tell
        answer = b"" if 1 in closed else due.text
        wanted = Wanted(due.status, answer=answer, after=(ABSENT if due.after is None else due.after,))
    wanted.is_silent = 2 in closed
    streams = " and ".join(NAMES[descriptor] for descriptor in closed)
    return Case(f"closed: {name}, {streams}", wanted, words, script, before, how=How(closed=closed))


CASES = [
    *(closed_case(run, closed) for run in RUNS for closed in CLOSED),
    Case("closed: the words are none, standard output", Wanted(7, answer=b""), ("--check", "--new", "FILE"), how=How(closed=(1,))),
    Case("closed: --new --no-save over a file, standard output", Wanted(7, answer=b""), ("--new", "--no-save", "FILE"), MAKE, how=How(closed=(1,))),
    Case("script: a folder, which cannot be read", Wanted(9, answer=b"", told=(("script",),)), how=How(script="/")),
]
