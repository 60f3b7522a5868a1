"""2. A file system that is full, and other ways in which nothing more can be written."""
from system_cases.case import ABSENT, SMALL_DISK, Case, Folder, Wanted
from system_cases.files import DUMP, EDIT, EDITED, GOOD, IN_PLACE, IN_PLACE_DONE, READ, READ_DONE, YES, expected, lines, with_unused
from system_cases.running import How

PAGE = 4096  # in which the small file system gives room

# what may be told of a save that came to nothing
NOTHING_CHANGED = ("unchanged:", "nothing was changed", "nothing was written", "nothing was saved", "nothing has been", "was not changed", "is unchanged", "is as it was", "as before")
NO_ROOM = ("no room", "no space", "not enough room", "not enough space", "is full", "out of space", "room left", "space left")

# a rename near the front, and more attributes than a page has room for
GROW = lines("rename-attr Attribute0 Renamed", *(f"attr Added{n} global" for n in range(40)))
GROWN = expected(GROW, GOOD)
MAKE_LONGER = lines(*(f"attr Made{n} global" for n in range(60)))


def fill(folder: Folder, spare: int) -> None:
    """Fills the file system but for so many bytes."""
    with open(folder.beside("filler"), "wb", buffering=0) as filler:
        piece = b"x" * PAGE
        try:
            for _ in range(SMALL_DISK // PAGE + 1):
                filler.write(piece)
        except OSError:
            pass
        filler.truncate(max(0, filler.tell() // PAGE * PAGE - spare))


def filled(spare: int = 0):
    """What fills it."""
    return lambda folder: fill(folder, spare)


def failed(**more: object) -> Wanted:
    return Wanted(6, told=(NOTHING_CHANGED, NO_ROOM), **more)


CASES = [
    Case("small disk: enough room, the file grows", Wanted(0, GROWN.text, after=(GROWN.after,)), script=GROW, where="small"),
    Case("full disk: the file grows", failed(answer=GROWN.text), script=GROW, where="small", prepare=filled()),
    Case("full disk: the file grows by more than the page that is left", failed(answer=GROWN.text), script=GROW, where="small", prepare=filled(PAGE)),
    Case("full disk: the file grows by more than the two pages that are left", failed(answer=GROWN.text), script=GROW, where="small", prepare=filled(2 * PAGE)),
    Case("full disk: the file grows by half a megabyte", failed(), script=lines("zvar Long CHAR 500000 vary - -", f"put-rec Long 0 {'x' * 500000}"), where="small", prepare=filled(20 * PAGE)),
    Case("full disk: an edit in place", Wanted(0, IN_PLACE_DONE.text, after=(IN_PLACE_DONE.after,)), script=IN_PLACE, where="small", prepare=filled()),
    Case("full disk: a script that only reads", Wanted(0, READ_DONE.text), script=READ, where="small", prepare=filled()),
    Case("full disk: --check", Wanted(0, YES), ("--check", "FILE"), where="small", prepare=filled()),
    Case("full disk: --new over a shorter file", failed(), ("--new", "FILE"), MAKE_LONGER, where="small", prepare=filled()),
    Case("full disk: --new over a longer file", Wanted(0, after=(expected(MAKE_LONGER, None, ("--new", "FILE")).after,)), ("--new", "FILE"), MAKE_LONGER, with_unused(60_000), where="small", prepare=filled()),
    Case("full disk: --new of no file", Wanted((5, 6), after=()), ("--new", "FILE"), MAKE_LONGER, None, where="small", prepare=filled()),
    Case("/dev/full: an edit", Wanted(7), script=EDIT, how=How(output="/dev/full")),
    Case("/dev/full: a dump between edits", Wanted(7), script=DUMP, how=How(output="/dev/full")),
    Case("/dev/full: --check", Wanted(7), ("--check", "FILE"), how=How(output="/dev/full")),
    Case("/dev/full: --new of no file", Wanted(7, after=(ABSENT, b"")), ("--new", "FILE"), EDIT, None, how=How(output="/dev/full")),
    Case("/dev/full: no answer is due", Wanted(0), script=b"", how=How(output="/dev/full")),
    Case("/dev/shm: an edit", Wanted(0, EDITED.text, after=(EDITED.after,)), script=EDIT, where="memory"),
    Case("/dev/shm: an edit in place", Wanted(0, IN_PLACE_DONE.text, after=(IN_PLACE_DONE.after,)), script=IN_PLACE, where="memory"),
    Case("/dev/shm: --check", Wanted(0, YES), ("--check", "FILE"), where="memory"),
]
