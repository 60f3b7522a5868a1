"""4. What stands under the name: files of other kinds, links, rights, and names with strange bytes."""
import os
import socket
from typing import Iterator

from system_cases.case import ABSENT, SAME, Case, Folder, Wanted
from system_cases.files import EDIT, EDITED, GOOD, MADE, MAKE, NO_CDF, NO_CDF_TEXT, NO_FILE, READ, READ_DONE, YES
from system_cases.running import Ended, How, LeftOut

NOBODY = 65534  # a user whose rights bind

AT_ONCE = 5.0  # seconds: a run that ends at once has ended by then

NOT_OPENED = Wanted(5, b"")  # and what stands there stays
SAVED = Wanted(0, EDITED.text, after=(EDITED.after,))
CHECKED = Wanted(0, YES)
UNSAVED = Wanted(6, EDITED.text)
QUICK = How(seconds=AT_ONCE)


# ---- what is made under the name ----


def pipe(folder: Folder) -> None:
    os.mkfifo(folder.file)


def folder_there(folder: Folder) -> None:
    folder.file.mkdir()


def socket_there(folder: Folder) -> None:
    """A socket that nobody listens at. Its name may be short only, so it is given from within the folder."""
    before = os.open(".", os.O_RDONLY)
    try:
        os.chdir(folder.path)
        with socket.socket(socket.AF_UNIX) as made:
            made.bind(folder.file.name)
    finally:
        os.fchdir(before)
        os.close(before)


def link_to_target(folder: Folder) -> None:
    """The name is a link to a file."""
    os.rename(folder.file, folder.beside("target"))
    folder.file.symlink_to("target")


def link_to_nothing(folder: Folder) -> None:
    folder.file.symlink_to("target")


def link_to_itself(folder: Folder) -> None:
    folder.file.symlink_to(folder.file.name)


def link_to_pipe(folder: Folder) -> None:
    os.mkfifo(folder.beside("target"))
    folder.file.symlink_to("target")


def two_names(folder: Folder) -> None:
    os.link(folder.file, folder.beside("second"))


def still_a_link(folder: Folder, _: Ended) -> Iterator[tuple[str, str]]:
    if not folder.file.is_symlink():
        yield "a link under the name still", "something else"


def both_names(folder: Folder, _: Ended) -> Iterator[tuple[str, str]]:
    if not folder.beside("second").samefile(folder.file):
        yield "one file with two names still", "two files"


def no_target(folder: Folder, _: Ended) -> Iterator[tuple[str, str]]:
    if folder.beside("target").exists():
        yield "no file where the link leads to", "a file"


def nothing_beside(folder: Folder, _: Ended) -> Iterator[tuple[str, str]]:
    """The folder has the file of the case alone, or nothing."""
    more = sorted(set(os.listdir(folder.path)) - {folder.file.name})
    if more:
        yield "no further file in the folder", repr(more)


# ---- rights ----


def owned(mode: int, folder_mode: int = 0o755):
    """The file, and the folder, belong to another user, with such rights."""

    def prepare(folder: Folder) -> None:
        if os.geteuid() != 0:
            raise LeftOut("root alone can start a program as another user")
        if folder.file.exists():
            os.chown(folder.file, NOBODY, NOBODY)
            folder.file.chmod(mode)
        os.chown(folder.path, NOBODY, NOBODY)
        folder.path.chmod(folder_mode)

    return prepare


def as_nobody(name: str, mode: int, wanted: Wanted, folder_mode: int = 0o755, **more: object) -> Case:
    return Case(f"rights: {name}", wanted, prepare=owned(mode, folder_mode), how=How(user=NOBODY), **more)


# ---- descriptors and devices as names ----


def a_pipe_as_name(folder: Folder) -> How:
    """A pipe with the bytes of a good file in it, as a shell's <(..) gives it; its name is the last word."""
    reading, writing = os.pipe()
    os.write(writing, GOOD)
    os.close(writing)
    folder.kept["reading"] = reading
    # the descriptor has the number that the words name
    os.dup2(reading, PASSED)
    os.close(reading)
    return How(passed=(PASSED,), seconds=AT_ONCE)


PASSED = 63  # the number that bash gives


def close_passed(_: Folder, __: Ended) -> Iterator[tuple[str, str]]:
    os.close(PASSED)
    return iter(())


def device(name: str, words: tuple[str, ...], script: bytes = b"") -> Case:
    """A device stays what it is, and the run ends at once."""
    return Case(f"kinds: {name} {' '.join(words)}".rstrip(), Wanted(5, b"", after=()), (*words, name), script, None, how=QUICK, also=still_a_device(name))


def still_a_device(name: str):
    def also(_: Folder, __: Ended) -> Iterator[tuple[str, str]]:
        if os.path.isfile(name) or not os.path.exists(name):
            yield f"a device at {name} still", "another thing or nothing"

    return also


# ---- names with strange bytes ----


def named(what: str, file: str, shown: tuple[str, ...], raw: tuple[str, ...]) -> Case:
    """A rejected file of such a name is told of in one line, with the name quoted."""
    wanted = Wanted(4, NO_CDF_TEXT, told=(shown,), not_told=raw)
    return Case(f"names: {what}", wanted, ("--check", "--", "FILE"), before=NO_CDF, file=file, also=one_plain_line)


def one_plain_line(_: Folder, ended: Ended) -> Iterator[tuple[str, str]]:
    """What is told is one line of printable characters."""
    is_line = ended.told.endswith(b"\n") and ended.told.count(b"\n") == 1
    if not is_line or any(not 32 <= byte < 127 for byte in ended.told[:-1]):
        yield "standard error of one line of printable characters", repr(ended.told[:300])


NOT_UTF8 = os.fsdecode(b"caf\xe9.cdf")
USAGE = b"usage: cdfedit"

CASES = [
    # a pipe: whoever opens or reads it waits for a writer
    *(Case(f"kinds: a pipe {' '.join(words)}".rstrip(), Wanted(5, b"", after=("a pipe",)), (*words, "FILE"), script, None, prepare=pipe, how=QUICK)
      for words, script in ((("--check",), b""), (("--new",), MAKE), ((), EDIT), (("--no-save",), READ))),
    Case("kinds: a link to a pipe --check", Wanted(5, b"", after=("a pipe",)), ("--check", "FILE"), b"", None, prepare=link_to_pipe, how=QUICK),
    Case("kinds: a pipe in /dev/fd --check", Wanted(5, b"", after=()), ("--check", f"/dev/fd/{PASSED}"), before=None, how=a_pipe_as_name, also=close_passed),
    device("/dev/null", ("--check",)),
    device("/dev/null", (), EDIT),
    device("/dev/null", ("--new",), MAKE),
    device("/dev/zero", ("--check",)),
    device("/dev/zero", ("--new",), MAKE),
    device("/dev/full", ("--new",), MAKE),
    Case("kinds: a socket --check", Wanted(5, b"", after=("a socket",)), ("--check", "FILE"), b"", None, prepare=socket_there, how=QUICK),
    Case("kinds: a socket --new", Wanted(5, b"", after=("a socket",)), ("--new", "FILE"), MAKE, None, prepare=socket_there, how=QUICK),
    Case("kinds: a folder", Wanted(5, b"", after=("a folder",)), ("FILE",), EDIT, None, prepare=folder_there),
    Case("kinds: a folder --check", Wanted(5, b"", after=("a folder",)), ("--check", "FILE"), b"", None, prepare=folder_there),
    Case("kinds: a folder --new", Wanted(5, b"", after=("a folder",)), ("--new", "FILE"), MAKE, None, prepare=folder_there),
    Case("kinds: an empty file", Wanted(4, b"rejected 0 1 0\n"), ("FILE",), EDIT, b""),
    Case("kinds: an empty file --check", Wanted(4, b"rejected 0 1 0\n"), ("--check", "FILE"), b"", b""),
    Case("kinds: an empty file --new", Wanted(0, MADE.text, after=(MADE.after,)), ("--new", "FILE"), MAKE, b""),
    Case("kinds: no file", Wanted(3, NO_FILE, after=(ABSENT,)), ("FILE",), EDIT, None, also=nothing_beside),
    Case("kinds: no folder", Wanted(3, NO_FILE, after=()), ("nowhere/a.cdf",), EDIT, None, also=nothing_beside),
    Case("kinds: no folder --new", Wanted(5, b"", after=()), ("--new", "nowhere/a.cdf"), MAKE, None, also=nothing_beside),
    # links
    Case("links: a link to a file", SAVED, script=EDIT, prepare=link_to_target, also=still_a_link),
    Case("links: a link to a file --new", Wanted(0, MADE.text, after=(MADE.after,)), ("--new", "FILE"), MAKE, prepare=link_to_target, also=still_a_link),
    Case("links: a dangling link", Wanted(3, NO_FILE, after=(ABSENT,)), ("FILE",), EDIT, None, prepare=link_to_nothing, also=no_target),
    Case("links: a dangling link --check", Wanted(3, NO_FILE, after=(ABSENT,)), ("--check", "FILE"), b"", None, prepare=link_to_nothing, also=no_target),
    Case("links: a dangling link --new", Wanted(0, MADE.text, after=(MADE.after,)), ("--new", "FILE"), MAKE, None, prepare=link_to_nothing, also=still_a_link),
    Case("links: a link to itself", Wanted(5, b"", after=()), ("FILE",), EDIT, None, prepare=link_to_itself),
    Case("links: a file with two names", SAVED, script=EDIT, prepare=two_names, also=both_names),
    Case("links: a file with two names --new", Wanted(0, MADE.text, after=(MADE.after,)), ("--new", "FILE"), MAKE, prepare=two_names, also=both_names),
    # rights
    as_nobody("all, an edit", 0o644, SAVED, script=EDIT),
    as_nobody("a read-only file, an edit", 0o444, UNSAVED, script=EDIT),
    as_nobody("a read-only file, a script that only reads", 0o444, Wanted(0, READ_DONE.text), script=READ),
    as_nobody("a read-only file, --no-save", 0o444, Wanted(0, EDITED.text), words=("--no-save", "FILE"), script=EDIT),
    as_nobody("a read-only file, --check", 0o444, CHECKED, words=("--check", "FILE")),
    as_nobody("a read-only file, --new", 0o444, Wanted((5, 6)), words=("--new", "FILE"), script=MAKE),
    as_nobody("a read-only folder, an edit", 0o644, SAVED, 0o555, script=EDIT),
    as_nobody("a read-only folder, --check", 0o644, CHECKED, 0o555, words=("--check", "FILE")),
    as_nobody("a read-only folder, --new of no file", 0o644, Wanted(5, b"", after=(ABSENT,)), 0o555, words=("--new", "FILE"), script=MAKE, before=None),
    as_nobody("a read-only folder, --new over a file", 0o644, Wanted(0, MADE.text, after=(MADE.after,)), 0o555, words=("--new", "FILE"), script=MAKE),
    as_nobody("a folder that cannot be listed, an edit", 0o644, SAVED, 0o311, script=EDIT),
    as_nobody("no right to read, an edit", 0o000, NOT_OPENED, script=EDIT),
    as_nobody("no right to read, --check", 0o000, NOT_OPENED, words=("--check", "FILE")),
    as_nobody("no right to read but one to write, an edit", 0o200, NOT_OPENED, script=EDIT),
    as_nobody("no right to enter the folder, --check", 0o644, NOT_OPENED, 0o000, words=("--check", "FILE")),
    # names
    Case("names: a plain name is told as it is", Wanted(4, NO_CDF_TEXT, told=(("a.cdf",),)), ("--check", "FILE"), before=NO_CDF, also=one_plain_line),
    named("a newline", "two\nlines.cdf", ("two\\x0alines.cdf", "two\\nlines.cdf"), ("two\nlines",)),
    named("a quote", 'say "hi".cdf', ('say \\"hi\\".cdf', "say \\x22hi\\x22.cdf"), ()),
    named("a backslash", "a\\b.cdf", ("a\\\\b.cdf", "a\\x5cb.cdf"), ()),
    named("a byte past 127", "caf\u00e9.cdf", ("caf\\xc3\\xa9.cdf",), ("caf\u00e9",)),
    named("an escape of a terminal", "\x1b[31mred.cdf", ("\\x1b[31mred.cdf",), ("\x1b",)),
    Case("names: an edit of a file with a newline in its name", SAVED, script=EDIT, file="two\nlines.cdf"),
    Case("names: an edit of a file with a byte past 127 in its name", SAVED, script=EDIT, file="caf\u00e9.cdf"),
    Case("names: no UTF-8", Wanted(2, begins=USAGE, after=(SAME,)), ("FILE",), EDIT, file=NOT_UTF8),
    Case("names: no UTF-8 --check", Wanted(2, begins=USAGE, after=(SAME,)), ("--check", "FILE"), file=NOT_UTF8),
    Case("names: no UTF-8 --new", Wanted(2, begins=USAGE, after=(ABSENT,)), ("--new", "FILE"), MAKE, None, file=NOT_UTF8),
    Case("names: an empty name", Wanted((3, 5), after=(SAME,)), ("",), EDIT),
    Case("names: - alone is a file", Wanted(3, NO_FILE), ("-",), EDIT),
    Case("names: a file that begins with - behind --", Wanted(0, YES, after=()), ("--check", "--", "-x.cdf"), file="-x.cdf"),
]
