"""10. Runs as they are every day, a control: what is written and what is left is what the editor in tools/second says."""
from typing import Optional

from system_cases.case import ABSENT, SAME, Case, Wanted
from system_cases.files import (
    DUMP, EDIT, GOOD, MAKE, NO_CDF, NO_CDF_TEXT, NO_FILE, READ, REFUSED, WRONG_EOF, WRONG_EOF_TEXT, YES, expected, foreign, lines
)

FOREIGN = foreign(range(200))
EDIT_FOREIGN = lines("info", "list", "attr Added global", "zvar More INT4 1 vary 2 T", "put-rec More 3 4 5", "checksum md5", "list", "info")
SEALED = expected(lines("checksum md5"), GOOD).after
SPACE = ("--space", "FILE")
VARIABLES = lines(
    "setup 6 row 3", "rvar Position REAL4 1 vary T", "zvar Epoch EPOCH 1 vary - -", "zvar B REAL4 1 vary 3 T",
    "attr UNITS variable", 'put-entry UNITS z 1 CHAR "nT"', "put-rec B 1 40b00000 c0200000 00000000", "put-val B 0 2 3f800000",
    "set-pad Epoch 42cd2e4a8d6a0000", "set-blocking B 2", "put-rec B 9 3f800000 3f800000 3f800000", "reindex B", "get-rec B 0", "get-rec B 9",
    "rename-var B B_gse", "del-var Epoch", "list", "info",
)


def edited(name: str, script: bytes, before: Optional[bytes] = GOOD, words: tuple[str, ...] = ("FILE",), **more: object) -> Case:
    """A script over a file, with what the other editor makes of it."""
    due = expected(script, before, words)
    return Case(f"plain: {name}", Wanted(due.status, due.text, after=(ABSENT if due.after is None else due.after,)), words, script, before, **more)


def with_one_byte_changed(file: bytes, place: int) -> bytes:
    return file[:place] + bytes([file[place] ^ 1]) + file[place + 1 :]


CASES = [
    edited("make a file", MAKE, None, ("--new", "FILE")),
    edited("make an empty file", b"", None, ("--new", "FILE")),
    edited("make a file of variables", VARIABLES, None, ("--new", "FILE")),
    edited("make a file over another", MAKE, GOOD, ("--new", "FILE")),
    edited("edit", EDIT),
    edited("edit with refused lines", REFUSED),
    edited("edit with a checksum", EDIT, SEALED),
    edited("take a checksum away", lines("checksum none"), SEALED),
    edited("edit a file of another maker", EDIT_FOREIGN, FOREIGN),
    edited("read", READ),
    edited("dump", lines("dump", "report tally"), words=("--no-save", "FILE")),
    edited("dump a file of another maker", lines("dump", "report tally", "report vartype"), FOREIGN),
    edited("a long dump between edits", DUMP),
    edited("say what space is used", EDIT, GOOD, SPACE),
    edited("save nothing", EDIT, GOOD, ("--no-save", "FILE")),
    edited("make nothing", MAKE, None, ("--new", "--no-save", "FILE")),
    edited("an empty script", b""),
    edited("comments and blank lines", b"# a comment\n\n \t\nattr Added global\n"),
    edited("a last line without a newline", b"attr Added global\nlist"),
    Case("plain: a line that is no command", Wanted(1, b"1 refused 1 BadLine UnknownWord 0\n2 ok\n", after=(expected(b"attr Added global\n", GOOD).after,)), script=b"frobnicate\nattr Added global\n"),
    Case("plain: check", Wanted(0, YES, is_silent=True), ("--check", "FILE")),
    Case("plain: check a file with a checksum", Wanted(0, YES), ("--check", "FILE"), before=SEALED),
    Case("plain: check a file of another maker", Wanted(0, YES), ("--check", "FILE"), before=FOREIGN),
    Case("plain: check a rejected file", Wanted(4, WRONG_EOF_TEXT, told=(("rule 3.4",), ("eof",))), ("--check", "FILE"), before=WRONG_EOF),
    Case("plain: check a file with a wrong checksum", Wanted(4, f"rejected 10 1 {len(SEALED) - 16}\n".encode(), told=(("checksum",),)), ("--check", "FILE"), before=with_one_byte_changed(SEALED, 800)),
    Case("plain: edit a rejected file", Wanted(4, WRONG_EOF_TEXT), script=EDIT, before=WRONG_EOF),
    Case("plain: edit what is no CDF", Wanted(4, NO_CDF_TEXT), script=EDIT, before=NO_CDF),
    Case("plain: edit no file", Wanted(3, NO_FILE, after=(SAME,), told=(("no such file", "no file", "does not exist"),)), script=EDIT, before=None),
    Case("plain: check no file", Wanted(3, NO_FILE), ("--check", "FILE"), before=None),
    *(Case(f"plain: the words {' '.join(words) or 'are none'}", Wanted(2, begins=b"usage: cdfedit"), words, EDIT)
      for words in ((), ("FILE", "FILE"), ("--check", "--new", "FILE"), ("--new", "--new", "FILE"), ("--frobnicate", "FILE"), ("-x",))),
]
