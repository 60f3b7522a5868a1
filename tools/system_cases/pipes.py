"""7. Answers into a pipe whose reader goes away."""
import os
import signal
import subprocess

from system_cases.case import Case, Folder, Verdict, Wanted, judge
from system_cases.files import DUMP, DUMPED, EDIT, EDITED, READ, lines
from system_cases.running import How, Program

# many more answers than a pipe holds, behind an edit
MANY = lines("attr Added global") + b"info\n" * 20_000
BROKEN = Wanted((7, -signal.SIGPIPE))  # the old file


def into(reader: list[str]):
    """Runs the program with its answers going into another program, and judges the run."""

    def attempt(case: Case, folder: Folder, program: Program) -> Verdict:
        reading, writing = os.pipe()
        folder.before = folder.file.read_bytes()
        with subprocess.Popen(reader, stdin=reading, stdout=subprocess.DEVNULL):
            os.close(reading)
            words = [str(folder.file) if word == "FILE" else word for word in case.words]
            how = How(output=f"/dev/fd/{writing}", ignored=case.how.ignored)
            with program.start(words, folder.notes, folder.path, case.script, how) as running:
                os.close(writing)
                ended = running.ended()
        return judge(case, folder, ended)

    return attempt


def into_nothing(case: Case, folder: Folder, program: Program) -> Verdict:
    """The reader has gone before the program starts."""
    reading, writing = os.pipe()
    folder.before = folder.file.read_bytes()
    words = [str(folder.file) if word == "FILE" else word for word in case.words]
    # the name leads to the pipe while it has a reader only
    how = How(output=f"/dev/fd/{writing}", ignored=case.how.ignored)
    with program.start(words, folder.notes, folder.path, None, how) as running:
        os.close(reading)
        os.close(writing)
        running.give(case.script)
        running.close_script()
        return judge(case, folder, running.ended())


IGNORED = How(ignored=(signal.SIGPIPE,))
HEAD = ["head", "-n", "1"]

CASES = [
    Case("pipes: into head, many answers", BROKEN, script=MANY, attempt=into(HEAD)),
    Case("pipes: into head, many answers, with SIGPIPE ignored", Wanted(7), script=MANY, how=IGNORED, attempt=into(HEAD)),
    Case("pipes: into head, few answers that it reads", (Wanted(0, after=(EDITED.after,)), BROKEN), script=EDIT, attempt=into(HEAD)),
    Case("pipes: into head, a dump", BROKEN, script=DUMP, attempt=into(HEAD)),
    Case("pipes: into head, a dump, with SIGPIPE ignored", Wanted(7), script=DUMP, how=IGNORED, attempt=into(HEAD)),
    Case("pipes: into cat, a dump", Wanted(1, after=(DUMPED.after,)), script=DUMP, attempt=into(["cat"])),
    Case("pipes: into cat, many answers", Wanted(0, after=()), script=MANY, attempt=into(["cat"])),
    Case("pipes: into nothing, an edit", BROKEN, script=EDIT, attempt=into_nothing),
    Case("pipes: into nothing, an edit, with SIGPIPE ignored", Wanted(7), script=EDIT, how=IGNORED, attempt=into_nothing),
    Case("pipes: into nothing, an empty script", Wanted(0), script=b"", attempt=into_nothing),
    Case("pipes: into true, --check", (Wanted(0), BROKEN), ("--check", "FILE"), attempt=into(["true"])),
    Case("pipes: into cat, a script that only reads", Wanted(0), script=READ, attempt=into(["cat"])),
]
