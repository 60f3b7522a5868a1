"""3. Another program that writes to the file while the editor waits for its script."""
import os
import time
from typing import Callable

from system_cases.case import ABSENT, Case, Folder, Verdict, Wanted, differences, verdict_of
from system_cases.files import EDIT, EDITED, GOOD, IN_PLACE, IN_PLACE_DONE, READ, READ_DONE, YES, expected, lines
from system_cases.running import Notes, Program, Running

# what may be told of a file that another program has changed
CHANGED_MEANWHILE = ("meanwhile", "another program", "other program", "another one", "someone else", "file was changed", "file has changed", "changed since", "changed while", "in between")
GRAIN = 0.1  # in seconds, more than that of the clock that files are stamped by

OTHER = GOOD.replace(b"Attribute7", b"AttributeX")  # as long as the file


def keep(folder: Folder) -> None:
    """Keeps a second name of the file, so that its bytes can be looked at when its first name is gone."""
    os.link(folder.file, folder.beside("kept"))


# ---- what the other program does; what it leaves is what the file has to be afterwards ----


def leave(folder: Folder) -> None:
    """Notes what the other program has left."""
    folder.before = folder.file.read_bytes() if folder.file.exists() else ABSENT


def by_another(act: Callable[[Folder], None]) -> Callable[[Folder, Program], None]:
    def meanwhile(folder: Folder, _: Program) -> None:
        time.sleep(GRAIN)
        act(folder)
        leave(folder)
        time.sleep(GRAIN)

    return meanwhile


def nothing(folder: Folder) -> None:
    """The file stays as it is."""


def read(folder: Folder) -> None:
    folder.file.read_bytes()


def cut(folder: Folder) -> None:
    os.truncate(folder.file, 5000)


def cut_to_nothing(folder: Folder) -> None:
    os.truncate(folder.file, 0)


def append(folder: Folder) -> None:
    with open(folder.file, "ab") as file:
        file.write(b"appended by another")


def rewrite(folder: Folder) -> None:
    folder.file.write_bytes(OTHER)


def write_over(folder: Folder) -> None:
    """Writes one byte in place."""
    with open(folder.file, "r+b") as file:
        file.seek(9000)
        file.write(b"!")


def rewrite_long_ago(folder: Folder) -> None:
    """Other bytes, and a time that lies before that of the file."""
    before = os.stat(folder.file).st_mtime_ns
    folder.file.write_bytes(OTHER)
    os.utime(folder.file, ns=(before, before - 3_600_000_000_000))


def rewrite_a_little_later(folder: Folder) -> None:
    """Other bytes, and a time that is later by less than a second."""
    before = os.stat(folder.file).st_mtime_ns
    folder.file.write_bytes(OTHER)
    os.utime(folder.file, ns=(before, before + 1_000_000))


def touch(folder: Folder) -> None:
    os.utime(folder.file)


def replace(folder: Folder) -> None:
    """Another file takes the name."""
    folder.beside("other").write_bytes(OTHER)
    os.rename(folder.beside("other"), folder.file)


def replace_by_a_twin(folder: Folder) -> None:
    """Another file takes the name, of the same bytes and of the same time."""
    before = os.stat(folder.file)
    folder.beside("other").write_bytes(GOOD)
    os.utime(folder.beside("other"), ns=(before.st_mtime_ns, before.st_mtime_ns))
    os.rename(folder.beside("other"), folder.file)


def remove(folder: Folder) -> None:
    os.unlink(folder.file)


def old_is_kept(folder: Folder, _: object):
    """The file that had the name before has its bytes still."""
    kept = folder.beside("kept").read_bytes()
    if kept != GOOD:
        yield "the file that had the name, as it was", f"{len(kept)} other bytes"


# ---- two editors ----


def edit_by_another(script: bytes) -> Callable[[Folder, Program], None]:
    """Another editor opens, edits and saves the file."""

    def meanwhile(folder: Folder, program: Program) -> None:
        time.sleep(GRAIN)
        notes = Notes(folder.notes.path / "other")
        notes.path.mkdir()
        ended = program.run([str(folder.file)], notes, folder.path, script)
        assert ended.status == 0, f"the other editor ended with {ended.status}"
        leave(folder)
        time.sleep(GRAIN)

    return meanwhile


def check_by_another(folder: Folder, program: Program) -> None:
    """Another editor checks the file."""
    notes = Notes(folder.notes.path / "other")
    notes.path.mkdir()
    ended = program.run(["--check", str(folder.file)], notes, folder.path)
    assert ended.answer == YES
    leave(folder)


def both_at_once(case: Case, folder: Folder, program: Program) -> Verdict:
    """Two editors have opened the file, and the first one saves before the second one does."""
    with held(folder, program, "first") as first, held(folder, program, "second") as second:
        first.wait_until_held()
        second.wait_until_held()
        time.sleep(GRAIN)
        found = []
        for run, wanted in zip((first, second), case.wanted):
            run.give(case.script)
            run.close_script()
            name = run.notes.path.name
            found += [(f"of the {name}: {was}", came) for was, came in differences(wanted, folder, run.ended())]
            time.sleep(GRAIN)
    return verdict_of(found)


def held(folder: Folder, program: Program, name: str) -> Running:
    """A further run over the file of the case, which waits for its script."""
    notes = Notes(folder.notes.path / name)
    notes.path.mkdir()
    return program.start([str(folder.file)], notes, folder.path, None)


# ---- the cases ----

NOT_SAVED = Wanted(6, EDITED.text, told=(CHANGED_MEANWHILE,))


def spoiled(name: str, act: Callable[[Folder], None], script: bytes = EDIT) -> Case:
    wanted = NOT_SAVED if script == EDIT else Wanted(6, IN_PLACE_DONE.text, told=(CHANGED_MEANWHILE,))
    return Case(f"meanwhile: another one {name}", wanted, script=script, prepare=keep, meanwhile=by_another(act))


def with_old_kept(case: Case) -> Case:
    case.also = old_is_kept
    return case


def only_read(name: str, act: Callable[[Folder], None]) -> Case:
    """A script that changes nothing is answered from the file as it was opened."""
    return Case(f"meanwhile: another one {name}, and the script only reads", Wanted(0, READ_DONE.text), script=READ, meanwhile=by_another(act))


TO_BOTH = lines("attr Added global")
SAVED_BY_FIRST = expected(TO_BOTH, GOOD)

CASES = [
    Case("meanwhile: nobody writes", Wanted(0, EDITED.text, after=(EDITED.after,)), script=EDIT, meanwhile=by_another(nothing)),
    Case("meanwhile: nobody writes, an edit in place", Wanted(0, IN_PLACE_DONE.text, after=(IN_PLACE_DONE.after,)), script=IN_PLACE, meanwhile=by_another(nothing)),
    Case("meanwhile: another one reads", Wanted(0, EDITED.text, after=(EDITED.after,)), script=EDIT, meanwhile=by_another(read)),
    Case("meanwhile: another editor checks", Wanted(0, EDITED.text, after=(EDITED.after,)), script=EDIT, meanwhile=check_by_another),
    spoiled("cuts", cut),
    spoiled("cuts it to nothing", cut_to_nothing),
    spoiled("appends", append),
    spoiled("rewrites it", rewrite),
    spoiled("rewrites it, an edit in place", rewrite, IN_PLACE),
    spoiled("writes a byte over it", write_over, IN_PLACE),
    spoiled("rewrites it with an earlier time", rewrite_long_ago, IN_PLACE),
    spoiled("rewrites it with a time that is later by a millisecond", rewrite_a_little_later, IN_PLACE),
    spoiled("touches it", touch, IN_PLACE),
    with_old_kept(spoiled("replaces it", replace)),
    with_old_kept(spoiled("replaces it by a twin of the same time", replace_by_a_twin, IN_PLACE)),
    with_old_kept(spoiled("removes it", remove)),
    Case("meanwhile: another editor saves", NOT_SAVED, script=EDIT, meanwhile=edit_by_another(TO_BOTH)),
    Case("meanwhile: another editor saves in place", NOT_SAVED, script=EDIT, meanwhile=edit_by_another(lines("rename-attr Attribute5 Other"))),
    Case("meanwhile: two editors at once", (Wanted(0, SAVED_BY_FIRST.text, after=(SAVED_BY_FIRST.after,)), Wanted(6, SAVED_BY_FIRST.text, after=(SAVED_BY_FIRST.after,), told=(CHANGED_MEANWHILE,))), script=TO_BOTH, attempt=both_at_once),
    Case("meanwhile: another editor saves, and the script only reads", Wanted(0, READ_DONE.text), script=READ, meanwhile=edit_by_another(TO_BOTH)),
    only_read("cuts", cut),
    only_read("appends", append),
    only_read("rewrites it", rewrite),
    only_read("replaces it", replace),
    only_read("removes it", remove),
    Case("meanwhile: another one rewrites it, with --no-save", Wanted(0, EDITED.text), ("--no-save", "FILE"), EDIT, meanwhile=by_another(rewrite)),
]
