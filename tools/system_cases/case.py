"""What a case is, how it is tried and how it is judged."""
import hashlib
import os
import shutil
import stat
import subprocess
import tempfile
from contextlib import contextmanager, nullcontext
from dataclasses import dataclass, field
from pathlib import Path
from typing import Callable, Iterator, Optional, Sequence, Union

from system_cases.files import GOOD
from system_cases.running import Ended, How, LeftOut, Notes, Program

RIGHT, WRONG, COUNTED, LEFT_OUT = "right", "WRONG", "counted", "left out"

SAME = "the bytes as before"  # what stands under the name afterwards is what stood there before the run
ABSENT = "no file"

SMALL_DISK = 2 << 20  # the bytes of the small file system


@dataclass
class Folder:
    """The folder of a case: what the program works in, the file of the case, and what the case keeps for later."""

    path: Path
    notes: Notes
    file: Path
    before: object = ABSENT  # what stood under the name when the run began
    kept: dict = field(default_factory=dict)

    def beside(self, name: str) -> Path:
        return self.path / name


@dataclass
class Wanted:
    """What is wanted of a run."""

    status: Union[int, tuple[int, ...]]
    answer: Optional[bytes] = None  # standard output, whole; None: not looked at
    begins: Optional[bytes] = None  # with what standard output begins
    after: tuple = (SAME,)  # what may stand under the name afterwards: bytes, SAME, ABSENT or the kind of it; empty: not looked at
    told: tuple[tuple[str, ...], ...] = ()  # of each group, one is told on standard error, in whatever case
    not_told: tuple[str, ...] = ()
    is_silent: bool = False  # nothing is told


@dataclass
class Verdict:
    kind: str
    note: str = ""  # what was counted, or why the case is left out
    wanted: list[str] = field(default_factory=list)
    came: list[str] = field(default_factory=list)


@dataclass
class Case:
    name: str
    wanted: Union[Wanted, tuple[Wanted, ...]] = ()  # where there are several, one of them holds
    words: Sequence[str] = ("FILE",)  # FILE stands for the file of the case
    script: bytes = b""
    before: Optional[bytes] = GOOD  # the bytes of the file at first; None: there is none
    file: str = "a.cdf"
    prepare: Optional[Callable[[Folder], None]] = None  # what else is made, or made otherwise
    meanwhile: Optional[Callable[[Folder, Program], None]] = None  # what is done once the program waits for its script
    how: Union[How, Callable[[Folder], How]] = How()
    where: str = "folder"  # or "memory", which is /dev/shm, or "small", a file system of SMALL_DISK bytes
    also: Optional[Callable[[Folder, Ended], Iterator[tuple[str, str]]]] = None  # yields what was wanted and what came
    attempt: Optional[Callable[["Case", Folder, Program], Verdict]] = None  # in place of one run that is judged by what is wanted


# ---- what stands under a name ----


def kind_of(path: Path) -> Optional[str]:
    """What stands under a name, behind a link, where it is no regular file."""
    try:
        mode = os.stat(path).st_mode
    except FileNotFoundError:
        return ABSENT
    kinds = {stat.S_IFIFO: "a pipe", stat.S_IFDIR: "a folder", stat.S_IFSOCK: "a socket", stat.S_IFCHR: "a device"}
    return kinds.get(stat.S_IFMT(mode))


def content_of(path: Path) -> object:
    """The bytes of a file, or what else stands there."""
    return kind_of(path) or path.read_bytes()


def described(content: object, other: object = None) -> str:
    """What stands under a name in a few words; beside another one, where the first byte differs."""
    if not isinstance(content, bytes):
        return str(content)
    text = f"{len(content)} bytes, md5 {hashlib.md5(content).hexdigest()[:8]}"
    if isinstance(other, bytes) and content != other:
        upto = min(len(content), len(other))
        text += f", another byte at {next((i for i in range(upto) if content[i] != other[i]), upto)}"
    return text


def shortened(data: bytes) -> str:
    return repr(data if len(data) <= 300 else data[:150] + b" ... " + data[-150:])


# ---- judging ----


def said(status: Optional[int]) -> str:
    if status is None:
        return "no end: it hung"
    return f"status {status}" if status >= 0 else f"ended by signal {-status}"


def tells(told: bytes, groups: tuple[tuple[str, ...], ...]) -> list[tuple[str, ...]]:
    """The groups of which nothing is told."""
    text = told.lower()
    return [group for group in groups if not any(os.fsencode(word).lower() in text for word in group)]


def differences(wanted: Wanted, folder: Folder, ended: Ended) -> Iterator[tuple[str, str]]:
    """What was wanted and what came, of each thing that came otherwise."""
    statuses = (wanted.status,) if isinstance(wanted.status, int) else wanted.status
    if ended.status not in statuses:
        yield " or ".join(map(said, statuses)), said(ended.status)
    if wanted.answer is not None and ended.answer != wanted.answer:
        yield f"the answer {shortened(wanted.answer)}", shortened(ended.answer)
    if wanted.begins is not None and not ended.answer.startswith(wanted.begins):
        yield f"an answer that begins with {shortened(wanted.begins)}", shortened(ended.answer)
    if wanted.after:
        after = content_of(folder.file)
        may_be = [folder.before if one is SAME else one for one in wanted.after]
        if after not in may_be:
            yield "the file: " + " or ".join(described(one) for one in may_be), described(after, may_be[0])
    for group in tells(ended.told, wanted.told):
        yield f"standard error with {' or '.join(map(repr, group))}", shortened(ended.told)
    for word in wanted.not_told:
        if not tells(ended.told, ((word,),)):
            yield f"standard error without {word!r}", shortened(ended.told)
    if wanted.is_silent and ended.told:
        yield "nothing on standard error", shortened(ended.told)


def verdict_of(found: list[tuple[str, str]], ended: Optional[Ended] = None) -> Verdict:
    if not found:
        return Verdict(RIGHT)
    came = [came for _, came in found]
    if ended is not None and ended.told and not any("standard error" in wanted for wanted, _ in found):
        came.append(f"and on standard error {shortened(ended.told)}")
    return Verdict(WRONG, wanted=[wanted for wanted, _ in found], came=came)


def judge(case: Case, folder: Folder, ended: Ended) -> Verdict:
    choices = case.wanted if isinstance(case.wanted, tuple) else (case.wanted,)
    tried = [list(differences(wanted, folder, ended)) for wanted in choices]
    found = min(tried, key=len)
    if case.also:
        found += list(case.also(folder, ended))
    return verdict_of(found, ended)


# ---- trying ----


def words_of(case: Case, folder: Folder) -> list[str]:
    return [str(folder.file) if word == "FILE" else word for word in case.words]


def how_of(case: Case, folder: Folder) -> How:
    return case.how(folder) if callable(case.how) else case.how


def one_run(case: Case, folder: Folder, program: Program) -> Verdict:
    """Runs the program once, held while another does something if the case has it so, and judges the run."""
    how, words = how_of(case, folder), words_of(case, folder)
    folder.before = content_of(folder.file) if case.wanted and looks_at_file(case) else None
    try:
        running = program.start(words, folder.notes, folder.path, None if case.meanwhile else case.script, how)
    except PermissionError as error:
        raise LeftOut(f"the program cannot be started so: {error.strerror}") from error
    with running:
        if case.meanwhile:
            running.wait_until_held()
            case.meanwhile(folder, program)
            running.give(case.script)
            running.close_script()
        return judge(case, folder, running.ended())


def looks_at_file(case: Case) -> bool:
    choices = case.wanted if isinstance(case.wanted, tuple) else (case.wanted,)
    return any(wanted.after for wanted in choices)


def try_case(case: Case, program: Program) -> Verdict:
    """Makes the folder of a case, tries it, and takes the folder away."""
    try:
        with folder_for(case) as folder:
            if case.before is not None:
                folder.file.write_bytes(case.before)
            if case.prepare:
                case.prepare(folder)
            return (case.attempt or one_run)(case, folder, program)
    except LeftOut as reason:
        return Verdict(LEFT_OUT, str(reason))


@contextmanager
def folder_for(case: Case) -> Iterator[Folder]:
    parent = None
    if case.where == "memory":
        parent = "/dev/shm"
        if not os.access(parent, os.W_OK):
            raise LeftOut("there is no /dev/shm")
    top = Path(tempfile.mkdtemp(prefix="cdfedit-system-", dir=parent))
    try:
        top.chmod(0o755)
        notes, path = top / "notes", top / "folder"
        notes.mkdir()
        path.mkdir()
        with small_disk(path) if case.where == "small" else nullcontext():
            yield Folder(path, Notes(notes), path / case.file)
    finally:
        shutil.rmtree(top, ignore_errors=True)


@contextmanager
def small_disk(path: Path) -> Iterator[None]:
    """Mounts a small file system."""
    try:
        done = subprocess.run(["mount", "-t", "tmpfs", "-o", f"size={SMALL_DISK}", "none", str(path)], capture_output=True)
    except OSError as error:
        raise LeftOut(f"no mount: {error.strerror}") from error
    if done.returncode != 0:
        raise LeftOut(f"no {(done.stderr.decode(errors='replace').splitlines() or ['mount'])[0]}")
    try:
        yield
    finally:
        subprocess.run(["umount", "-l", str(path)], check=False)
