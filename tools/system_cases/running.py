"""Starting the program, and what came of a run."""
import os
import resource
import select
import shlex
import signal
import subprocess
import threading
import time
from dataclasses import dataclass
from pathlib import Path
from typing import BinaryIO, Optional, Sequence, Union

SECONDS = 20.0  # after which a run counts as hung


class LeftOut(Exception):
    """A case cannot be tried here; the text says why."""


@dataclass(frozen=True)
class How:
    """How a run is started."""

    closed: tuple[int, ...] = ()  # descriptors of the three streams that are closed
    output: Optional[str] = None  # what standard output goes to, where the case does not read it
    script: Optional[str] = None  # what standard input comes from, in place of the bytes of the case
    answer_behind: Optional[str] = None  # the file that standard output is added to
    told_behind: Optional[str] = None  # the file that standard error is added to
    limits: tuple[tuple[int, int], ...] = ()  # resources, each with its limit
    ignored: tuple[int, ...] = ()  # signals that the program is started to ignore
    user: Optional[int] = None  # who runs it, where that is not who runs the cases
    passed: tuple[int, ...] = ()  # further descriptors that stay open
    traced: Optional[str] = None  # the calls that strace is to note
    failing: Optional[str] = None  # those that strace has fail, in its own words
    seconds: float = SECONDS


@dataclass
class Ended:
    """What came of a run."""

    status: Optional[int]  # below 0 the signal that ended it; none where it hung
    answer: bytes  # standard output
    told: bytes  # standard error
    memory: int  # the greatest resident memory in bytes
    seconds: float


@dataclass
class Notes:
    """Where the script and the streams of a run are kept, apart from the folder that the program works in."""

    path: Path

    @property
    def script(self) -> Path:
        return self.path / "script"

    @property
    def answer(self) -> Path:
        return self.path / "answer"

    @property
    def told(self) -> Path:
        return self.path / "told"

    @property
    def calls(self) -> Path:
        return self.path / "calls"


class Running:
    """A run that has been started. It is over where a `with` over it ends."""

    def __init__(self, process: subprocess.Popen, notes: Notes, how: How):
        self.process, self.notes, self.how = process, notes, how
        self.has_hung = False
        self.start = time.monotonic()

    def __enter__(self) -> "Running":
        return self

    def __exit__(self, *_: object) -> None:
        if self.process.returncode is None:
            self.kill()
            self.ended()

    def give(self, script: bytes) -> None:
        """Gives a held program its script. The pipe stays open. A program that does not read it is killed after a while, as hung."""
        timer = threading.Timer(self.how.seconds, self.stop)
        timer.start()
        try:
            self.process.stdin.write(script)
            self.process.stdin.flush()
        except BrokenPipeError:
            pass  # the program has ended, and what came of that is looked at
        finally:
            timer.cancel()

    def stop(self) -> None:
        """Kills a run that hangs."""
        self.has_hung = True
        self.kill()

    def close_script(self) -> None:
        try:
            self.process.stdin.close()
        except BrokenPipeError:
            pass

    def wait_until_held(self, seconds: float = 10.0) -> None:
        """Waits until the program sleeps in a read of standard input, so that it has read all that it was given, or has ended."""
        until = time.monotonic() + seconds
        while time.monotonic() < until and not self.has_ended():
            try:
                # the number of the call that it sleeps in, and what the call was given
                call = Path(f"/proc/{self.process.pid}/syscall").read_text().split()
            except OSError:
                time.sleep(1.0)
                return
            if len(call) > 2 and call[0] in ("0", "63") and call[1] == "0x0":
                return
            time.sleep(0.005)

    def has_ended(self) -> bool:
        return os.waitid(os.P_PID, self.process.pid, os.WEXITED | os.WNOHANG | os.WNOWAIT) is not None

    def kill(self) -> None:
        """Ends the run and what it started, which is a session of its own."""
        try:
            os.killpg(self.process.pid, signal.SIGKILL)
        except ProcessLookupError:
            pass

    def ended(self) -> Ended:
        """Waits for the end of the run. What hangs is killed."""
        descriptor = os.pidfd_open(self.process.pid)
        try:
            if not select.select([descriptor], [], [], self.how.seconds)[0]:
                self.stop()
        finally:
            os.close(descriptor)
        seconds = time.monotonic() - self.start
        _, status, usage = os.wait4(self.process.pid, 0)
        self.process.returncode = os.waitstatus_to_exitcode(status)
        if self.process.stdin:
            self.close_script()
        return Ended(
            None if self.has_hung else self.process.returncode,
            read_or_empty(self.notes.answer),
            read_or_empty(self.notes.told),
            usage.ru_maxrss * 1024,
            seconds,
        )


def read_or_empty(path: Path) -> bytes:
    return path.read_bytes() if path.exists() else b""


class Program:
    """The program that is tried: a path, or a path with words before or behind it."""

    def __init__(self, text: str):
        words = [text] if Path(text).exists() else shlex.split(text)
        # a run has another working folder
        self.words = [str(Path(word).resolve()) if Path(word).exists() else word for word in words]

    def start(self, words: Sequence[str], notes: Notes, folder: Path, script: Optional[bytes], how: How = How()) -> Running:
        """Starts a run over a script; without one the program is held, until it is given a script through a pipe."""
        command = [*self.words, *words]
        if how.traced:
            faults = ["-e", f"inject={how.failing}"] if how.failing else []
            command = ["strace", "-f", "-y", "-e", f"trace={how.traced}", *faults, "-o", str(notes.calls), *command]
        if script is not None:
            notes.script.write_bytes(script)
        user = {} if how.user is None else {"user": how.user, "group": how.user, "extra_groups": []}
        # a folder may be given as a script too
        source = subprocess.PIPE if script is None else os.open(how.script or notes.script, os.O_RDONLY)
        with opened(how.answer_behind, how.output or notes.answer) as answer, opened(how.told_behind, notes.told) as told:
            try:
                process = subprocess.Popen(
                    command, stdin=source, stdout=answer, stderr=told, cwd=folder, pass_fds=how.passed,
                    start_new_session=True, preexec_fn=lambda: set_up_child(how), **user
                )
            finally:
                if script is not None:
                    os.close(source)
        return Running(process, notes, how)

    def run(self, words: Sequence[str], notes: Notes, folder: Path, script: bytes = b"", how: How = How()) -> Ended:
        with self.start(words, notes, folder, script, how) as running:
            return running.ended()


def opened(behind: Optional[str], anew: Union[str, Path]) -> BinaryIO:
    """What a stream goes to: the end of a file, where that is given, else a file that it makes anew."""
    return open(behind, "ab") if behind else open(anew, "wb")


def set_up_child(how: How) -> None:
    """What is done in the new process before the program is started in it. Python has set SIGPIPE and SIGXFSZ to their defaults."""
    for number in how.ignored:
        signal.signal(number, signal.SIG_IGN)
    for descriptor in how.closed:
        os.close(descriptor)
    for what, most in how.limits:
        resource.setrlimit(what, (most, resource.getrlimit(what)[1]))
