"""A program that is asked questions: it is started in a folder of the question's files, and what it answers is kept.

A question is asked in a process of its own (`questions.py`), so the folder is that process's own, and a program that
hangs ends by an alarm.
"""
import contextlib
import os
import resource
import shutil
import signal
import subprocess
import tempfile
from dataclasses import dataclass

# A run that takes so many seconds hangs.
LIMIT = 120
# Where a stream fails after some bytes, its file is as long as any may be: it begins so many bytes before its end.
LONGEST = 1 << 22
# The names of a file for which there is no memory, and of one that cannot be written.
HUGE, FULL = "huge", "full"


@dataclass(frozen=True)
class Answer:
    """The status of a command, and what both streams got."""

    status: int
    out: bytes
    errors: bytes

    def last_error(self) -> str:
        """The text of a refusal, which is the last line, or nothing."""
        last = self.errors.decode(errors="replace").removesuffix("\n").rpartition("\n")[2]
        return last.removeprefix("preinit: ") if last.startswith("preinit: ") else ""

    def lines(self) -> list[str]:
        return self.errors.decode(errors="replace").splitlines()


class Asked:
    """A program, and the folder in which it is started. The process's working folder is that one."""

    def __init__(self, path: str):
        self.path = path
        self.out, self.errors = os.memfd_create("out"), os.memfd_create("errors")
        self.child = 0
        signal.signal(signal.SIGALRM, self.stop)

    def stop(self, *_):
        """Ends a program that hangs."""
        if self.child:
            os.kill(self.child, signal.SIGKILL)

    def run(self, *words: str) -> Answer:
        """Runs a command."""
        for file in (self.out, self.errors):
            os.ftruncate(file, 0)
            os.lseek(file, 0, os.SEEK_SET)
        actions = [(os.POSIX_SPAWN_OPEN, 0, os.devnull, os.O_RDONLY, 0), (os.POSIX_SPAWN_DUP2, self.out, 1),
                   (os.POSIX_SPAWN_DUP2, self.errors, 2)]
        self.child = os.posix_spawn(self.path, [self.path, *words], {}, file_actions=actions)
        signal.alarm(LIMIT)
        status = os.waitstatus_to_exitcode(os.waitpid(self.child, 0)[1])
        self.child = 0
        signal.alarm(0)
        return Answer(status, *(os.pread(file, os.fstat(file).st_size, 0) for file in (self.out, self.errors)))

    def run_with(self, words: list[str], rooms: dict[int, int], library: str | None) -> Answer:
        """Runs a command where streams, by their numbers, fail after so many bytes, and where there is no memory for
        the file `huge`, by the library that refuses."""
        streams = {number: tempfile.TemporaryFile() for number in (1, 2)}
        begins = {number: LONGEST - rooms[number] if number in rooms else 0 for number in streams}
        for number, stream in streams.items():
            os.lseek(stream.fileno(), begins[number], os.SEEK_SET)

        def limited():
            signal.signal(signal.SIGXFSZ, signal.SIG_IGN)
            resource.setrlimit(resource.RLIMIT_FSIZE, (LONGEST, LONGEST))

        how = {"stdin": subprocess.DEVNULL, "stdout": streams[1], "stderr": streams[2], "preexec_fn": limited}
        env = {"LD_PRELOAD": library, "REFUSED_FILE": HUGE}
        status = subprocess.run([self.path, *words], env=env, timeout=LIMIT, **how).returncode
        got = []
        for number, stream in streams.items():
            stream.seek(begins[number])
            got.append(stream.read())
        return Answer(status, *got)


@contextlib.contextmanager
def folder():
    """A folder of its own, in which the process works meanwhile."""
    at = tempfile.mkdtemp(prefix="asked-", dir="/dev/shm" if os.path.isdir("/dev/shm") else None)
    before = os.getcwd()
    os.chdir(at)
    try:
        yield
    finally:
        os.chdir(before)
        shutil.rmtree(at, ignore_errors=True)


def put(name: str, content: bytes):
    """Writes a file of the folder."""
    if os.path.dirname(name):
        os.makedirs(os.path.dirname(name), exist_ok=True)
    with open(name, "wb") as it:
        it.write(content)


def held(name: str) -> bytes | None:
    """What a file of the folder holds, if it is there."""
    try:
        with open(name, "rb") as it:
            return it.read()
    except OSError:
        return None


def names_for(files: list[bytes]) -> list[str]:
    """Puts class files into the folder, and answers their names, in order. Equal ones are one file. Where they are too
    many for a command line, a list of their names stands for them."""
    known: dict[bytes, str] = {}
    names = []
    for content in files:
        if content not in known:
            known[content] = f"{len(known)}.class"
            put(known[content], content)
        names.append(known[content])
    if len(names) <= 1000:
        return names
    list_name = f"{len(os.listdir('.'))}.list"
    put(list_name, "".join(f"{name}\n" for name in names).encode())
    return [f"@{list_name}"]
