"""What `run` and `prove` have in common: which files the program is made of, and where what is made of them lies."""
import contextlib
import fcntl
import hashlib
import importlib.machinery
import importlib.util
import os
import shutil
import signal
import subprocess
import sys
import tempfile
import time

ROOT = os.path.dirname(os.path.dirname(os.path.realpath(__file__)))
OUT = f"{ROOT}/out"
NAME = "preinit"
# What the C library's heap is asked for, where a user asks for nothing: huge pages, and room for many at once. A start
# of thousands of classes has a tenth of the page faults then, and some megabytes more are held.
HUGE_PAGES = "glibc.malloc.hugetlb=1:glibc.malloc.top_pad=67108864"
# Exit statuses, above those of the program: nothing was built, and there is no rt.
NOT_BUILT, NO_RT = 126, 127


def say(text):
    """Writes a line on standard error, at once."""
    print(f"{os.path.basename(sys.argv[0])}: {text}", file=sys.stderr, flush=True)


def kit():
    """The folder of the kit that `rt` is of."""
    return os.path.dirname(subprocess.run(["rt", "doc"], capture_output=True, text=True, check=True).stdout.strip())


def rt():
    """The kit's own script as a module."""
    loader = importlib.machinery.SourceFileLoader("rt_module", f"{kit()}/bin/rt")
    made = importlib.util.module_from_spec(importlib.util.spec_from_loader("rt_module", loader))
    loader.exec_module(made)
    return made


def listed(root):
    """The lines of crates.txt for the program and the crates that it stands on, by name."""
    with open(f"{root}/crates.txt", encoding="utf-8") as it:
        lines = [line.partition("#")[0].strip() for line in it]
    every = {line.partition(":")[0].split()[0]: line for line in lines if line}
    found, left = set(), [NAME]
    while left:
        name = left.pop()
        if name in every and name not in found:
            found.add(name)
            left += every[name].partition(":")[2].split()
    return {name: line for name, line in every.items() if name in found}


def files(root):
    """The files of those crates but what is built of them and their wrong bodies, which no proof reads."""
    found = ["HANDLES"]
    for name in listed(root):
        top = f"{root}/crates/{name}"
        for at, folders, names in os.walk(top):
            if at == top:
                folders[:] = [it for it in folders if it not in ("out", "must-fail")]
            found += [f"{at[len(root) + 1:]}/{it}" for it in names]
    return sorted(found)


def sum_of(root):
    """A checksum of their names and texts: one that is changed, added or deleted gives another."""
    total = hashlib.sha256("\n".join(listed(root).values()).encode())
    for path in files(root):
        with open(f"{root}/{path}", "rb") as it:
            total.update(b"\n" + os.fsencode(path) + b" " + hashlib.sha256(it.read()).digest())
    return total.hexdigest()[:16]


def put(data, to, mode):
    """Writes a file, whole or not at all."""
    part = f"{to}.{os.getpid()}.new"
    try:
        with open(part, "wb") as it:
            it.write(data)
        os.chmod(part, mode)
        os.replace(part, to)
    finally:
        with contextlib.suppress(FileNotFoundError):
            os.remove(part)


def copied(to):
    """Copies them to a folder that is a repository of its own, so that edits meanwhile change nothing there."""
    for path in files(ROOT):
        os.makedirs(os.path.dirname(f"{to}/{path}"), exist_ok=True)
        shutil.copyfile(f"{ROOT}/{path}", f"{to}/{path}")
    with open(f"{to}/crates.txt", "w", encoding="utf-8") as it:
        it.writelines(f"{line}\n" for line in listed(ROOT).values())
    os.mkdir(f"{to}/.git")


def place(kind, total):
    """Where the program of this kind, proved or unproved, lies that is made of these sources."""
    return f"{OUT}/{NAME}-{kind}-{total}"


def can_install():
    return os.access(OUT if os.path.isdir(OUT) else ROOT, os.W_OK)


def install(made, kind, total):
    """Puts a program in its place, and removes those that it replaces."""
    to = place(kind, total)
    os.makedirs(OUT, exist_ok=True)
    with open(made, "rb") as it:
        put(it.read(), to, 0o755)
    replaced = [f"{OUT}/{it}" for it in os.listdir(OUT) if it.startswith(f"{NAME}-{kind}-")]
    for it in [*replaced, *[place("unproved", total)] * (kind == "proved")]:
        if it != to:
            with contextlib.suppress(FileNotFoundError):
                os.remove(it)


def end_by_signals():
    """Has Ctrl-C and its like end the script by SystemExit, once, so that it removes its files."""
    taken = [it for it in (signal.SIGINT, signal.SIGTERM, signal.SIGHUP) if signal.getsignal(it) != signal.SIG_IGN]

    def end(number, _):
        for it in taken:
            signal.signal(it, signal.SIG_IGN)
        sys.exit(128 + number)

    for it in taken:
        signal.signal(it, end)


@contextlib.contextmanager
def room():
    """A folder with a folder tmp, both of which are gone in the end."""
    at = tempfile.mkdtemp(prefix=f"{NAME}-")
    try:
        os.mkdir(f"{at}/tmp")
        # rt runs what it proved as nobody.
        for it in (at, f"{at}/tmp"):
            os.chmod(it, 0o711)
        yield at
    finally:
        # What was just killed may write another file.
        for _ in range(100):
            shutil.rmtree(at, ignore_errors=True)
            if not os.path.lexists(at):
                break
            time.sleep(0.1)


@contextlib.contextmanager
def started(words, at, **how):
    """Starts a command whose temporary files lie in the room `at`, out of Ctrl-C's reach. It ends with this script."""
    how["env"] = {**os.environ, "TMPDIR": f"{at}/tmp"}
    child = subprocess.Popen(words, stdin=subprocess.DEVNULL, start_new_session=True, **how)
    try:
        yield child
    finally:
        child.terminate()
        try:
            child.wait(20)
        except subprocess.TimeoutExpired:
            child.kill()


@contextlib.contextmanager
def in_turn(script, tell):
    """Waits while another run of this script does the same in this checkout. First it tells whether it has to."""
    with open(script, encoding="utf-8") as held:
        try:
            fcntl.flock(held, fcntl.LOCK_EX | fcntl.LOCK_NB)
            tell(False)
        except BlockingIOError:
            tell(True)
            fcntl.flock(held, fcntl.LOCK_EX)
        yield


def end_without_rt():
    """Ends where there is no rt."""
    if not shutil.which("rt"):
        say("nothing is built yet, and there is no rt on the PATH to build it by: it comes with rattle-kit-13b or 13f")
        sys.exit(NO_RT)


def end_read_only():
    """Ends where nothing can be built."""
    if not can_install():
        say(f"nothing is built of these sources, and {OUT} cannot be written: build in a copy")
        sys.exit(NOT_BUILT)
