"""Calls that are refused memory or threads: the program `product_cases` makes them, by its words that begin with
`memory `, and this refuses one after the other.

A line of that program is the name of a call, `: ` and what it answered. Each call is made twice over what it is lent.
With ample memory the lines are those of its file `stdout`. Then, for each of the growths that the first call asks for,
the program is run again with that one refused (`tools/refusing.c`): the first line has to be the same, or to have
`Memory` in the place of the answer, or `Spawn` of `run_threads`, and all others have to be the same. So it is with the
starts of threads. No thread may be left running when a call has answered.

The words `memory feed ..` have inputs fed to a reader, and what it holds is measured.
"""
import concurrent.futures
import dataclasses
import os
import re
import subprocess

# What the words of calls begin with, and of those that feed inputs.
WORDS, FEED = "memory ", "memory feed "
GROWTHS, STARTS = "growths", "starts"
REFUSED = {GROWTHS: "REFUSED_GROWTH", STARTS: "REFUSED_START"}
# This call answers a word of its own where a thread is not started, which takes memory, too.
SPAWNING = "run_threads"
# The words that end so start threads, and no others do.
STARTING = ("settle_all", "build_program", "run_threads", "run_threads_at_a_gate", "run_threads_into_sinks_that_fail")
# A reader may hold so many bytes for each byte of its input, and so many beyond.
BYTES_A_BYTE, BYTES = 40, 1 << 20
LONGEST = re.compile(r"at most (\d+) bytes")
# A run that takes so many seconds hangs.
LIMIT = 60


def refusing(at, kit):
    """Makes the library that refuses, in the folder `at`, by the compiler of the kit."""
    source = f"{os.path.dirname(os.path.realpath(__file__))}/refusing.c"
    flags = ["--target=x86_64-unknown-linux-gnu", "-O2", "-fPIC", "-fno-builtin"]
    subprocess.run([f"{kit}/toolchain/bin/clang", *flags, "-c", source, "-o", f"{at}/refusing.o"], check=True)
    library = f"{at}/refusing.so"
    subprocess.run([f"{kit}/toolchain/bin/ld.lld", "-shared", "-o", library, f"{at}/refusing.o"], check=True)
    return library


@dataclasses.dataclass
class Told:
    """What the library tells of one call."""

    growths: int
    starts: int
    refused: int
    left: int
    most: int


@dataclasses.dataclass
class Program:
    """The program, the folder of its data, and the library."""

    path: str
    data: str
    library: str

    def run(self, *words, **refused):
        """Runs it. Answers its status (none where it hangs), its lines, and what is told of each call."""
        status, out, errors, told = self.ended(*words, **refused)
        return status, (out + errors).decode(errors="replace").splitlines(), told

    def ended(self, *words, **refused):
        """The same, with what it wrote to each stream."""
        told = os.memfd_create("told")
        try:
            env = {"LD_PRELOAD": self.library, "TOLD": str(told), **{it: str(n) for it, n in refused.items()}}
            how = {"cwd": self.data, "env": env, "pass_fds": [told], "stdin": subprocess.DEVNULL, "timeout": LIMIT}
            ran = subprocess.run([self.path, *words], capture_output=True, **how)
            text = os.pread(told, 1 << 24, 0).decode()
        except subprocess.TimeoutExpired:
            return None, b"", b"", []
        finally:
            os.close(told)
        return ran.returncode, ran.stdout, ran.stderr, [Told(*map(int, line.split())) for line in text.splitlines()]


def wrong_with(ran, wanted, words):
    """What is wrong with a run, if anything is. The words are other answers that the first call may give where
    something was refused to it."""
    status, lines, told = ran
    if status is None:
        return f"it had not ended after {LIMIT} seconds"
    if status or not told:
        return f"it ended with status {status}"
    call, _, answer = lines[0].partition(": ")
    may_differ = told[0].refused and call == wanted[0].partition(": ")[0] and answer in words
    if lines[0] != wanted[0] and not may_differ:
        return f"it answered {answer!r}"
    if lines[1:] != wanted[1:]:
        return "what came after the call differs"
    left = max(it.left for it in told)
    return f"{left} threads were left running" if left else None


def refuse_each(program, word, what):
    """Refuses one growth or start of the first call of a word after the other. Answers how many, and what is wrong."""
    ran = program.run(word)
    wanted, told = ran[1:]
    wrong = wrong_with(ran, wanted, ())
    if not wrong and wanted[0].endswith((": Memory", ": Spawn")):
        wrong = f"it answered {wanted[0]!r}"
    if wrong:
        return 0, f"with ample memory: {wrong}"
    words = ["Memory"]
    if wanted[0].partition(": ")[0] == SPAWNING:
        words.append("Spawn")
    # How many there are may depend on which thread comes first.
    number, most = 0, getattr(told[0], what)
    while True:
        number += 1
        ran = program.run(word, REFUSED_CALL=1, **{REFUSED[what]: number})
        wrong = wrong_with(ran, wanted, words)
        if wrong:
            return number, f"number {number} refused: {wrong}"
        most = max(most, getattr(ran[2][0], what))
        if not ran[2][0].refused and number > most:
            return number - 1, None


def fed(program, word):
    """Feeds inputs. Answers how many bytes were held at most, and what is wrong."""
    status, lines, told = program.run(word)
    if status is None:
        return 0, f"it had not ended after {LIMIT} seconds"
    if status or len(told) != len(lines):
        return 0, f"it ended with status {status}"
    for line, call in zip(lines, told):
        if not 0 < call.most <= BYTES_A_BYTE * int(LONGEST.search(line)[1]) + BYTES:
            return call.most, f"{line.partition(':')[0]}: {call.most} bytes were held"
    return max(call.most for call in told), None


def tried(program, word):
    """Tries a word. Answers lines, each with whether all is well."""
    if word.startswith(FEED):
        most, wrong = fed(program, word)
        return [(wrong is None, f"{word}: {wrong or f'at most {most} bytes were held'}")]
    answers = []
    for what in (GROWTHS, STARTS) if word.rpartition(" ")[2] in STARTING else (GROWTHS,):
        count, wrong = refuse_each(program, word, what)
        wrong = wrong or (None if count else "it asks for none")
        answers.append((wrong is None, f"{word}: {what}: {wrong or f'each of {count} refused, and all is well'}"))
    return answers


def check(program, words, say):
    """Tries each word that makes calls. Answers how many passed and how many failed."""
    passed = failed = 0
    words = [word for word in words if word.startswith(WORDS)]
    with concurrent.futures.ThreadPoolExecutor(os.cpu_count()) as pool:
        for answers in pool.map(lambda word: tried(program, word), words):
            for is_well, line in answers:
                say(line)
                passed, failed = passed + is_well, failed + (not is_well)
    return passed, failed
