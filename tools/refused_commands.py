"""Commands of `preinit` that are refused memory or threads, over files of the system: one growth after the other.

Such a run ends as one with ample memory, or with status 1 and `Memory` (or `Spawn`) as its last line. Then what went to
standard output is a beginning of what goes there otherwise, and so is what went to standard error before that line;
each file that it was to write holds what it held before, or all, and no other file is left. With `--verbose` a line of
words follows, and those of a build that is refused memory say what it was at: each of `WORKS` in one run at least.
"""
import concurrent.futures
import glob
import os
import re
import shutil

import refusals

GROWTHS, STARTS = refusals.GROWTHS, refusals.STARTS
REFUSALS = (b"preinit: Memory\n", b"preinit: Spawn\n")
# What follows where words are asked for, with what the build was at.
MEANING = re.compile(rb"(?P<refusal>preinit: Memory\n)the system gave no more memory(, while (?P<work>.*))?\n\Z")
WORKS = {b"reading class files", b"linking", b"initializing One", b"writing what was built"}
OLD = b"old"
# Classes of a real compiler, one whose `main` reaches what is left out, one that prints 7, and one whose initializer
# runs so long that `evaluator` goes on by courses.
CLASSES = "questions/java/init_enum_basic_*.class"
LEFT_OUT, SEVEN = "questions/java/lambda_Main.class", "crates/preinit/data/M.class"
# What can be done about the reasons that stand, and what a build came to: left out where memory is refused for it.
REASONS = (rb"Forced|Prints|Throws|Monitors|ForeignWrite|ForeignRead|Unsupported|Missing|Cycle|DependsOn|Raised|"
           rb"ForeignObject|Budget|Faulted")
TOTALS = re.compile(rb"(?:(?:" + REASONS + rb"): [^\n]*\n)*(?:classes \d[^\n]*\n)?\Z")
LONG = "questions/java/algo_crc_adler_Crc.class"
# Small classes that have all sorts of objects, and threads that print, raise and hold a monitor: on these
# `product_cases` makes its own calls.
SMALL = "crates/product_cases/data/assembled/memory/classes.txt"
RUN_TIME, BUILD_TIME, TWO = ["--initialize-at-run-time"], ["--initialize-at-build-time"], ["--entries", "Main,Work"]


def commands(classes, small):
    """Commands in the order in which they can be made: the words, the status, the files that each writes, in their
    order, and whether it starts threads. What threads print that run at once is the same for each. Those on the
    small classes take lists of patterns, of which one asks too much, and run threads of one entry and of two."""
    build = ["build", "--workers", "2", "--report", "app.txt", "--out", "app.img"]
    return [
        ([*build, *classes], 0, ["app.txt", "app.img"], True),
        (["build", "--out", "seven.img", "M.class"], 0, ["seven.img"], False),
        (["build", "--verbose", "--out", "verbose.img", *classes], 0, ["verbose.img"], False),
        (["report", "--verbose", *classes], 0, [], False),
        (["build", "--page", "m.html", "--report", "m.txt", "--out", "m.img", "M.class"], 0, ["m.html", "m.txt", "m.img"],
         False),
        (["report", os.path.basename(LONG)], 0, [], False),
        (["report", "--page", "small.html", *small], 0, ["small.html"], False),
        (["explain", "all", *classes], 0, [], False),
        (["audit", "--entries", "Main", "lambda_Main.class"], 6, [], False),
        (["lazy", "--entries", "Main", "--stacks", "--limit", "300", *classes], 5, [], False),
        (["inspect", "app.img"], 0, [], False),
        (["renew", "--out", "new.img", "app.img"], 0, ["new.img"], False),
        (["run", "--entries", "M,M,M", "seven.img"], 0, [], True),
        (["run", "--entries", "Main", "--journal", "run.journal", "app.img"], 0, ["run.journal"], False),
        (["run", "--turns", "--entries", "Main", "--journal", "turns.journal", "app.img"], 0, ["turns.journal"], False),
        (["replay", "--entries", "Main", "--journal", "run.journal", "app.img"], 0, [], False),
        (["report", *RUN_TIME, "E,Box", *BUILD_TIME, "W,I,Point", *small], 0, [], False),
        (["report", *BUILD_TIME, "Log", *small], 1, [], False),
        (["build", "--workers", "3", *RUN_TIME, "Uses", "--out", "small.img", *small], 0, ["small.img"], True),
        (["lazy", "--entries", "Main,Work,Main", *small], 6, [], False),
        (["run", "--entries", "Work,Work,Work", "small.img"], 0, [], True),
        (["run", "--turns", *TWO, "--journal", "two.journal", "small.img"], 6, ["two.journal"], False),
        (["replay", *TWO, "--journal", "two.journal", "small.img"], 6, [], False),
        (["replay", *TWO, "--at", "60", "--journal", "two.journal", "small.img"], 5, [], False),
        (["lazy", "--verbose", "--entries", "Main,Work,Main", *small], 6, [], False),
        (["audit", "--verbose", "--entries", "Main", "lambda_Main.class"], 6, [], False),
    ]


def held(folder, name):
    with open(f"{folder}/{name}", "rb") as it:
        return it.read()


def run(program, words, targets, **refused):
    """Runs a command where the files that it writes are old ones. Answers how it ended, those files and the names of
    all, and what is told."""
    for name in targets:
        with open(f"{program.data}/{name}", "wb") as it:
            it.write(OLD)
    status, out, errors, told = program.ended(*words, WHOLE_RUN=1, **refused)
    # What a build came to has its time in it, and is not told where memory was refused for it.
    errors = TOTALS.sub(b"", errors)
    files = [held(program.data, name) for name in targets]
    return (status, out, errors, files, sorted(os.listdir(program.data))), told


def without_words(ended, works):
    """How a run ended without the words that were asked for, which lack only where none were told before: these are
    refusals of memory for the words of the command itself. What they say the build was at is put to what others did."""
    status, out, errors, *rest = ended
    found = MEANING.search(errors)
    if not found:
        return (status, out, errors + (b"and no words" if works else b""), *rest)
    works.add(found["work"])
    return (status, out, errors[: found.end("refusal")], *rest)


def wrong_with(ended, wanted, was_refused):
    """What is wrong with a run in which something was refused, if anything is."""
    status, out, errors, files, names = ended
    last = next((it for it in REFUSALS if errors.endswith(it)), None)
    if ended == wanted:
        return None
    if status != 1 or not last or not was_refused:
        return f"it ended with status {status} and {errors!r}"
    if not wanted[1].startswith(out) or not wanted[2].startswith(errors[: len(errors) - len(last)]):
        return f"it wrote {out!r} and {errors!r}"
    if names != wanted[4]:
        return f"it left {names}"
    # Those that are whole are the first.
    count = sum(file != OLD for file in files)
    is_well = files == wanted[3][:count] + [OLD] * (len(files) - count)
    return None if is_well else f"its files hold {[len(file) for file in files]} bytes"


def refuse_each(program, words, status, targets, what):
    """Refuses one growth or start of a command after the other. Answers how many, and what is wrong."""
    wanted, told = run(program, words, targets)
    if wanted[0] != status or OLD in wanted[3] or not told or told[0].left:
        return 0, f"with ample memory: status {wanted[0]} and {wanted[2]!r}"
    number, most, is_verbose, works = 0, getattr(told[0], what), "--verbose" in words, set()
    while True:
        number += 1
        ended, told = run(program, words, targets, **{refusals.REFUSED[what]: number})
        if is_verbose and ended[0] != status:
            ended = without_words(ended, works)
        wrong = wrong_with(ended, wanted, told and told[0].refused) or (None if told else "nothing was told")
        if wrong or told[0].left:
            return number, f"number {number} refused: {wrong or 'threads were left running'}"
        most = max(most, getattr(told[0], what))
        if not told[0].refused and number > most:
            untold = WORKS - works if is_verbose and words[0] in ("build", "report") else None
            return number - 1, f"it never tells {untold}" if untold else None if number > 1 else "it asks for none"


def check(path, library, root, room, say):
    """Tries each command of the program at a path, over classes of the repository. Answers how many passed and how many
    failed."""
    folder = f"{room}/commands"
    os.mkdir(folder)
    for file in glob.glob(f"{root}/{CLASSES}"):
        shutil.copy(file, folder)
    with open(f"{root}/{SMALL}", encoding="utf-8") as it:
        small = {f"small{place:02}.class": bytes.fromhex(digits) for place, digits in enumerate(it.read().split())}
    made = commands(sorted(os.listdir(folder)), list(small))
    for name, content in small.items():
        with open(f"{folder}/{name}", "wb") as it:
            it.write(content)
    for file in (LEFT_OUT, SEVEN, LONG):
        shutil.copy(f"{root}/{file}", folder)
    tried = []
    for place, (words, status, targets, starts) in enumerate(made):
        refusals.Program(path, folder, library).ended(*words)
        for what in (GROWTHS, STARTS) if starts else (GROWTHS,):
            own = f"{room}/{place}-{what}"
            shutil.copytree(folder, own)
            tried.append((refusals.Program(path, own, library), words, status, targets, what))
    passed = failed = 0
    with concurrent.futures.ThreadPoolExecutor(os.cpu_count()) as pool:
        for (_, words, *_, what), (count, wrong) in zip(tried, pool.map(lambda it: refuse_each(*it), tried)):
            say(f"{' '.join(words[:4])}: {what}: {wrong or f'each of {count} refused, and all is well'}")
            passed, failed = passed + (not wrong), failed + bool(wrong)
    return passed, failed
