"""Questions of runs: `runs`, from class files, and `images/runs.txt`, from an image.

Where the given classes have a `{}`, what is asked stands there, and the answer is that of `run T 10000`. The order of
the files makes no difference, so both ends are tried. A fault of reading, of linking or of entries is an answer too.
Asked are

- `run CLASS LIMIT`, a run by turns, as the number of its steps, how the thread stands, and each print;
- `step CLASS COUNT`, so many steps, what the last one gave and what is seen then, and what a run by turns does after
  it;
- `start 'CLASS' ..`, whether a run may start with these entries (`65*'M'` is 65 of them);
- `turns 'CLASS' ..`, a run by turns of them, as how many steps each thread makes, how it stands and what it prints;
- `schedule 'CLASS' .. | THREAD STEPS ..`, the same after the steps of a schedule; a thread that has no step is told.

Steps one by one, and which thread prints what, are those of replays from an image with all classes initialized at run
time, which starts as the class files do.
"""
import re

import case_files
from asked_program import Asked, names_for
from case_files import Row
from seen_runs import (FIRST_REFUSAL, Program, Replays, endings, entry, image_of, is_text, refusal_otherwise,
                       run_otherwise, told)

STEPPED = re.compile(r"(Moved|Waiting|Ended) (\S+)(.*), then (\d+) (.*)", re.DOTALL)
# Journals of more lines are not replayed up to each of their steps.
MOST_LINES = 400


def ask(asked: Asked, row: Row) -> str | None:
    """What is found for a question of a run of class files, where it is not as it is wanted."""
    given, question = row.given, row.asked
    if "{}" in given:
        given, question = case_files.filled(given, question), "run T 10000"
    program = Program.of(case_files.lines_given(given))
    for files in (program.files, program.files[::-1])[:len(program.files) or 1]:
        found = of_files(asked, program, files, question, row.wanted)
        if found is not None:
            return found
    return None


def of_files(asked: Asked, program: Program, files: list[bytes], question: str, wanted: str) -> str | None:
    """The same, with the files in this order."""
    verb, _, about = question.partition(" ")
    if verb == "run":
        name, _, limit = about.rpartition(" ")
        words = ["lazy", "--entries", entry(name), *names_for(files)]
        return run_otherwise(asked, program, words, wanted, int(limit))
    if verb == "step":
        return stepped(asked, program, files, about, wanted)
    about, _, schedule = about.partition(" | ")
    entries = entries_of(about)
    lazy = asked.run("lazy", "--limit", "1000000", f"--entries={entries}", *names_for(files))
    if lazy.status == FIRST_REFUSAL:
        return refusal_otherwise(lazy, wanted)
    if verb == "start":
        return None if wanted == "started" else told(lazy)
    image_of(asked, program, files, True)
    replays = Replays(asked, program, entries, "image")
    return in_turns(replays, wanted, lazy) if verb == "turns" else scheduled(replays, schedule, wanted)


def entries_of(about: str) -> str:
    """The entries of a question, as a command line has them."""
    found = []
    for word in about.split():
        times, star, name = word.rpartition("*")
        found += [entry(name.strip("'"))] * (int(times) if star else 1)
    return ",".join(found)


def of_image(asked: Asked, row: Row) -> str | None:
    """What is found for a question of a run from an image, where it is not as it is wanted."""
    program = Program.of(case_files.lines_given(row.given))
    image_of(asked, program, program.files, False)
    verb, _, about = row.asked.partition(" ")
    about, _, schedule = about.partition(" | ")
    replays = Replays(asked, program, entries_of(about), "image")
    start = asked.run("run", "--turns", f"--entries={replays.entries}", "image")
    if start.status == FIRST_REFUSAL:
        return refusal_otherwise(start, row.wanted)
    return in_turns(replays, row.wanted, start) if verb == "turns" else scheduled(replays, schedule, row.wanted)


def in_turns(replays: Replays, wanted: str, other) -> str | None:
    """A run by turns, which has to show what another one showed of the same."""
    answer, journal = replays.turns()
    if answer != other:
        return f"{told(other)}, and from an image {told(answer)}"
    threads = len(endings(answer, replays.program.classes))
    counts = [sum(count for thread, count in journal if thread == number) for number in range(threads)]
    found = replays.sight(journal, " ".join(map(str, counts)), len(journal) <= MOST_LINES)
    return None if case_files.written(found) == wanted else found


def scheduled(replays: Replays, schedule: str, wanted: str) -> str | None:
    numbers = list(map(int, schedule.split()))
    found = case_files.written(replays.scheduled(list(zip(numbers[::2], numbers[1::2]))))
    return None if found == wanted else found


def stepped(asked: Asked, program: Program, files: list[bytes], about: str, wanted: str) -> str | None:
    """Single steps of one thread, and a run by turns after them."""
    name, _, count = about.rpartition(" ")
    match = STEPPED.fullmatch(wanted)
    if not match:
        return "no question"
    turn, stands, prints, more, after = match.groups()
    image_of(asked, program, files, True)
    replays = Replays(asked, program, entry(name), "image")
    replayed = replays.replay([(0, int(count))])
    is_moved = replayed.status != FIRST_REFUSAL
    if is_moved != (turn == "Moved"):
        return f"{count} steps: {told(replayed)}"
    words = ["lazy", "--entries", entry(name), *names_for(files)]
    if not is_moved:
        found = ended(asked, program, [*words, "--limit", count], stands, prints)
        return found or (None if (more, after) == ("0", stands + prints) else "another sight after it")
    if endings(replayed, program.classes) != [stands] or not is_text(replayed.out, prints):
        return told(replayed)
    return run_otherwise(asked, program, words, f"{int(count) + int(more)} {after}", 10_000 + int(count))


def ended(asked: Asked, program: Program, words: list[str], stands: str, prints: str) -> str | None:
    """How a run stands that has ended before."""
    answer = asked.run(*words)
    is_well = endings(answer, program.classes) == [stands] and is_text(answer.out, prints)
    return None if is_well else told(answer)
