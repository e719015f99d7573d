"""Runs of class files, by `lazy`, and from an image, by `run` and `replay`, as the questions of runs tell them.

A question tells how a thread stands (`Returned`, `Going`, `Uncaught(BuiltIn(Error))`, `Faulted(Missing)`), and each
print apart. A command shows the text and a line for each thread. How many steps a run makes shows by its limit: with
so many it ends, and with one fewer it does not. Which thread printed what shows where a journal is replayed up to each
of its steps.
"""
import re
from dataclasses import dataclass

import class_text
from case_files import written
from asked_program import Answer, Asked, held, names_for, put

LINE = re.compile(r"thread (\d+) (returned|going|uncaught (.*)|faulted (\w+))")
AT_LIMIT, STUCK, ENDED = 5, 4, 6
FIRST_REFUSAL = 1


@dataclass
class Program:
    """Class files as the commands name them: their names, and the names of the classes in the order of their
    numbers."""

    files: list[bytes]
    classes: list[str]

    @staticmethod
    def of(lines: tuple[str, ...]) -> "Program":
        return Program.of_files([class_text.file_of(line) for line in lines if line.strip()])

    @staticmethod
    def of_files(files: list[bytes]) -> "Program":
        return Program(files, [text_of(name) for name in sorted(map(name_in, files))])


# How many bytes an entry of the constant pool has after its tag (JVMS 4.4).
LENGTHS = {3: 4, 4: 4, 5: 8, 6: 8, 7: 2, 8: 2, 9: 4, 10: 4, 11: 4, 12: 4, 15: 3, 16: 2, 18: 4}


def name_in(file: bytes) -> bytes:
    """The name of the class of a class file, as it is spelled there; nothing where the file is none."""
    try:
        pool, at, index = {}, 10, 1
        while index < int.from_bytes(file[8:10], "big"):
            tag, content = file[at], at + 1
            length = LENGTHS[tag] if tag != 1 else 2 + int.from_bytes(file[content:content + 2], "big")
            pool[index] = file[content + 2 if tag == 1 else content:content + length]
            at, index = content + length, index + (2 if tag in (5, 6) else 1)
        return pool[int.from_bytes(pool[int.from_bytes(file[at + 2:at + 4], "big")], "big")]
    except (KeyError, IndexError):
        return b""


def text_of(name: bytes) -> str:
    """The text of a name that a class file spells: of pairs of surrogates one character, and `?` of others."""
    found = name.replace(b"\xC0\x80", b"\0").decode("utf-8", "surrogatepass")
    paired = found.encode("utf-16-be", "surrogatepass").decode("utf-16-be", "replace")
    return paired.replace("\uFFFD", "?")


def entry(name: str) -> str:
    """An entry's name as a command line has it."""
    return name.replace("/", ".")


def ending(kind: str, thrown: str | None, fault: str | None, classes: list[str]) -> str:
    """How a thread stands, as questions tell it."""
    if thrown is None:
        return f"Faulted({fault})" if fault else kind.capitalize()
    if thrown in classes:
        return f"Uncaught(Given({classes.index(thrown)}))"
    return f"Uncaught(BuiltIn({thrown.rpartition('/')[2]}))"


def endings(answer: Answer, classes: list[str]) -> list[str]:
    """How each thread stands."""
    found = [LINE.fullmatch(line) for line in answer.lines()]
    return [ending(match[2], match[3], match[4], classes) for match in found if match]


def is_text(shown: bytes, prints: str) -> bool:
    """Whether a text is that of prints, which are told with a space before each."""
    text, at = written(shown.decode(errors="replace")), 0
    for character in prints:
        if at < len(text) and text[at] == character:
            at += 1
        elif character != " ":
            return False
    return at == len(text)


WANTED = re.compile(r"(\d+) (Returned|Going|Uncaught\(.*?\)\)|Faulted\(\w+\))(.*)", re.DOTALL)


def run_otherwise(asked: Asked, program: Program, words: list[str], wanted: str, limit: int) -> str | None:
    """What a run of one thread shows where it is not as it is wanted. The words are those of a command that runs, but
    for its limit and files."""
    match = WANTED.fullmatch(wanted)
    if not match:
        return refusal_otherwise(asked.run(*words), wanted)
    steps, stands, prints = int(match[1]), match[2], match[3]
    is_stuck, prints = prints.endswith(" stuck"), prints.removesuffix(" stuck")
    least = max(steps, 1)
    answer = asked.run(*words, "--limit", str(least))
    status = STUCK if is_stuck else {"Returned": 0, "Going": AT_LIMIT}.get(stands, ENDED)
    if answer.status != status or endings(answer, program.classes) != [stands] or not is_text(answer.out, prints):
        return told(answer)
    if stands == "Going" and not is_stuck and steps != limit:
        return f"a run that ends at {limit} steps"
    if steps > 1:
        before = asked.run(*words, "--limit", str(steps - 1))
        if before.status != AT_LIMIT or endings(before, program.classes) != ["Going"]:
            return f"after {steps - 1} steps: {told(before)}"
    return None


def told(answer: Answer) -> str:
    """An answer as one line."""
    return f"{answer.status} {answer.out!r} {answer.errors!r}"


def refusal_otherwise(answer: Answer, wanted: str) -> str | None:
    """What a command answers that is not refused for a class file, the linking or an entry, by a fault."""
    fault = answer.last_error()
    kind, _, rest = fault.partition(" ")
    found = written(re.sub(r"^\d+ ", "", rest) if kind == "Class" else rest)
    is_refused = answer.status == FIRST_REFUSAL and kind in ("Class", "Link", "Entry") and found == wanted
    return None if is_refused and not answer.out else told(answer)


class Replays:
    """An image, and replays from it."""

    def __init__(self, asked: Asked, program: Program, entries: str, image: str):
        self.asked, self.program, self.entries, self.image = asked, program, entries, image

    def replay(self, steps: list[tuple[int, int]]) -> Answer:
        """Replays a journal: threads, and how many steps each makes."""
        put("journal", "".join(f"{thread} {count}\n" for thread, count in steps if count).encode())
        return self.asked.run("replay", "--entries", self.entries, "--journal", "journal", self.image)

    def turns(self) -> tuple[Answer, list[tuple[int, int]]]:
        """A run by turns, and its journal."""
        answer = self.asked.run("run", "--turns", "--entries", self.entries, "--journal", "turns", self.image)
        lines = (held("turns") or b"").decode().split()
        return answer, [(int(thread), int(count)) for thread, count in zip(lines[::2], lines[1::2])]

    def sight(self, steps: list[tuple[int, int]], before: str, is_telling: bool = True) -> str:
        """How each thread stands after these steps, each print with its thread, and `stuck` where none has a step."""
        answer = self.replay(steps)
        stands = endings(answer, self.program.classes)
        words = [before] if before else []
        words += [f"{thread} {it}" for thread, it in enumerate(stands)]
        if is_telling:
            words += self.prints(steps, answer.out)
        moves = [self.has_step(steps, thread) for thread in range(len(stands))]
        return " ".join(words) + (" stuck" if "Going" in stands and not any(moves) else "")

    def has_step(self, steps: list[tuple[int, int]], thread: int) -> bool:
        return self.replay([*steps, (thread, 1)]).status != FIRST_REFUSAL

    def prints(self, steps: list[tuple[int, int]], whole: bytes) -> list[str]:
        """Each print, with its thread before it. Only where something was printed is it looked for."""
        found, done, shown = [], [], b""
        for thread, count in steps if whole else []:
            after = self.replay([*done, (thread, count)]).out
            if after != shown:
                for number in range(1, count + 1):
                    text = self.replay([*done, (thread, number)]).out
                    if text != shown:
                        found.append(f"{thread}:{text[len(shown):].decode(errors='replace')}")
                        shown = text
            done.append((thread, count))
        return found

    def scheduled(self, schedule: list[tuple[int, int]]) -> str:
        """The sight after a schedule. A thread that has no step before it made so many is told."""
        steps, failed = [], []
        for thread, count in schedule:
            if self.replay([*steps, (thread, count)]).status != FIRST_REFUSAL:
                steps.append((thread, count))
                continue
            made = next(n for n in range(count - 1, -1, -1)
                        if self.replay([*steps, (thread, n)]).status != FIRST_REFUSAL)
            if made:
                steps.append((thread, made))
            stands = endings(self.replay(steps), self.program.classes)[thread]
            failed.append(f"{thread} {'Waiting' if stands == 'Going' else 'Ended'},")
        return self.sight(steps, " ".join(failed))


def image_of(asked: Asked, program: Program, files: list[bytes], is_lazy: bool) -> Answer:
    """Builds the file `image`: where it is lazy, with all classes initialized at run time."""
    words = ["build", "--out", "image", *names_for(files)]
    if is_lazy and program.classes:
        words[1:1] = ["--initialize-at-run-time=" + ",".join(map(entry, program.classes))]
    return asked.run(*words)
