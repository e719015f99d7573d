"""Questions of classes that builds answer: `linking`, `options`, `verdicts` and `uses`, by `report` and `explain`.
Given are classes; a fault of reading, of linking or of a list is an answer too.

- `linking`: `link`, whether they make a program; `numbers`, the names of all, by their numbers.
- `options`: `force LIST`, the classes that a list for run time forces; `demand LIST`, those that one for build time
  demands, `demand LIST but OTHER` where the other list forces some. A class is demanded where a build is refused when
  its initializer prints.
- `verdicts`: `judge`, the verdict on each class, `judge LIST` where the list forces some.
- `uses`: `marks CLASS`, what the code that may run when a class is initialized is marked for, each with a method, as
  its class and its place there, and a pc.
"""
import re

import case_files
import class_text
from asked_program import Answer, Asked, names_for
from case_files import Row
from seen_runs import Program, entry, told

REPORTED = re.compile(r"(.*) (?:build (\d+) \d+|run (.*))")
FORCED, MARKS = "Forced", "Prints|Throws|Monitors|ForeignWrite|ForeignRead|Unsupported|Missing"
RUN_TIME, BUILD_TIME = "--initialize-at-run-time=", "--initialize-at-build-time="
PRINTS = "initializer 9 9 out iconst_1 println"


def classes_of(row: Row) -> tuple[str, ...]:
    return tuple(line for line in case_files.lines_given(row.given) if line.strip())


def refusal(answer: Answer) -> str:
    """The fault of a refusal, without the part of the command that it is of."""
    kind, _, rest = answer.last_error().partition(" ")
    return case_files.written(re.sub(r"^\d+ ", "", rest) if kind == "Class" else rest)


def reported(answer: Answer) -> dict[str, str]:
    """What a report tells of each class: its wave, or why it is initialized at run time."""
    found = [REPORTED.fullmatch(line) for line in answer.out.decode(errors="replace").splitlines()]
    return {case_files.written(match[1]): match[3] or f"Wave {match[2]}" for match in found}


def of_linking(asked: Asked, row: Row) -> str | None:
    files = [class_text.file_of(line) for line in classes_of(row)]
    for order in (files, files[::-1]):
        answer = asked.run("report", *names_for(order))
        if answer.status:
            found = refusal(answer)
        else:
            found = "linked" if row.asked == "link" else " ".join(reported(answer)) or "nothing"
        if found != row.wanted:
            return found if answer.status in (0, 1) else told(answer)
    return None


def of_options(asked: Asked, row: Row) -> str | None:
    lines = classes_of(row)
    files = [class_text.file_of(line) for line in lines]
    verb, _, lists = row.asked.partition(" ")
    if verb == "force":
        answer = asked.run("report", RUN_TIME + lists, *names_for(files))
        forced = [name for name, why in reported(answer).items() if why == FORCED]
        found = refusal(answer) if answer.status else " ".join(forced) or "nothing"
        return None if found == row.wanted else found
    built, but, other = lists.partition(" but ")
    words = [BUILD_TIME + built] + ([RUN_TIME + other] if but else [])
    answer = asked.run("report", *words, *names_for(files))
    if answer.status:
        return None if refusal(answer) == row.wanted else told(answer)
    found = " ".join(demanded(asked, lines, files, words)) or "nothing"
    return None if found == row.wanted else found


def demanded(asked: Asked, lines: tuple[str, ...], files: list[bytes], words: list[str]) -> list[str]:
    """The classes without which a build is refused, by the words that ask for it, in the order of their names."""
    found = []
    for place, line in enumerate(lines):
        others = [*files[:place], class_text.file_of(printing(line)), *files[place + 1:]]
        answer = asked.run("report", *words, *names_for(others))
        if answer.status and refusal(answer).startswith("Demanded "):
            found.append(files[place])
    return [case_files.written(name) for name in Program.of_files(found).classes]


def printing(line: str) -> str:
    """The text of a class without an initializer, with one that prints."""
    return f"{line}{', ' if ': ' in line else ': '}{PRINTS} return"


def of_verdicts(asked: Asked, row: Row) -> str | None:
    files = [class_text.file_of(line) for line in classes_of(row)]
    _, _, forced = row.asked.partition(" ")
    words = [RUN_TIME + forced] if forced else []
    answer = asked.run("report", *words, *names_for(files))
    verdicts = ", ".join(f"{name} {verdict}" for name, verdict in reported(answer).items())
    found = refusal(answer) if answer.status else verdicts or "nothing"
    return None if found == row.wanted else found


def of_uses(asked: Asked, row: Row) -> str | None:
    lines = classes_of(row)
    files = [class_text.file_of(line) for line in lines]
    _, _, name = row.asked.partition(" ")
    places = {place: f"{of} {index}" for of, index, place in methods_of(lines)}
    marked = re.compile(rf"{re.escape(name)} ({MARKS}) at (\S+) (\d+)(?: .*)?")
    for order in (files, files[::-1]):
        answer = asked.run("explain", entry(name), *names_for(order))
        found = [marked.fullmatch(line) for line in answer.out.decode(errors="replace").splitlines()]
        marks = ", ".join(f"{it[1]} {places[it[2]]} at {it[3]}" for it in found if it) or "nothing"
        if answer.status or marks != row.wanted:
            return told(answer)
    return None


def methods_of(lines: tuple[str, ...]):
    """The methods of classes: the class, the place there, and the text by which an explanation names it."""
    for line in lines:
        text = class_text.class_of(line)
        names = [name for name in map(method_name, text.members) if name]
        for place, name in enumerate(names):
            yield text.name, place, f"{text.name}.{name}"


def method_name(member: str) -> str | None:
    """The name and the descriptor of a member that is a method."""
    _, words = class_text.flags_before(member.split())
    known = {"main": "main([Ljava/lang/String;)V", "initializer": "<clinit>()V"}
    if words[0] in known:
        return known[words[0]]
    return words[0] if ":" not in words[0] and "(" in words[0] else None

