#!/usr/bin/env python3
"""Asks the questions of files of cases of a program `preinit`, by its commands.

  tools/questions.py PROGRAM [FOLDER or FILE ..]     of the questions: runs, linking/fields.txt

The folder of a file says what its cases are about (`ASKERS`), and a module for each how a question is asked. It prints
each answer that is not as it is wanted, with its file and line, what is wanted and what was found, and ends with
`N passed, M failed`. Its exit status is 0 where none failed.
"""
import concurrent.futures
import glob
import os
import sys
import time

sys.dont_write_bytecode = True
import build_questions
import case_files
import class_questions
import command_questions
import image_questions
import java_questions
import program
import refusals
import run_questions
from asked_program import Asked, folder

# By folders, and where a file of one is about something else, by that.
ASKERS = {
    "class_bytes": class_questions.of_bytes,
    "class_files": class_questions.of_file,
    "commands": command_questions.ask,
    "images": image_questions.of_image,
    "images/runs.txt": run_questions.of_image,
    "java": java_questions.ask,
    "linking": build_questions.of_linking,
    "options": build_questions.of_options,
    "runs": run_questions.ask,
    "uses": build_questions.of_uses,
    "verdicts": build_questions.of_verdicts,
}
# So many questions are one piece of work, and so many processes ask them.
PIECE, PROCESSES = 25, 2


def begin(path: str):
    """Begins a process that asks."""
    global asked
    asked = Asked(path)


def answers(named: list) -> list:
    """Asks questions. Answers each that is answered otherwise, with what is found."""
    found = []
    for name, row in named:
        ask = ASKERS.get(name) or ASKERS[os.path.dirname(name)]
        with folder():
            try:
                otherwise = ask(asked, row)
            except Exception as error:  # what an answer that is not understood leads to fails the question alone
                otherwise = f"{type(error).__name__}: {error}"
        if otherwise is not None:
            found.append((name, row, otherwise))
    return found


def rows(names) -> list:
    """The questions of these folders and files, or of all."""
    found = []
    for name in names or sorted({it.partition("/")[0] for it in ASKERS}):
        if name == "java":
            found += [(f"java/{row.file}", row) for row in java_questions.rows()]
            continue
        at = f"{case_files.QUESTIONS}/{name}"
        for path in sorted(glob.glob(f"{at}/*.txt")) if os.path.isdir(at) else [at]:
            short = os.path.relpath(path, case_files.QUESTIONS)
            found += [(short, row) for row in case_files.rows_of(path)]
    return found


def ask_all(path: str, say, library: str, names: list[str] = ()) -> tuple[int, int]:
    """Asks a program the questions of these folders and files, or all, with the library that refuses. Answers how many
    passed and how many failed."""
    os.environ[command_questions.LIBRARY] = library
    asked_rows, failed = rows(names), 0
    count = -(-len(asked_rows) // PIECE)
    pieces = [asked_rows[at::count] for at in range(count)]
    how = {"initializer": begin, "initargs": (os.path.abspath(path),)}
    with concurrent.futures.ProcessPoolExecutor(PROCESSES, **how) as pool:
        for found in pool.map(answers, pieces):
            failed += len(found)
            for name, row, otherwise in found:
                say(f"{name}:{row.line}: {row.heading[:80]}: {row.asked[:200]}")
                say(f"  wanted {row.wanted[:400]}")
                say(f"  found  {case_files.written(otherwise)[:400]}")
    return len(asked_rows) - failed, failed


def main(words: list[str]) -> int:
    if not words or words[0].startswith("-"):
        print(__doc__.strip())
        return 2
    begun = time.time()
    with program.room() as room:
        library = refusals.refusing(room, program.kit())
        passed, failed = ask_all(words[0], lambda text: print(text, flush=True), library, words[1:])
    print(f"{time.time() - begun:.0f} seconds")
    print(f"{passed} passed, {failed} failed")
    return int(failed != 0)


if __name__ == "__main__":
    sys.exit(main(sys.argv[1:]))
