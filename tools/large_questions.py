#!/usr/bin/env python3
"""Asks `product_cases` the questions of programs of 20,000 classes, whose class files are made for that.

  tools/large_questions.py PROGRAM
"""
import os
import subprocess
import sys
import tempfile

sys.dont_write_bytecode = True
import assembled

LIMIT = 300


def ask_all(path: str, say, _library: str = "") -> tuple[int, int]:
    """Answers how many passed and how many failed."""
    text = assembled.assembled(f"{assembled.DATA}/{assembled.LARGE}")
    count = sum(" => " in line for line in text.splitlines())
    with tempfile.TemporaryDirectory() as room:
        os.makedirs(f"{room}/linking")
        with open(f"{room}/{assembled.LARGE}", "w", encoding="utf-8") as it:
            it.write(text)
        words = [os.path.abspath(path), assembled.LARGE]
        ran = subprocess.run(words, cwd=room, capture_output=True, text=True, timeout=LIMIT)
    lines = ran.stdout.splitlines()
    for line in lines[:-1]:
        say(line[:400])
    is_whole = lines and lines[-1].startswith(f"{assembled.LARGE}: {count} questions, ") and ran.returncode in (0, 1)
    if not is_whole:
        say(f"it ended with status {ran.returncode}: {ran.stdout[-400:]} {ran.stderr[-400:]}")
        return 0, count
    failed = int(lines[-1].split(", ")[1].split()[0])
    return count - failed, failed


if __name__ == "__main__":
    if len(sys.argv) != 2:
        sys.exit(__doc__.strip())
    passed, failed = ask_all(sys.argv[1], print)
    print(f"{passed} passed, {failed} failed")
    sys.exit(int(failed != 0))
