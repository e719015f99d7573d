"""Questions of commands of `preinit`, `commands`: over files, with streams and files that fail.

Given are files, each as its name, ` = ` and a class in its text form, or `image` and the bytes of an image before its
digest as words (`class_text.spelled`), in which `file:NAME` are the bytes of an earlier file. A name that is not given
is no file, the file `huge` needs too much memory, and the file `full` cannot be written.

Asked are the words of a command, for the status, and between brackets what standard output and standard error got.
Before ` && ` may stand commands that are done first; where one of these has another status than 0 or writes to a
stream, that is the answer. After the words may stand ` | ` and `begins LENGTH`, for that many bytes of the answer; `has
TEXT`, for the status and which of the two has the text where the other has nothing; `output ROOM` or `errors ROOM`, for
what is answered when that stream fails after so many bytes; `file NAME`, for the status and what a file holds then, and
`file NAME ROOM` for that where standard output fails after so many bytes; `holds NAME TEXT`, for the status and whether
a file has the text in it then; `same NAME NAME`, for the status and whether
two files hold the same bytes then.
"""
import functools
import hashlib
import os

import case_files
import class_text
from asked_program import FULL, HUGE, Answer, Asked, held, put
from case_files import Row

SILENCE = Answer(0, b"", b"")
# The library that refuses, where there is one (`refusing.c`).
LIBRARY = "REFUSING"


@functools.lru_cache(maxsize=8)
def shelf_of(given: str) -> dict[str, bytes]:
    """The files of lines, by their names."""
    shelf: dict[str, bytes] = {}
    for line in given.replace("\n  ", " ").splitlines():
        name, _, text = line.partition(" = ")
        if text.startswith("image "):
            words = (shelf[word[5:]].hex() if word.startswith("file:") else word for word in text[6:].split())
            body = class_text.spelled(" ".join(words))
            shelf[name] = body + hashlib.sha256(body).digest()
        else:
            shelf[name] = class_text.files_of(text)[-1]
    return shelf


def ask(asked: Asked, row: Row) -> str | None:
    """What is found, where it is not as it is wanted."""
    for name, content in shelf_of(row.given).items():
        put(name, content)
    os.symlink("/dev/full", FULL)
    put(HUGE, b"")
    found = case_files.written(answered(asked, row.asked.removeprefix("preinit")))
    return None if found == row.wanted else found


def answered(asked: Asked, commands: str) -> str:
    """What the last of some commands answers, or the first that does not end well in silence."""
    *before, last = commands.split(" && preinit")
    for words in before:
        answer = done(asked, words, {})
        if answer != SILENCE:
            return streams(answer)
    words, _, how = last.partition(" | ")
    verb, _, about = how.partition(" ")
    name, _, other = about.partition(" ")
    rooms = {"output": {1: about}, "errors": {2: about}, "file": {1: other} if other else {}}.get(verb, {})
    answer = done(asked, words, {number: int(room) for number, room in rooms.items()})
    if verb == "output":
        return streams(Answer(answer.status, b"", answer.errors))
    if verb == "errors":
        return streams(Answer(answer.status, answer.out, b""))
    if verb == "file":
        content = held(name)
        return f"{answer.status} {'no file' if content is None else f'[{text_of(content)}]'}"
    if verb == "holds":
        content = held(name)
        return f"{answer.status} {'no file' if content is None else 'holds' if other in text_of(content) else 'lacks'}"
    if verb == "same":
        return f"{answer.status} {'same' if held(name) is not None and held(name) == held(other) else 'others'}"
    if verb == "has":
        return f"{answer.status} {stream_with(answer, about)}"
    return streams(answer).encode()[:int(about)].decode() if verb == "begins" else streams(answer)


def done(asked: Asked, text: str, rooms: dict[int, int]) -> Answer:
    """Does a command; `''` is an empty word."""
    words = [word.strip("'") for word in text.split()]
    if rooms or any(HUGE in word for word in words):
        return asked.run_with(words, rooms, os.environ[LIBRARY])
    return asked.run(*words)


def text_of(content: bytes) -> str:
    """Bytes as the text that they are, or `no text`."""
    try:
        return content.decode()
    except UnicodeDecodeError:
        return "no text"


def streams(answer: Answer) -> str:
    return f"{answer.status} [{text_of(answer.out)}] [{text_of(answer.errors)}]"


def stream_with(answer: Answer, text: str) -> str:
    """Which of the two streams has a text where the other got nothing."""
    if not answer.errors and text in text_of(answer.out):
        return "output"
    return "errors" if not answer.out and text in text_of(answer.errors) else "neither"
