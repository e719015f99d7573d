"""Questions of the text form of classes (`class_bytes`), and of reading class files (`class_files`).

`class_bytes` ask `class_text.py`, by which the class files of all other questions are made: given is a class, and
asked are `length`, for that of its file, or an offset and a length, for the bytes that stand there.

`class_files` ask what reading a file answers: a fault, or `read`. Given is the file, with `{}` for what is asked;
before a colon stands only what that is. Of a file without `{}` asked are `at OFFSET BYTES`, with other bytes there;
`first LENGTH`, that many of its bytes; and `then BYTES`, more after it. A file that is read makes a program, or a
fault of linking; where it makes one its image has the same bytes.
"""
import case_files
import class_text
from asked_program import Asked, held, put
from case_files import Row
from seen_runs import told

# Where the first class file of an image begins.
FIRST_FILE = 14


def of_bytes(_: Asked, row: Row) -> str | None:
    """What is found in a class file that a text stands for, where it is not as it is wanted."""
    try:
        file = class_text.files_of(row.given)[0]
        if row.asked == "length":
            found = str(len(file))
        else:
            offset, length = map(int, row.asked.split())
            found = file[offset:offset + length].hex().upper()
    except class_text.Misspelled as error:
        found = f"misspelled {error}"
    return None if found == row.wanted else found


def spelled_file(row: Row) -> bytes:
    """The file that a question is about."""
    given = row.given.replace("\n", " ")
    if "{}" in given:
        before, colon, after = row.asked.partition(": ")
        return class_text.spelled(case_files.filled(given, after if colon else before))
    file = bytearray(class_text.spelled(given))
    verb, _, about = row.asked.partition(" ")
    if verb == "first":
        return bytes(file[:int(about)])
    if verb == "then":
        return bytes(file) + class_text.spelled(about)
    offset, _, other = about.partition(" ")
    content = class_text.spelled(other)
    at = int(offset)
    file[at:at + len(content)] = content[:len(file) - at]
    return bytes(file)


def of_file(asked: Asked, row: Row) -> str | None:
    """What reading a class file answers, where it is not as it is wanted."""
    file = spelled_file(row)
    put("it.class", file)
    answer = asked.run("build", "--out", "image", "it.class")
    fault = answer.last_error()
    if fault.startswith("Class 0 ") and answer.status == 1:
        found = fault.removeprefix("Class 0 ")
    elif answer.status == 0:
        image = held("image") or b""
        found = "read" if image[FIRST_FILE:FIRST_FILE + len(file)] == file else "written otherwise"
    else:
        found = "read" if fault.startswith("Link ") and answer.status == 1 else told(answer)
    return None if case_files.written(found) == row.wanted else found
