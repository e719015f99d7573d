"""Questions of the class files of a real compiler, `java`: PROGRAM_CLASS.class of each program, what a run of its
`main` prints and how it ends in PROGRAM.txt, and the report of its build in PROGRAM_report.txt.

Each class file is asked for: it is in the image of a build, byte for byte. Of each program are asked the report, and
what is shown by a run of its `main` from the class files, and from their image.
"""
import glob
import os

import case_files
from asked_program import Asked, held, put
from case_files import Row
from seen_runs import Program, endings

JAVA = f"{case_files.QUESTIONS}/java"
# The class whose `main` is run, where it is not `Main`.
ENTRIES = {"first": "M", "loop": "Lp"}


def programs() -> list[str]:
    return sorted(os.path.basename(path).removesuffix("_report.txt") for path in glob.glob(f"{JAVA}/*_report.txt"))


def files_of(program: str) -> dict[str, bytes]:
    """The class files of a program, by their names. Of two programs of which one's name begins the other's, each file
    is the longer one's."""
    longer = [other for other in programs() if other.startswith(f"{program}_")]
    found = {}
    for path in sorted(glob.glob(f"{JAVA}/{program}_*.class")):
        name = os.path.basename(path)
        if not any(name.startswith(f"{other}_") for other in longer):
            with open(path, "rb") as it:
                found[name] = it.read()
    return found


def text(name: str) -> str:
    with open(f"{JAVA}/{name}", encoding="utf-8") as it:
        return it.read()


def rows():
    """A question for each class file, each report and each run."""
    for program in programs():
        for name in files_of(program):
            yield Row(program, 1, "a class file that is read and written", program, name, "same")
        yield Row(program, 1, "the report of a build", program, "report", text(f"{program}_report.txt"))
        yield Row(program, 1, "a run, and one from the image", program, "run", text(f"{program}.txt"))


def ask(asked: Asked, row: Row) -> str | None:
    """What is found for a question, where it is not as it is wanted."""
    files = files_of(row.given)
    for name, content in files.items():
        put(name, content)
    built = asked.run("build", "--out", "image", "--report", "report", *files)
    image = held("image") or b""
    if built.status:
        return str(built)
    if row.asked.endswith(".class"):
        length = len(files[row.asked]).to_bytes(4, "big")
        found = "same" if length + files[row.asked] in image else "other bytes"
        return None if found == row.wanted else found
    if row.asked == "report":
        told, found = asked.run("report", *files).out.decode(), (held("report") or b"").decode()
        return None if told == found == row.wanted else f"{told}, and beside the image {found}"
    program, entry = Program.of_files(list(files.values())), ENTRIES.get(row.given, "Main")
    for words in (["lazy", "--entries", entry, *files], ["run", "--turns", "--entries", entry, "image"],
                  ["run", "--entries", entry, "image"]):
        answer = asked.run(*words)
        shown = answer.out.decode(errors="replace") + "".join(endings(answer, program.classes)) + "\n"
        if shown != row.wanted:
            return f"{words[0]}: {shown}"
    return None
