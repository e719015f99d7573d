#!/usr/bin/env python3
"""Puts the bytes of class files in the place of their text in the files of cases that `product_cases` asks.

  tools/assembled.py           writes crates/product_cases/data/assembled anew
  tools/assembled.py --check   ends in 1 where it holds something else, as `./test` does

The texts in the other folders of `crates/product_cases/data` are for readers and are what is changed by hand. In what
is made of them each class is the digits of its class file, on a line; a question with a reference has behind ` | ` the
class file of one more class, `Asking`, whose constant pool has it, and its index there. Of `memory/images.txt` each
line is an image, with its digest.
"""
import glob
import os
import shutil
import sys

sys.dont_write_bytecode = True
import case_files
import class_text
import command_questions

DATA = f"{case_files.ROOT}/crates/product_cases/data"
FOLDERS = ("linking", "threads", "uses")
# Of 20,000 classes and more: `./test` makes it where it asks it.
LARGE = "linking/large.txt"
REFERRING = ("field", "constant", "method", "select", "special")


def digits(text: str) -> str:
    """The class files of a text, each on a line."""
    return "".join(f"{file.hex().upper()}\n" for file in class_text.files_of(text))


def asking(question: str) -> str:
    """A question, with the class that has its reference."""
    verb, _, about = question.partition(" ")
    if verb not in REFERRING:
        return question
    reference = about.rpartition(" ")[2]
    text = class_text.ClassText("Asking", 0x0021, "", [])
    if reference.isdigit():
        return f"{question} | {text.file().hex().upper()} {reference}"
    file, index = text.file_with(reference)
    return f"{question} | {file.hex().upper()} {index}"


def assembled(path: str) -> str:
    """What is made of a file of cases."""
    with open(path, encoding="utf-8") as it:
        before, *parts = it.read().rstrip("\n").split("\n# ")
    made = [remarks(before.split("\n")) + digits(case_files.given_of(before.split("\n")))]
    for part in parts:
        heading, *lines = part.split("\n")
        given = digits(case_files.given_of(lines))
        questions = (line.split(" => ", 1) for line in lines if " => " in line)
        asked = "".join(f"{asking(about)} => {case_files.repeated(wanted, ' ')}\n" for about, wanted in questions)
        made.append(f"{heading}\n{given}{asked}")
    return "# ".join(made)


def remarks(lines: list[str]) -> str:
    return "".join(f"{line}\n" for line in lines if line.startswith("## "))


def of_memory() -> dict[str, str]:
    """The classes and the images of the calls that take memory."""
    with open(f"{DATA}/memory/classes.txt", encoding="utf-8") as it:
        text = it.read()
    with open(f"{DATA}/memory/images.txt", encoding="utf-8") as it:
        images = it.read()
    classes = class_text.lines_of(text)
    shelf = command_questions.shelf_of("".join(f"{n}.class = {line}\n" for n, line in enumerate(classes)) + images)
    names = (line.partition(" = ")[0] for line in images.splitlines())
    return {"memory/classes.txt": digits(text),
            "memory/images.txt": "".join(f"{shelf[name].hex().upper()}\n" for name in names)}


def all_made() -> dict[str, str]:
    """Each file, by its name."""
    paths = (path for folder in FOLDERS for path in sorted(glob.glob(f"{DATA}/{folder}/*.txt")))
    names = (os.path.relpath(path, DATA) for path in paths)
    return {name: assembled(f"{DATA}/{name}") for name in names if name != LARGE} | of_memory()


def others() -> list[str]:
    """The files that hold something else than what is made."""
    made, found = all_made(), []
    for name, text in made.items():
        try:
            with open(f"{DATA}/assembled/{name}", encoding="utf-8") as it:
                if it.read() != text:
                    found.append(name)
        except OSError:
            found.append(name)
    there = glob.glob(f"{DATA}/assembled/*/*.txt")
    return found + [name for name in (os.path.relpath(it, f"{DATA}/assembled") for it in there) if name not in made]


def main(words: list[str]) -> int:
    if words == ["--check"]:
        found = others()
        for name in found:
            print(f"crates/product_cases/data/assembled/{name} is not what its text stands for: tools/assembled.py")
        return int(bool(found))
    shutil.rmtree(f"{DATA}/assembled", ignore_errors=True)
    for name, text in all_made().items():
        os.makedirs(os.path.dirname(f"{DATA}/assembled/{name}"), exist_ok=True)
        with open(f"{DATA}/assembled/{name}", "w", encoding="utf-8") as it:
            it.write(text)
    return 0


if __name__ == "__main__":
    sys.exit(main(sys.argv[1:]))
