#!/usr/bin/env python3
"""Asks of every name in backquotes, and of every link, in the documents whether the tree has it, and prints those that
it has not.

  tools/names.py [FILE..]     these documents, or those of the root, of docs/, of bench/ and of crates

A name is a path (from the root, from the document's folder or within a crate), a pattern of paths, an identifier of
code, definitions or scripts (comments don't count), a path of modules as `cli::build_here`, whose last part has to
stand in a file of that crate, an option of the program or of a script, a command of the program, or a class of Java.
What is no name is passed over: code, output, numbers. The crates of docs/ARCHITECTURE.md have to be those of
crates.txt, and the picture there that of `bench/lints/layers`. It ends in 1 where one is missing.
"""
import fnmatch
import os
import re
import subprocess
import sys

ROOT = os.path.dirname(os.path.dirname(os.path.realpath(__file__)))
WORD = re.compile(r"[A-Za-z_]\w*")
QUALIFIED = re.compile(r"[A-Za-z_]\w*(?:(?:::|\.)[A-Za-z_]\w*)*")
PATH = re.compile(r"[\w.*@-]*(?:/[\w.*@-]+)*/?")
OPTION = re.compile(r"--[a-z][a-z-]*")
# What a comment begins with, by a file's ending; scripts without an ending are Python or of the shell. No other file
# has names.
COMMENTS = {".rt": "//", ".antt": "--", ".edit": None, ".java": "//", ".c": "//", ".txt": None, ".py": "#", ".sh": "#",
            "": "#"}
# The first words of commands of others, whose options and names are theirs.
OTHERS = ("java", "javac", "javap", "jar", "rt", "rattle", "git", "find", "perf", "getconf", "cp", "export", "mkdir")
# Names of Java, of its machine and library, of the system and of the toolchain, which nothing here defines.
ELSEWHERE = set("""
    Annotation AutoCloseable Cloneable Comparable IllegalArgumentException LINE OutOfMemoryError PLACE Serializable
    StackOverflowError UnsupportedOperationException arraycopy
    """.split())


def listed():
    """The files of the repository, from its root, but what is built."""
    found = []
    for at, folders, names in os.walk(ROOT):
        folders[:] = [it for it in folders if it not in ("out", ".git", "__pycache__")]
        found += [os.path.relpath(f"{at}/{it}", ROOT) for it in names]
    return sorted(found)


def text_of(path):
    """The text of a file."""
    with open(f"{ROOT}/{path}", encoding="utf-8", errors="replace") as it:
        return it.read()


def crate_of(path):
    """The crate that a file is of, or none, as of lists that go through several."""
    parts = path.split("/")
    return None if parts[-1] == "ADDING.md" else parts[1] if parts[0] == "crates" and len(parts) > 2 else None


class Tree:
    """What there is: paths, identifiers of the whole and of each crate, options and commands."""

    def __init__(self):
        self.files = listed()
        self.paths = set(self.files)
        for path in self.files:
            parts = path.split("/")
            self.paths.update("/".join(parts[:end]) for end in range(1, len(parts)))
        self.ends = {}
        for path in self.paths:
            parts = path.split("/")
            for at in range(len(parts)):
                self.ends.setdefault("/".join(parts[at:]), []).append(path)
        self.words, self.options, self.of_crate = set(), set(), {}
        for path in self.files:
            self.read(path)
        named = re.findall(r'\bname: "([a-z-]+)"', text_of("crates/command_line/src/commands.rt"))
        self.options.update(f"--{name}" for name in named)
        self.options.update(("--help", "--version"))
        self.commands = set(named) | {"help"}

    def read(self, path):
        """Adds what a file names."""
        ending = os.path.splitext(path)[1]
        if ending not in COMMENTS or path == "tools/names.py":
            return
        text, begin = text_of(path), COMMENTS[ending]
        if not ending and not crate_of(path) and not text.startswith("#!"):
            return
        if begin:
            text = re.sub(rf"(?m)(?:^|\s){begin}.*$", "", text)
        words = set(WORD.findall(text)) | {os.path.splitext(os.path.basename(path))[0]}
        self.words |= words
        if crate_of(path):
            self.of_crate.setdefault(crate_of(path), set()).update(words)
        if ending in (".py", "") and not crate_of(path):
            self.options.update(OPTION.findall(text))

    def has_path(self, path, document):
        """Whether there is such a path, or one that the pattern is of, from the root or in the document's crate."""
        path = re.sub(r"\b(CRATE|FILE|KIND|NAME)\b", "*", path.rstrip("/").removeprefix("./"))
        if "*" in path:
            return any(fnmatch.fnmatch(end, path) or fnmatch.fnmatch(end, path + ".*") for end in self.ends)
        here = os.path.normpath(f"{os.path.dirname(document)}/{path}")
        if path in self.paths or here in self.paths:
            return True
        crate = crate_of(document)
        found = self.ends.get(path, [])
        if crate and path.split("/")[0] not in self.of_crate:
            return any(crate_of(it) in (crate, "product_cases", None) for it in found)
        return bool(found)

    def has_name(self, name):
        """Whether each part of a path of modules or fields is there, and the last one in the crate of the first."""
        parts = re.split(r"::|\.", name)
        if parts[0] in self.of_crate and len(parts) > 1 and "::" in name:
            return all(part in self.of_crate[parts[0]] for part in parts[1:])
        return all(part in self.words or part in ELSEWHERE for part in parts)


def spans(text):
    """The texts in backquotes, each with its line; code that stands by itself is left out."""
    text = re.sub(r"(?ms)^```.*?^```", lambda it: "\n" * it[0].count("\n"), text)
    for it in re.finditer(r"`([^`]+)`", text):
        yield text.count("\n", 0, it.start()) + 1, re.sub(r"\s+", " ", it[1]).strip()


def links(text):
    """The files that a text links to, each with its line."""
    for it in re.finditer(r"\]\(([^)#:]+)(?:#[^)]*)?\)", text):
        yield text.count("\n", 0, it.start()) + 1, it[1]


def missing(tree, document, span):
    """What the tree does not have of the names that a text in backquotes holds."""
    words = span.split(" ")
    if words[0] in OTHERS:
        return []
    lost = [option for option in OPTION.findall(span) if option not in tree.options and "javac" not in span]
    is_program = words[0] in ("preinit", "./preinit", "./run") and len(words) > 1
    if is_program and re.fullmatch(r"[a-z]+", words[1]) and words[1] not in tree.commands:
        lost.append(words[1])
    first = words[0]
    is_path = PATH.fullmatch(first) and ("/" in first or re.search(r"\.(rt|antt|md|py|txt|edit|sh)$", first))
    if is_path or len(words) == 1 and "*" in first and re.fullmatch(r"[\w*]+", first):
        if not is_class(first) and not tree.has_path(first, document) and not first.startswith("out/"):
            lost.append(first)
    elif len(words) == 1 or re.fullmatch(r"[\w:.]+\([^()]*\)", span):
        name = re.sub(r"\(.*\)$|[!?]$", "", span).lstrip("&")
        if QUALIFIED.fullmatch(name) and not tree.has_name(name) and not tree.has_path(name, document):
            lost.append(name)
    return lost


def is_class(path):
    """Whether it names a class as class files do."""
    return bool(re.match(r"(java|app|p|q)/", path))


def crates_apart():
    """The crates that crates.txt or the tables of docs/ARCHITECTURE.md lack, and its picture where that is another."""
    text = text_of("docs/ARCHITECTURE.md")
    listed_there = re.findall(r"(?m)^([a-z_]+)[^:\n]*:", text_of("crates.txt"))
    rows = re.findall(r"(?m)^(?:\| )?(`[a-z_]+`(?:, `[a-z_]+`)*) \|", text.partition("Crate |")[2])
    named = re.findall(r"[a-z_]+", " ".join(rows))
    drawn = subprocess.run([f"{ROOT}/bench/lints/layers"], capture_output=True, text=True, check=True).stdout
    return sorted(set(listed_there) ^ set(named)) + ["the picture of bench/lints/layers"] * (drawn not in text)


def main():
    tree = Tree()
    usual = re.compile(r"([^/]+|(docs|bench|edits)/.*|crates/[^/]+/[^/]+)\.md")
    documents = [os.path.relpath(os.path.abspath(path), ROOT) for path in sys.argv[1:]] or [
        path for path in tree.files if usual.fullmatch(path)]
    apart = crates_apart()
    lost = len(apart)
    for it in apart:
        print(f"docs/ARCHITECTURE.md: {it}")
    for document in documents:
        for line, link in links(text_of(document)):
            if not os.path.exists(os.path.normpath(f"{ROOT}/{os.path.dirname(document)}/{link}")):
                print(f"{document}:{line}: {link}")
                lost += 1
        for line, span in spans(text_of(document)):
            for name in missing(tree, document, span):
                print(f"{document}:{line}: {name}" + ("" if name == span else f" (in `{span}`)"))
                lost += 1
    print(f"{len(documents)} documents, {lost} names that are not there")
    return int(lost != 0)


if __name__ == "__main__":
    sys.exit(main())
