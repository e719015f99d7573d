"""How the gate's own command tries mutants: of each, first the functions that it changes or adds.

  python3 tools/mutants.py must-fail CRATE    in a copy of the crates, as `bench/edits` starts it: the kit's `must-fail`
  python3 tools/mutants.py controls CRATE     the same of controls, of which these functions alone are proved

The kit proves a crate that has mutants a second time, to try them over what that left, and checks all of the crate for
each. But what the prover refuses of one function it refuses of the crate. So a mutant is tried by itself, and if one of
the functions that it changes or adds is refused, that is all. Else the kit checks the whole crate, from nothing.
"""
import re
import sys

sys.dont_write_bytecode = True
import program

# Lines that open a function, and the methods of a type, in the layout of `rt fmt`.
FUNCTION = re.compile(r" *(?:pub(?:\([\w: ]+\))? )?(?:(?:const|unsafe|ghost) )*fn (\w+)")
METHODS = re.compile(r"impl(?:<.*?>)? (?:(?:\w+::)*(\w+)(?:<.*?>)? for )?(?:\w+::)*(\w+)")
# The last line of a check of some functions that reached a verdict.
SOME = re.compile(r"only=(\d+) proved=(\d+)$")


def is_known(rt):
    """Whether this kit's command, given as a module, is one that this was written for."""
    return all(callable(getattr(rt, it, None)) for it in ("checked", "add_edits"))


def module(file):
    """The path of a source file's module, with the colons that come before the names of its functions."""
    names = re.sub(r"(/mod|^lib|^main)$", "", file.removeprefix("src/").removesuffix(".rt")).split("/")
    return "".join(f"{name}::" for name in names if name)


def changed(file, old, new):
    """The functions, by their paths, that have lines in a file's new text which the old text does not have."""
    lines, found, of, inside = set(old.split("\n")), {}, "", None
    for line in new.split("\n"):
        if line == "}":
            of = ""
        elif METHODS.match(line):
            of = "{1}{0}::".format(*METHODS.match(line).groups(default=""))
        elif FUNCTION.match(line):
            inside = f"{module(file)}{of}{FUNCTION.match(line)[1]}"
        if line not in lines and inside:
            found[inside] = None
    return list(found)


def paths(folder, texts):
    """The functions that new texts of a crate's files change or add, or none where they change something else."""
    found = []
    for file, text in texts.items():
        if not file.startswith("src/"):
            return []
        with open(f"{folder}/{file}", encoding="utf-8") as it:
            found += changed(file, it.read(), text)
    return found


def verdict(ran):
    """Whether a check of some functions proved all of them, or none where it reached no verdict."""
    told = SOME.search(ran.stdout.rstrip("\n").rpartition("\n")[2])
    return told and (ran.returncode == 0 or None if told[1] == told[2] else False if ran.returncode == 1 else None)


def try_parts_first(rt, is_enough=False):
    """Has the kit try each mutant by itself, and what it changes or adds before all else.

    If that is enough, a mutant counts as not refused where these functions are proved: the others rest on no more of
    them than their contracts."""
    check, add = rt.checked, rt.add_edits

    def checked(crate, texts, flags, kept):
        only = paths(crate.folder, texts)
        if only:
            part = check(crate, texts, [*flags, *(word for it in only for word in ("--only", it))], kept)
            is_proved = verdict(part)
            if is_proved is False:
                part.stdout += "logic=not-proved, of these functions\n"
            if is_proved is False or is_proved and is_enough:
                return part
        return check(crate, texts, flags, kept)

    def add_edits(tasks, crate, edits, first, waits, is_well, kept, start=None, in_ci=True):
        """Adds a task for each mutant, as the kit does where a crate has one alone and no earlier check."""
        each = []
        for number, edit in enumerate(edits):
            own = {}
            each.append(add(own, crate, [edit], first, waits, is_well, kept, in_ci=in_ci))
            (tasks[crate.name, "edits", number],) = own.values()

        def results(given):
            alone = [{(crate.name, "edits", 0): given[crate.name, "edits", number]} for number in range(len(edits))]
            return [of(found)[0] for (of, _), found in zip(each, alone)]

        def known():
            return {number: it for number, (_, earlier) in enumerate(each) for it in earlier().values()}

        return results, known

    rt.checked, rt.add_edits = checked, add_edits


def main(word, crate):
    rt = program.rt()
    try_parts_first(rt, is_enough=word == "controls")
    return rt.main(["must-fail", crate])


if __name__ == "__main__":
    sys.exit(main(*sys.argv[1:]))
