#!/usr/bin/env python3
"""Settles the classes of the cases of reports by a second interpreter, and compares what becomes of each.

  bench/fuzzers/settling_cases.py [FILE..]     these files of questions/commands, or settling.txt, reports.txt and
                                               long_initializers.txt

Asked are the reports of builds without lists of options. Which classes are refused by their code alone is taken from
the answer; which class uses which, the waves, the first refused use, and what comes of a run of each initializer, with
its cost and the objects of it that static fields reach in the end, is found here, by the instructions of
second_instructions.py. It shares no code with the crates. It ends in 1 where a class comes out otherwise.
"""
import os
import re
import sys

sys.path.append(f"{os.path.dirname(os.path.realpath(__file__))}/../shared")
import kit
import case_files
import class_text
import class_model as model
from second_instructions import new_class, reference
from second_machine import Ended, Frame, Instance, Machine, Raised, sweep

COMMANDS = os.path.join(case_files.QUESTIONS, "commands")

# Reasons that the code of a class decides, before any initializer runs.
BY_CODE = ("Forced", "Prints", "Throws", "Monitors", "ForeignWrite", "ForeignRead", "Unsupported", "Missing", "Cycle")


class Refused(Exception):
    """An initializer is refused, for a reason."""


class Initializer(Machine):
    """The run of a class's initializer alone, with the statics of other classes at hand."""

    def __init__(self, classes, name, known, budget):
        self.classes, self.name, self.left = classes, name, budget
        self.states = {one: "done" for one in known} | {name: "by"}
        self.statics = {place: value for statics, _ in known.values() for place, value in statics.items()}
        self.objects, self.own, self.stack, self.printed, self.ending = [], set(), [], [], None

    def settled(self):
        """Its statics and its objects."""
        file = self.classes.given[self.name]
        for one in file.fields:
            if one.has(model.STATIC):
                is_set = one.has(model.FINAL) and one.constant
                zero = {"I": ("I", 0), "J": ("J", 0), "A": ("A", None)}[model.kind_of(one.descriptor)]
                self.statics[self.name, one.name, one.descriptor] = self.constant_value(file, one) if is_set else zero
        method = initializer_of(file)
        if method:
            self.stack.append(Frame(self.name, method, []))
            while self.ending is None:
                self.execute(self.stack[-1])
        own = {place: value for place, value in self.statics.items() if place[0] == self.name}
        return own, self.objects

    def execute(self, frame):
        self.pays(1)
        name, operands, end = frame.body.get(frame.pc, ("bad", (), 0))
        try:
            self.instruction(frame, name, operands, frame.pc, end)
        except Raised:
            raise Refused("Raised") from None
        except Ended:
            raise Refused("Faulted") from None

    def needs(self, name):
        if name in self.classes.given and name not in self.states:
            raise AssertionError(f"{self.name} needs {name}")
        return False

    def made(self, name, slots=None, elements=None):
        self.objects.append(super().made(name, slots, elements))
        self.own.add(id(self.objects[-1]))
        return self.objects[-1]

    def pays(self, count):
        if count > self.left:
            raise Refused("Budget")
        self.left -= count

    def looks_into(self, instance):
        if id(instance) not in self.own:
            raise Refused("ForeignObject")


def initializer_of(file):
    """The class initialization method of a class, if there is one."""
    method = file.method(("<clinit>", "()V"))
    return method if method and method.has(model.STATIC) and method.code else None


class Program:
    """The classes of a report, with what its answer says of them."""

    def __init__(self, files, wanted, budget):
        self.classes = model.Classes([model.read_class(file) for file in files])
        self.wanted, self.budget, self.found, self.states = wanted, budget, {}, {}

    def needs(self, name):
        return False

    def needed_and_called(self, owner, name, operands):
        """The class that an instruction of a class needs, and the methods that it may run."""
        frame = type("Place", (), {"owner": owner})
        classes = self.classes
        if name == "new":
            return new_class(self, frame, operands[0]), []
        if name in ("getstatic", "putstatic"):
            found = classes.field(*reference(self, frame, operands[0], (9,))[1:])
            return (found[0] if found and found[1].has(model.STATIC) else None), []
        if not name.startswith("invoke"):
            return None, []
        _, named, member = reference(self, frame, operands[0], (10, 11))
        found = classes.method(named, member) if classes.known(named) else None
        if not found or found[1].has(model.STATIC) != (name == "invokestatic") or member == ("<clinit>", "()V"):
            return None, []
        if name == "invokestatic":
            return found[0], [found]
        if name == "invokespecial":
            return None, [classes.special(owner, named, member)]
        return None, [found if found[1].has(model.PRIVATE) else classes.select(one, member) for one in classes.given]

    def uses(self, name):
        """The given classes that the initialization of a class may need, but the class itself."""
        file, used, seen = self.classes.given[name], set(self.classes.initialized_before(name)), set()
        waiting = [(name, initializer_of(file))]
        while waiting:
            owner, method = waiting.pop()
            if owner not in self.classes.given or not method or not method.code or id(method) in seen:
                continue
            seen.add(id(method))
            for word, operands, _ in sweep(method.code.bytes).values():
                try:
                    needed, called = self.needed_and_called(owner, word, operands)
                except Ended:
                    continue
                used.add(needed)
                waiting += [one for one in called if one]
        return sorted(one for one in used if one in self.classes.given and one != name)

    def becomes(self, name):
        """What becomes of a class: its wave, its statics and its objects, or the reason to leave it to run time."""
        if name not in self.found:
            self.found[name] = self.tried(name)
        return self.found[name]

    def by_code(self, name):
        """The reason that the code of a class decides, if there is one."""
        reason = self.wanted[name].split(" ")[1]
        return reason if reason in BY_CODE else None

    def tried(self, name):
        reason = self.by_code(name)
        if reason:
            return reason
        uses = self.uses(name)
        refused = [one for one in uses if isinstance(self.becomes(one), str)]
        if refused:
            return f"DependsOn {refused[0]}"
        known = {one: found[1:] for one, found in self.found.items() if not isinstance(found, str)}
        try:
            statics, objects = Initializer(self.classes, name, known, self.budget).settled()
        except Refused as refusal:
            return refusal.args[0]
        return max((self.found[one][0] + 1 for one in uses), default=0), statics, objects

    def reached(self):
        """The objects that the static fields of the accepted classes reach, by their identity."""
        accepted = [found for found in map(self.becomes, self.wanted) if isinstance(found, tuple)]
        waiting, reached = [value for found in accepted for _, value in found[1].values()], set()
        while waiting:
            one = waiting.pop()
            if isinstance(one, Instance) and id(one) not in reached:
                reached.add(id(one))
                waiting += [value for _, value in one.slots.values()] + (one.elements or [])
        return reached

    def line(self, name):
        found = self.becomes(name)
        if isinstance(found, str):
            return f"run {found}"
        reached = self.reached()
        return f"build {found[0]} {sum(id(one) in reached for one in found[2])}"


def program_of(row):
    """The program that a row asks a report of, or None where it asks for something else."""
    asked = re.match(r"preinit report(?: --budget[ =](\d+))?((?: \S+\.class)+)$", row.asked)
    answer = re.match(r"0 \[(.*)\] \[\]$", row.wanted)
    if not asked or not answer:
        return None
    shelf = {}
    for line in row.given.replace("\n  ", " ").splitlines():
        file, _, text = line.partition(" = ")
        shelf.setdefault(file, text)
    wanted = dict(line.split(" ", 1) for line in answer[1].split(";") if line)
    files = [class_text.class_of(shelf[file]).file() for file in asked[2].split()]
    return Program(files, wanted, int(asked[1] or 1_000_000))


def main():
    questions = classes = others = 0
    for name in sys.argv[1:] or ["settling.txt", "reports.txt", "long_initializers.txt"]:
        for row in case_files.rows_of(os.path.join(COMMANDS, name)):
            program = program_of(row)
            if not program:
                continue
            questions += 1
            for one, wanted in program.wanted.items():
                classes += 1
                if program.line(one) != wanted:
                    others += 1
                    print(f"{row.file}: {row.heading[:60]}: {one} {wanted}; here {program.line(one)}")
    print(f"{questions} reports of {classes} classes, {others} otherwise")
    sys.exit(1 if others else 0)


if __name__ == "__main__":
    main()
