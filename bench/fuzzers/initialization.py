#!/usr/bin/env python3
"""Makes random Java programs about class initialization, and compares what they show here and on a JVM.

  bench/fuzzers/initialization.py --cmd 'path/to/preinit' [--mode MODE,..] [--old 'path/to/old/preinit'] [--count N]
                                  [--seed S] [--keep FOLDER]

Each program is a few classes, interfaces and enums: chains of superclasses, interfaces with and without default
methods, cycles of static initializers, initializers that fail (and are caught, or not), classes that are needed again
after they failed, constants, static methods, constructors, arrays and casts that need no class; lengths of arrays, and
names and ordinals of enums, that belong to other classes; initializers that throw away objects which they make.
`javac --release 8` compiles them all; one JVM runs each under a class loader of its own (Initialization.java). Compared
with that are the text and how the thread ended, of these modes, or of all:

  lazy     `preinit lazy` of the same class files
  image    `preinit run --turns` from the image that `preinit build` makes of them
  threads  `preinit run` from that image
  renewed  `preinit run --turns` from what `preinit renew` makes of an image of version 1, which --old wrote: a program
           from before version 2. It has to be the image of `build`, byte by byte, where that accepts the same classes

It prints each program that differs, and ends in 1 if one does, or if --old initializes a class that is left to run time
now. With --old it also counts the programs in whose images classes are initialized that --old refused because they look
into objects of other classes.
"""
import argparse
import pathlib
import random
import re
import shlex
import subprocess
import sys
import tempfile
from collections import Counter

HERE = pathlib.Path(__file__).resolve().parent
OPTIONS = ["--release", "8", "-g:none", "-nowarn", "-Xlint:none", "-XDstringConcat=inline"]
MODES = ["lazy", "image", "threads", "renewed"]
THROWN = ["new RuntimeException()", "new Error()", "new Own()", "new Checkless()", "new ArithmeticException()"]
CAUGHT = ["Throwable", "Throwable", "Throwable", "Exception", "RuntimeException", "Error", "LinkageError",
          "ExceptionInInitializerError", "NoClassDefFoundError", "ArithmeticException", "NullPointerException", "Own"]

# What all programs have. `chain` and `grown` throw away half of what they make, or all but the last.
COMMON = """class Own extends RuntimeException { }
class Checkless extends Error { }
class Flags { static boolean on = true; static int zero; static Object nothing;
  static int said(int n) { System.out.println(n); return n; } }
class Node { Node next; int value;
  Node(Node next, int value) { this.next = next; this.value = value; }
  static Node chain(int n) { Node kept = null;
    for (int i = 0; i < n; i++) { Node made = new Node(kept, i); if (i % 2 == 0) kept = made; } return kept; }
  static int[] grown(int n) { int[] kept = new int[1];
    for (int i = 1; i < n; i++) { int[] made = new int[kept.length + 1]; made[i] = i; kept = made; } return kept; }
  static void show(Node first) { for (Node it = first; it != null; it = it.next) System.out.println(it.value); }
  static void show(int[] all) { System.out.println(all.length); for (int it : all) System.out.println(it); } }"""


class Source:
    """One program: its classes are C0, C1, .. and Main, its interfaces I0, I1, .., its enums E0, E1, .., and H0, H1, ..
    hold arrays, names and lists. Most enums and holders read those before them alone."""

    def __init__(self, seed):
        self.random = random.Random(seed)
        self.line = 0
        self.in_method = False
        self.classes = self.random.randint(2, 6)
        self.interfaces = self.random.randint(0, 4)
        # of each enum, its constants
        self.enums = ["ABCD"[: self.random.randint(1, 4)] for _ in range(self.random.randint(1, 3))]
        self.holders = self.random.randint(1, 4)
        # how many enums and holders may be read by what is written
        self.before = len(self.enums), self.holders

    def chance(self, of):
        return self.random.random() < of

    def number(self):
        """Each print has a number of its own."""
        self.line += 1
        return self.line

    def say(self):
        return f"System.out.println({self.number()});"

    def other(self):
        return f"C{self.random.randrange(self.classes)}"

    def holder(self):
        return f"H{self.random.randrange(self.before[1])}"

    def enum(self):
        return self.random.randrange(self.before[0])

    def constant(self):
        """A constant of an enum."""
        number = self.enum()
        return f"E{number}.{self.random.choice(self.enums[number])}"

    def fixed(self):
        """An int expression that mostly reads what never changes of another class's object."""
        enums, holders = self.before
        kind = self.random.randrange(0 if holders else 15, 30 if enums else 15) if enums or holders else 30
        if kind < 9:
            return f"{self.holder()}.{self.random.choice(['LIST', 'THINGS'])}.length"
        if kind < 14:
            return f"{self.holder()}.SIZE"
        if kind == 14:
            return f"{self.holder()}.LIST[0]"
        if kind < 24:
            return f"{self.constant()}.ordinal()"
        if kind < 29:
            return f"E{self.enum()}.ALL.length"
        return f"E{self.enum()}.values().length" if kind == 29 else str(self.random.randint(0, 3))

    def value(self):
        """An int expression that may need a class."""
        kind = self.random.randrange(9)
        if kind > 6:
            return self.fixed()
        if kind == 0:
            return str(self.random.randint(-3, 9))
        if kind == 1:
            return f"{self.other()}.a"
        if kind == 2:
            return f"{self.other()}.b"
        if kind == 3:
            return f"{self.other()}.K"
        if kind == 4:
            # calls end: a method calls others with a smaller argument
            return f"{self.other()}.m({'n - 1' if self.in_method else self.random.randint(0, 3)})"
        if kind == 5 and self.interfaces:
            return f"I{self.random.randrange(self.interfaces)}.v{self.random.randrange(2)}"
        return f"({self.other()}.a + {self.random.randint(1, 3)})"

    def statement(self, depth):
        kind = self.random.randrange(20)
        if kind > 12:
            return self.of_holders(kind)
        if kind <= 1:
            return self.say()
        if kind <= 3:
            return f"System.out.println({self.value()});"
        if kind == 4:
            return f"{self.other()}.a = {self.value()};"
        if kind == 5:
            return f"new {self.other()}();"
        if kind == 6 and depth:
            return f"if ({self.value()} < {self.random.randint(0, 6)}) {{ {self.block(depth - 1)} }}"
        if kind <= 8 and depth:
            return self.guarded(depth - 1)
        if kind == 9:
            thrown = f"if (Flags.on) throw {self.random.choice(THROWN)};"
            return thrown if self.chance(0.5) else "Flags.zero = 1 / Flags.zero;"
        if kind == 10:
            return f"Object o{self.number()} = new {self.other()}[{self.random.randint(0, 2)}];"
        if kind == 11:
            return f"System.out.println(Flags.nothing instanceof {self.other()});"
        return f"System.out.println({self.value()} + {self.value()});"

    def of_holders(self, kind):
        if kind == 13:
            return f"{self.holder()}.show();"
        if kind == 14:
            return f"System.out.println({self.constant()}.name());"
        if kind == 15:
            return f"System.out.println({self.constant()} == {self.holder()}.THINGS[0]);"
        if kind == 16:
            return f"{self.holder()}.LIST[{self.random.randint(0, 2)}] = {self.fixed()};"
        if kind == 17:
            return f"{self.holder()}.HEAD.next = new Node(null, {self.number()});"
        if kind == 18:
            return f"Node.chain({self.random.randint(1, 5)});"
        number = self.enum()
        cases = " ".join(f"case {it}: {self.say()}" + (" break;" if self.chance(0.7) else "")
                         for it in self.enums[number] if self.chance(0.8))
        return f"switch (E{number}.{self.random.choice(self.enums[number])}) {{ {cases} default: {self.say()} }}"

    def block(self, depth):
        return " ".join(self.statement(depth) for _ in range(self.random.randint(1, 3)))

    def guarded(self, depth):
        caught = self.random.choice(CAUGHT)
        text = f"try {{ {self.block(depth)} }} catch ({caught} e) {{ {self.say()} }}"
        if self.chance(0.3):
            text += f" finally {{ {self.say()} }}"
        return text

    def interface(self, number):
        above = [f"I{i}" for i in range(number) if self.chance(0.5)]
        extends = f" extends {', '.join(above)}" if above else ""
        default = f" default void d{number}() {{ {self.say()} }}" if self.chance(0.6) else ""
        fields = "".join(
            f" int v{i} = " + (f"Flags.said({self.number()});" if self.chance(0.7) else f"{self.random.randint(0, 9)};")
            for i in range(2)
        )
        # two parents may have a constant of one name, so each interface has both itself
        return f"interface I{number}{extends} {{{fields}{default} }}"

    def method(self):
        self.in_method = True
        body = self.block(1)
        self.in_method = False
        return f"static int m(int n) {{ if (n < 1) return 0; {body} return n; }}"

    def cls(self, number):
        above = f" extends C{self.random.randrange(number)}" if number and self.chance(0.5) else ""
        named = [f"I{i}" for i in range(self.interfaces) if self.chance(0.35)]
        implements = f" implements {', '.join(named)}" if named else ""
        members = [
            f"static int a{' = ' + self.value() if self.chance(0.5) else ''};",
            f"static int b = {self.value()};",
            f"static final int K = {self.random.randint(0, 9) if self.chance(0.5) else self.value()};",
            self.method(),
            f"C{number}() {{ {self.say()} }}",
        ]
        if self.chance(0.85):
            members.append(f"static {{ {self.block(2)} }}")
        self.random.shuffle(members)
        return f"class C{number}{above}{implements} {{ {' '.join(members)} }}"

    def quiet(self):
        """Statements of an initializer of an enum or a holder, most of which may run at build time."""
        kind = self.random.randrange(16)
        if kind < 9:
            return self.random.choice([
                "new Object();", f"size = {self.fixed()};", f"Node.grown({self.random.randint(2, 6)});",
                f"Object[] o{self.number()} = {{ new int[{self.fixed()}], new Object() }};"])
        if kind == 9:
            return "size = 1 / size;"
        before, self.before = self.before, (len(self.enums), self.holders)
        text = self.block(1) if kind == 10 else ""
        self.before = before
        return text

    def table(self, number, is_enum):
        """An enum or a holder, with the enums and holders that it reads."""
        if self.chance(0.9):
            # E0, H0, E1, H1, ..: each reads those before it
            self.before = min(number + (not is_enum), len(self.enums)), min(number, self.holders)
        members = self.enum_members(number) if is_enum else self.holder_members(number)
        self.before = len(self.enums), self.holders
        return f"{'enum E' if is_enum else 'class H'}{number} {{ {members} }}"

    def enum_members(self, number):
        given, before = self.chance(0.4), self.before
        self.before = min(number, before[0]), before[1]  # no argument may name a constant that comes later
        constants = ", ".join(it + (f"({self.fixed()})" if given else "") + (" { }" if self.chance(0.15) else "")
                              for it in self.enums[number])
        self.before = before
        made = f"final int given; E{number}(int n) {{ given = n; }} " if given else ""
        return (f"{constants}; {made}static int size; static final E{number}[] ALL = values(); "
                f"static {{ {self.quiet()} {self.quiet()} }}")

    def holder_members(self, number):
        size = self.fixed() if self.chance(0.7) else self.random.randint(0, 3)
        own = self.random.randint(1, 6)
        lists = [f"new int[{size}]", f"{{ {self.fixed()}, {self.fixed()} }}", f"Node.grown({own})"]
        other = self.holder() if self.before[1] and self.chance(0.5) else None
        members = [
            f"LIST = {other + '.LIST' if other and self.chance(0.5) else self.random.choice(lists)}",
            f"THINGS = {{ {self.constant()}, {other + '.LIST' if other else 'new int[1]'}, new Object() }}",
            f"NAME = {other + '.NAME' if other and self.chance(0.5) else self.constant() + '.name()'}",
            f"SIZE = {self.fixed()}",
            f"HEAD = {f'new Node({other}.HEAD, {own})' if other else f'Node.chain({own})'}",
        ]
        kinds = ["int[]", "Object[]", "String", "int", "Node"]
        fields = " ".join(f"static final {kind} {it};" for kind, it in zip(kinds, members))
        return (f"static int size; {fields} static {{ {self.quiet()} {self.quiet()} }} static void show() {{"
                " Node.show(LIST); System.out.println(THINGS.length); System.out.println(NAME);"
                " System.out.println(SIZE); System.out.println(size); Node.show(HEAD); }")

    def text(self, package):
        tables = [self.table(i, True) for i in range(len(self.enums))]
        tables += [self.table(i, False) for i in range(self.holders)]
        interfaces = [self.interface(i) for i in range(self.interfaces)]
        classes = [self.cls(i) for i in range(self.classes)]
        own = f"static {{ {self.block(1)} }} " if self.chance(0.2) else ""
        body = " ".join(self.guarded(2) if self.chance(0.9) else self.statement(2)
                        for _ in range(self.random.randint(2, 7)))
        return "\n".join([
            f"package {package};",
            COMMON,
            *tables,
            *interfaces,
            *classes,
            f"class Main {{ {own}public static void main(String[] words) {{ {body} }} }}",
            "",
        ])


def compiled(folder, count, seed):
    """Compiles so many programs, each of a package of its own."""
    sources = []
    for number in range(count):
        place = folder / f"p{number}"
        place.mkdir()
        file = place / "Main.java"
        file.write_text(Source(seed * 1_000_003 + number).text(f"p{number}"))
        sources.append(str(file))
    words = ["javac", *OPTIONS, "-d", str(folder / "classes")]
    for first in range(0, count, 100):
        subprocess.run([*words, *sources[first : first + 100]], check=True)


def on_jvm(folder, count):
    """What a JVM shows of each: its text and how its thread ended."""
    classes = folder / "classes"
    subprocess.run(["javac", "-d", str(folder / "driver"), str(HERE / "Initialization.java")], check=True)
    words = ["java", "-cp", str(folder / "driver"), "Initialization", str(classes), str(count)]
    lines = subprocess.run(words, check=True, capture_output=True, text=True).stdout.splitlines()
    shown, text = [], []
    for line in lines:
        if line.startswith("end "):
            shown.append(("".join(it + "\n" for it in text), line[len("end ") :]))
            text = []
        else:
            text.append(line[1:])
    return shown


def called(words):
    """What preinit writes to standard output, and what to standard error."""
    ran = subprocess.run(words, capture_output=True, text=True)
    return ran.stdout, ran.stderr.strip()


class Here:
    """What preinit shows of a program, in each mode."""

    def __init__(self, asked, folder, number):
        self.new, self.old = shlex.split(asked.cmd), shlex.split(asked.old or "")
        self.folder, self.entry = folder, ["--entries", f"p{number}.Main"]
        self.files = sorted(str(it) for it in (folder / "classes" / f"p{number}").glob("*.class"))
        self.now, self.earlier = self.report(self.new), self.report(self.old) if self.old else {}
        self.refused = self.image()

    def report(self, command):
        """What becomes of each class: `build`, its wave and the count of its objects, or `run` and why."""
        lines = called([*command, "report", *self.files])[0].splitlines()
        return {line.split(" ")[0]: line.split(" ")[1:] for line in lines}

    def image(self):
        """Makes an image. It answers what is shown where that is refused."""
        return unless_quiet(called([*self.new, "build", "--out", str(self.folder / "image"), *self.files]))

    def renewed(self):
        """Makes an image of version 1 and renews it. It answers what is shown where that is refused or otherwise."""
        first, second = str(self.folder / "first"), str(self.folder / "renewed")
        refused = (unless_quiet(called([*self.old, "build", "--out", first, *self.files]))
                   or unless_quiet(called([*self.new, "renew", "--out", second, first])))
        if refused or built(self.earlier) != built(self.now):
            return refused
        same = (self.folder / "image").read_bytes() == (self.folder / "renewed").read_bytes()
        return None if same else ("", "another image than that of build")

    def shown(self, mode):
        if mode == "lazy":
            return ended(*called([*self.new, "lazy", *self.entry, *self.files]))
        found = self.renewed() if mode == "renewed" else self.refused
        turns = [] if mode == "threads" else ["--turns"]
        image = self.folder / ("renewed" if mode == "renewed" else "image")
        return found or ended(*called([*self.new, "run", *turns, *self.entry, str(image)]))

    def counts(self):
        """How many classes there are, and are initialized in the image; and which of these --old refused, and how many
        objects more it has of the others."""
        now, earlier = built(self.now), built(self.earlier)
        moved = [it for it in now - earlier if it in self.earlier]
        looked = sum(self.earlier[it][1] == "ForeignObject" for it in moved)
        dropped = sum(int(self.earlier[it][2]) - int(self.now[it][2]) for it in now & earlier)
        return {"classes": len(self.now), "built": len(now), "moved": len(moved), "lost": len(earlier - now),
                "looked": looked, "programs that look": looked > 0, "dropped": dropped,
                "programs that drop": dropped > 0, "same images": now == earlier}


def built(report):
    """The classes that are initialized at build time."""
    return {it for it, found in report.items() if found[0] == "build"}


def ended(text, end):
    return text, end.removeprefix("thread 0 ")


def unless_quiet(shown):
    return None if shown == ("", "") else shown


def compared(asked, folder, number, wanted, count):
    """Compares one program in each mode."""
    here = Here(asked, folder, number)
    for mode in asked.mode:
        found = here.shown(mode)
        count[mode] += found == wanted
        if found != wanted:
            print(f"p{number}, {mode}: here {found}, on a JVM {wanted}")
    count.update(here.counts())


def told(asked, count, ends):
    """Prints what was found, and answers whether all agree."""
    print(", ".join(f"{number} {end}" for end, number in ends.most_common()))
    print(f"{count['built']} of {count['classes']} classes are initialized in the images")
    if asked.old:
        print(f"{count['moved']} of them are not in images of --old: {count['looked']} looked into objects of others,"
              f" in {count['programs that look']} programs; {count['lost']} others are")
        print(f"{count['dropped']} objects of the others are left out, in {count['programs that drop']} programs")
        print(f"{count['same images']} renewed images have to be those of build")
    else:
        print("renewed: passed over without --old")
    for mode in asked.mode:
        print(f"{mode}: {count[mode]} of {asked.count} agree")
    return count["lost"] == 0 and all(count[mode] == asked.count for mode in asked.mode)


def words():
    reader = argparse.ArgumentParser(formatter_class=argparse.RawDescriptionHelpFormatter, description=__doc__)
    reader.add_argument("--cmd", required=True)
    reader.add_argument("--old")
    reader.add_argument("--mode", default=",".join(MODES))
    reader.add_argument("--count", type=int, default=500)
    reader.add_argument("--seed", type=int, default=1)
    reader.add_argument("--keep")
    asked = reader.parse_args()
    asked.mode = [it for it in asked.mode.split(",") if it != "renewed" or asked.old]
    if set(asked.mode) - set(MODES):
        reader.error(f"modes are {', '.join(MODES)}")
    return asked


def main():
    asked = words()
    with tempfile.TemporaryDirectory() as room:
        folder = pathlib.Path(asked.keep or room)
        folder.mkdir(exist_ok=True)
        compiled(folder, asked.count, asked.seed)
        count, ends = Counter(), Counter()
        for number, wanted in enumerate(on_jvm(folder, asked.count)):
            ends[re.sub(r"p\d+/", "", wanted[1])] += 1
            compared(asked, folder, number, wanted, count)
    sys.exit(not told(asked, count, ends))


if __name__ == "__main__":
    main()
