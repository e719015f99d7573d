"""A second interpreter of the instructions, for one thread, written from the same rules (JVMS 5.5, 6.5).

It is there to count the steps of cases and to tell how they end, apart from the program. It keeps a record of which
instruction gave what. A value is a pair of its kind (I, J or A) and what it is: a number, None for null, a Text, OUT
or an Instance.
"""
import struct
from dataclasses import dataclass, field

import class_model as model
from class_text import MNEMONICS, modified_utf8
from class_model import ABSTRACT, FINAL, NATIVE, STATIC, STREAM, SYNCHRONIZED, kind_of


class Ended(Exception):
    """The thread ends: with a Fault of a sort, Unsupported or Missing."""

    def __init__(self, kind, sort=""):
        super().__init__(kind, sort)
        self.kind, self.sort = kind, sort


class Raised(Exception):
    """An exception of a class is raised, or an object is thrown."""

    def __init__(self, name, thrown=None):
        super().__init__(name)
        self.name, self.thrown = name, thrown


def fault(sort):
    return Ended("Fault", sort)


@dataclass(eq=False)
class Instance:
    """An object: an instance with slots, or an array with elements."""
    name: str
    slots: dict = field(default_factory=dict)
    elements: list = None
    depth: int = 0  # how often its monitor is entered


@dataclass(frozen=True)
class Text:
    """A string."""
    text: str


OUT = "System.out"


def class_of(value):
    """The class of a reference that is not null."""
    if isinstance(value, Text):
        return "java/lang/String"
    return STREAM if value is OUT else value.name


def wrapped(number, bits):
    number &= (1 << bits) - 1
    return number - (1 << bits) if number >> (bits - 1) else number


def narrowed(descriptor, number):
    """What a field or a return of a type keeps of a value."""
    if descriptor == "Z":
        return number & 1
    if descriptor == "C":
        return number & 0xFFFF
    return wrapped(number, {"B": 8, "S": 16}[descriptor]) if descriptor in "BS" else number


ZERO = {"I": ("I", 0), "J": ("J", 0), "A": ("A", None)}


def width_of(value):
    return 2 if value[0] == "J" else 1


class Frame:
    """A method's frame."""

    def __init__(self, owner, method, arguments):
        self.owner, self.method, self.code = owner, method, method.code
        self.body = sweep(method.code.bytes)
        self.pc, self.stack, self.locals = 0, [], {}
        for place, value in arguments:
            self.locals[place] = value

    def push(self, value):
        if sum(map(width_of, self.stack)) + width_of(value) > self.code.max_stack:
            raise fault("full")
        self.stack.append(value)

    def pop(self, kind):
        if not self.stack:
            raise fault("empty")
        found, value = self.stack.pop()
        if found != kind:
            raise fault("kind")
        return value

    def load(self, kind, index):
        if index + (kind == "J") >= self.code.max_locals:
            raise fault("local")
        found, value = self.locals.get(index, (None, None))
        if found != kind:
            raise fault("kind")
        self.push((kind, value))

    def store(self, kind, index):
        value = self.pop(kind)
        self.put(index, (kind, value))

    def put(self, index, value):
        if index + width_of(value) > self.code.max_locals:
            raise fault("local")
        if self.locals.get(index - 1, ("",))[0] == "J":
            del self.locals[index - 1]
        self.locals.pop(index + 1, None) if value[0] == "J" else None
        self.locals[index] = value

    def jump(self, target):
        if target not in self.body:
            raise fault("jump")
        self.pc = target


@dataclass
class Entry:
    """An initialization entry: its class, the parents left, whether `<clinit>` has begun, what is pending."""
    name: str
    parents: list
    begun: bool = False
    pending: Instance = None


OPERANDS = {16: "b", 17: "h", 18: "B", 19: "H", 20: "H", 132: "Bb", 169: "B", 185: "HBB", 186: "HBB", 187: "H",
            188: "B", 189: "H", 192: "H", 193: "H", 197: "HB", 198: "h", 199: "h", 200: "i", 201: "i"}
OPERANDS.update({opcode: "B" for opcode in [*range(21, 26), *range(54, 59)]})
OPERANDS.update({opcode: "h" for opcode in range(153, 169)})
OPERANDS.update({opcode: "H" for opcode in range(178, 185)})

# Instructions that are left out, whatever they name.
LEFT_OUT = {name for name in MNEMONICS if name[0] in "fd" and not name.startswith("dup")}
LEFT_OUT |= {"i2f", "i2d", "l2f", "l2d", "jsr", "ret", "invokedynamic", "multianewarray", "jsr_w"}


def sweep(code):
    """The instructions by their places, up to the first that is none: a name, operands and the next place."""
    body, at = {}, 0
    while at < len(code):
        try:
            name, operands, end = instruction(code, at)
        except (struct.error, IndexError, ValueError):
            name, operands, end = "bad", (), len(code)
        body[at] = (name, operands, end)
        at = end
    return body


def instruction(code, at):
    """The instruction at a place, its operands and the next place. ValueError where there is none."""
    name = MNEMONICS[code[at]]
    if name in ("tableswitch", "lookupswitch"):
        return switch(code, at, name)
    if name == "wide":
        opcode = code[at + 1]
        widened = "Hh" if opcode == 132 else "H" if 21 <= opcode <= 25 or 54 <= opcode <= 58 or opcode == 169 else None
        if widened is None:
            raise ValueError
        operands = struct.unpack_from(">" + widened, code, at + 2)
        return MNEMONICS[opcode], operands, at + 2 + struct.calcsize(">" + widened)
    form = ">" + OPERANDS.get(code[at], "")
    operands = struct.unpack_from(form, code, at + 1)
    if name == "newarray" and not 4 <= operands[0] <= 11:
        raise ValueError
    return name, operands, at + 1 + struct.calcsize(form)


def switch(code, at, name):
    start = at + 4 - at % 4
    default, first = struct.unpack_from(">ii", code, start)
    if name == "lookupswitch":
        if first < 0:
            raise ValueError
        numbers = struct.unpack_from(f">{2 * first}i", code, start + 8)
        pairs = list(zip(numbers[::2], numbers[1::2]))
        return name, (default, pairs), start + 8 + 8 * first
    last, = struct.unpack_from(">i", code, start + 8)
    if first > last:
        raise ValueError
    offsets = struct.unpack_from(f">{last - first + 1}i", code, start + 12)
    return name, (default, list(enumerate(offsets, first))), start + 12 + 4 * len(offsets)


class Machine:
    """A program and the world of its one thread."""

    def __init__(self, files, entry):
        self.classes = model.Classes([model.read_class(file) for file in files])
        self.states, self.statics, self.stack, self.printed = {}, {}, [], []
        self.entry, self.ending, self.steps, self.record = model.text_of(modified_utf8(entry)), None, 0, []

    def run(self, limit):
        while self.steps < limit and self.ending is None:
            self.steps += 1
            try:
                self.step()
            except Ended as end:
                self.ending = f"Faulted({end.kind})"
        return self

    def shown(self):
        """What a case says of it: the steps, the ending, and the texts with `;` for the ends of lines."""
        text = f"{self.steps} {self.ending or 'Going'}"
        return " ".join([text, *self.printed]).replace("\n", ";").replace("\x00", "\\u0000")

    def step(self):
        if not self.stack:
            self.start()
        elif isinstance(self.stack[-1], Entry):
            self.initialize(self.stack[-1])
        else:
            self.execute(self.stack[-1])

    def start(self):
        if self.needs(self.entry):
            return
        main = self.classes.given[self.entry].method(("main", "([Ljava/lang/String;)V"))
        argument = ("A", Instance("[Ljava/lang/String;", elements=[]))
        self.enter(self.entry, main, [argument])

    def needs(self, name):
        """Begins the initialization of a class that has not begun. Answers whether it did. Raises one that failed."""
        if self.states.get(name) == "failed":
            raise Raised("NoClassDefFoundError")
        if name not in self.classes.given or name in self.states:
            return False
        self.states[name] = "by"
        file = self.classes.given[name]
        for one in file.fields:
            if one.has(STATIC):
                value = ZERO[kind_of(one.descriptor)]
                if one.has(FINAL) and one.constant:
                    value = self.constant_value(file, one)
                self.statics.setdefault((name, one.name, one.descriptor), value)
        self.stack.append(Entry(name, self.classes.initialized_before(name)))
        return True

    def constant_value(self, file, one):
        tag, content = file.pool[one.constant]
        if tag == 8:
            return "A", Text(file.pool[content][1])
        return kind_of(one.descriptor), narrowed(one.descriptor, content)

    def initialize(self, entry):
        if entry.pending:
            is_error = self.classes.is_below(entry.pending.name, "java/lang/Error")
            self.fail(entry, entry.pending if is_error else Instance("java/lang/ExceptionInInitializerError"))
            return
        if entry.parents:
            if self.states.get(entry.parents[0]) == "failed":
                self.fail(entry, Instance("java/lang/NoClassDefFoundError"))
            elif not self.needs(entry.parents[0]):
                entry.parents.pop(0)
            return
        file = self.classes.given[entry.name]
        method = file.method(("<clinit>", "()V"))
        if not entry.begun and method and method.has(STATIC) and method.code:
            entry.begun = True
            self.stack.append(Frame(entry.name, method, []))
            return
        self.states[entry.name] = "done"
        self.stack.pop()

    def fail(self, entry, thrown):
        """The class can't be used from now on, and an exception is raised below (steps 7, 10 and 11)."""
        self.states[entry.name] = "failed"
        self.stack.pop()
        self.unwind(thrown)

    def enter(self, owner, method, values):
        """Calls a method with its arguments."""
        if method.has(ABSTRACT):
            raise Ended("Missing")
        if method.has(NATIVE) or method.has(SYNCHRONIZED):
            raise Ended("Unsupported")
        arguments, place = [], 0
        for value in values:
            arguments.append((place, value))
            place += width_of(value)
        if place > method.code.max_locals:
            raise fault("local")
        self.stack.append(Frame(owner, method, arguments))

    def made(self, name, slots=None, elements=None):
        """A new object: an instance with slots, or an array with elements."""
        return Instance(name, slots or {}, elements)

    def pays(self, count):
        """Comes before so many elements are made."""

    def looks_into(self, instance):
        """Comes before an object is looked into or changed."""

    def execute(self, frame):
        name, operands, end = frame.body.get(frame.pc, ("bad", (), 0))
        before = list(frame.stack)
        noted = [name, "done", before]
        self.record.append(noted)
        at = frame.pc
        try:
            self.instruction(frame, name, operands, at, end)
        except Raised as raised:
            noted[1] = "raise"
            thrown = raised.thrown or Instance("java/lang/" + raised.name)
            self.unwind(thrown)
        except Ended as ended:
            noted[1] = ended.sort or ended.kind
            raise

    def unwind(self, thrown):
        while self.stack:
            top = self.stack[-1]
            if isinstance(top, Entry):
                top.pending = thrown
                return
            for start, end, handler, catch_type in top.code.handlers:
                if start <= top.pc < end and self.catches(top, catch_type, thrown):
                    top.stack = []
                    top.push(("A", thrown))
                    top.pc = handler
                    return
            self.stack.pop()
        name = thrown.name
        given = name in self.classes.given
        self.ending = f"Uncaught(Given({self.classes.number(name)}))" if given else \
            f"Uncaught(BuiltIn({name.rpartition('/')[2]}))"

    def catches(self, frame, catch_type, thrown):
        if catch_type == 0:
            return True
        pool = self.classes.given[frame.owner].pool
        name = pool[pool[catch_type][1]][1]
        return self.classes.known(name) and self.classes.is_below(thrown.name, name)

    def instruction(self, frame, name, operands, at, end):
        from second_instructions import FAMILIES  # which stands on this file
        if name == "bad":
            raise fault("bad")
        if name in LEFT_OUT:
            raise Ended("Unsupported")
        for family in FAMILIES:
            if family(self, frame, name, operands, at, end):
                return
        raise Ended("Unsupported")
