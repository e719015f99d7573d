"""Class files as values, the built-in classes, and the relations between classes (JVMS 4, 5.4.3), read anew.

Nothing here is made to be fast, or to be safe on bad files: it reads what `class_text` puts together or a compiler
wrote.
"""
import struct
from dataclasses import dataclass, field

PRIVATE, STATIC, FINAL, SYNCHRONIZED, NATIVE, INTERFACE, ABSTRACT = 2, 8, 16, 32, 256, 512, 1024

# The built-in classes and their superclasses.
BUILT_IN = {"java/lang/" + name: above and "java/lang/" + above for name, above in (
    ("Object", None), ("String", "Object"), ("System", "Object"), ("Enum", "Object"), ("Throwable", "Object"),
    ("Exception", "Throwable"), ("RuntimeException", "Exception"), ("ArithmeticException", "RuntimeException"),
    ("NullPointerException", "RuntimeException"), ("ClassCastException", "RuntimeException"),
    ("ArrayStoreException", "RuntimeException"), ("NegativeArraySizeException", "RuntimeException"),
    ("IllegalMonitorStateException", "RuntimeException"), ("IndexOutOfBoundsException", "RuntimeException"),
    ("ArrayIndexOutOfBoundsException", "IndexOutOfBoundsException"), ("Error", "Throwable"),
    ("LinkageError", "Error"), ("ExceptionInInitializerError", "LinkageError"),
    ("NoClassDefFoundError", "LinkageError"))}
STREAM = "java/io/PrintStream"
BUILT_IN[STREAM] = "java/lang/Object"

PRINTED = ["I", "J", "C", "Z", "Ljava/lang/String;"]


def built_in_method(owner, member):
    """Whether a built-in class itself has a method of this name and descriptor."""
    name, descriptor = member
    if owner == "java/lang/Object":
        return member == ("<init>", "()V")
    if owner == "java/lang/Enum":
        return member in (("<init>", "(Ljava/lang/String;I)V"), ("name", "()Ljava/lang/String;"), ("ordinal", "()I"))
    if owner == STREAM:
        takes = [f"({kind})V" for kind in PRINTED]
        return name in ("print", "println") and descriptor in takes or member == ("println", "()V")
    while owner is not None and owner != "java/lang/Throwable":
        owner = BUILT_IN.get(owner)
    return owner is not None and name == "<init>" and descriptor in ("()V", "(Ljava/lang/String;)V")


@dataclass
class Code:
    """The Code of a method (JVMS 4.7.3)."""
    max_stack: int
    max_locals: int
    bytes: bytes
    handlers: list


@dataclass
class Member:
    """A field or a method, with its ConstantValue's entry or its Code."""
    flags: int
    name: str
    descriptor: str
    constant: int = None
    code: Code = None

    def has(self, flag):
        return self.flags & flag != 0


@dataclass
class ClassFile:
    """A class file."""
    pool: dict = field(default_factory=dict)
    flags: int = 0
    name: str = ""
    superclass: str = None
    interfaces: list = field(default_factory=list)
    fields: list = field(default_factory=list)
    methods: list = field(default_factory=list)

    def method(self, member):
        return next((one for one in self.methods if (one.name, one.descriptor) == member), None)


class Reader:
    """The bytes of a class file, from front to back."""

    def __init__(self, data):
        self.data, self.at = data, 0

    def number(self, form):
        value, = struct.unpack_from(">" + form, self.data, self.at)
        self.at += struct.calcsize(form)
        return value

    def run(self, length):
        self.at += length
        return self.data[self.at - length:self.at]


FORMS = {3: "i", 4: "I", 5: "q", 6: "Q", 7: "H", 8: "H", 9: "HH", 10: "HH", 11: "HH", 12: "HH", 15: "BH", 16: "H",
         18: "HH"}


def text_of(spelled):
    """The text of modified UTF-8, with its surrogates one by one."""
    return spelled.replace(b"\xC0\x80", b"\0").decode("utf-8", "surrogatepass")


def read_pool(reader):
    """The entries by their indices: a tag, and what stands in it."""
    pool, index, count = {}, 1, reader.number("H")
    while index < count:
        tag = reader.number("B")
        if tag == 1:
            pool[index] = (tag, text_of(reader.run(reader.number("H"))))
        else:
            pool[index] = (tag, *(reader.number(form) for form in FORMS[tag]))
        index += 2 if tag in (5, 6) else 1
    return pool


def read_class(data):
    """The class file of these bytes."""
    reader = Reader(data)
    reader.run(8)
    found = ClassFile(pool=read_pool(reader))
    pool = found.pool

    def class_name(index):
        return pool[pool[index][1]][1] if index else None

    found.flags = reader.number("H")
    found.name, found.superclass = class_name(reader.number("H")), class_name(reader.number("H"))
    found.interfaces = [class_name(reader.number("H")) for _ in range(reader.number("H"))]
    found.fields = [read_member(reader, pool) for _ in range(reader.number("H"))]
    found.methods = [read_member(reader, pool) for _ in range(reader.number("H"))]
    return found


def read_member(reader, pool):
    flags, name, descriptor = reader.number("H"), reader.number("H"), reader.number("H")
    member = Member(flags, pool[name][1], pool[descriptor][1])
    for _ in range(reader.number("H")):
        name = pool[reader.number("H")][1]
        content = Reader(reader.run(reader.number("I")))
        if name == "ConstantValue":
            member.constant = content.number("H")
        elif name == "Code":
            member.code = read_code(content)
    return member


def read_code(reader):
    max_stack, max_locals = reader.number("H"), reader.number("H")
    code = reader.run(reader.number("I"))
    handlers = [tuple(reader.number("H") for _ in range(4)) for _ in range(reader.number("H"))]
    return Code(max_stack, max_locals, code, handlers)


def kinds_of(descriptor):
    """The descriptors of the parameters of a method, and that of its result."""
    kinds, at = [], 1
    while descriptor[at] != ")":
        end = at
        while descriptor[end] == "[":
            end += 1
        end = descriptor.index(";", end) + 1 if descriptor[end] == "L" else end + 1
        kinds.append(descriptor[at:end])
        at = end
    return kinds, descriptor[at + 1:]


def kind_of(descriptor):
    """What a value of a type is: I, J or A."""
    return "I" if descriptor in "ZBSCI" else "J" if descriptor == "J" else "A"


class Classes:
    """The given classes of a program beside the built-in ones."""

    def __init__(self, files):
        self.given = {file.name: file for file in files}

    def number(self, name):
        """The number of a given class, by the order of names' bytes."""
        order = sorted(self.given, key=lambda name: name.replace("\0", "\x80").encode("utf-8", "surrogatepass"))
        return order.index(name)

    def known(self, name):
        if name.startswith("["):
            element = name.lstrip("[")
            return not element.startswith("L") or self.known(element[1:-1])
        return name in self.given or name in BUILT_IN

    def is_interface(self, name):
        return name in self.given and self.given[name].flags & INTERFACE != 0

    def above(self, name):
        """A class and its superclasses, nearest first."""
        while name is not None:
            yield name
            if name.startswith("["):
                name = "java/lang/Object"
            else:
                name = self.given[name].superclass if name in self.given else BUILT_IN[name]

    def interfaces_above(self, name):
        """The superinterfaces of a class and of its superclasses, depth first, each once."""
        found = []

        def visit(interface):
            if interface not in found:
                found.append(interface)
                for further in self.given[interface].interfaces:
                    visit(further)

        for owner in self.above(name):
            for interface in self.given[owner].interfaces if owner in self.given else []:
                visit(interface)
        return found

    def is_below(self, name, other):
        """Whether a value of one class or array type can be assigned to another (JVMS 6.5, checkcast)."""
        if name == other or other == "java/lang/Object":
            return True
        if name.startswith("["):
            if not other.startswith("[") or name[1] not in "[L" or other[1] not in "[L":
                return False
            return self.is_below(*(one[1:] if one[1] == "[" else one[2:-1] for one in (name, other)))
        return other in self.above(name) or other in self.interfaces_above(name)

    def field(self, name, member):
        """The class that declares a field, and the field."""
        if name.startswith("["):
            return None
        for owner in self.above(name):
            for place in [owner, *self.all_interfaces(owner)]:
                for one in self.given[place].fields if place in self.given else []:
                    if (one.name, one.descriptor) == member:
                        return place, one
            if (owner, *member) == ("java/lang/System", "out", "Ljava/io/PrintStream;"):
                return owner, Member(STATIC | FINAL, *member)
        return None

    def all_interfaces(self, owner):
        """The direct superinterfaces of a class and those above them, depth first."""
        found = []
        for interface in self.given[owner].interfaces if owner in self.given else []:
            found += [interface, *self.all_interfaces(interface)]
        return found

    def declared(self, owner, member):
        """The method that a class itself has."""
        if owner in self.given:
            return self.given[owner].method(member)
        if owner.startswith("["):
            return Member(1, *member) if member == ("clone", "()Ljava/lang/Object;") else None
        return Member(1, *member) if built_in_method(owner, member) else None

    def method(self, name, member):
        """The class that declares the method that a reference resolves to, and the method (JVMS 5.4.3.3, 5.4.3.4)."""
        for owner in [name] if self.is_interface(name) else self.above(name):
            found = self.declared(owner, member)
            if found:
                return owner, found
        specific = self.specific(name, member)
        if specific:
            return specific
        for owner in self.interfaces_above(name):
            found = self.declared(owner, member)
            if found and not found.has(PRIVATE) and not found.has(STATIC):
                return owner, found
        return None

    def specific(self, name, member):
        """The one maximally specific superinterface method that is not abstract."""
        found = [(owner, self.declared(owner, member)) for owner in self.interfaces_above(name)]
        found = [(owner, one) for owner, one in found if one and not one.has(PRIVATE) and not one.has(STATIC)]
        top = [(owner, one) for owner, one in found
               if not any(other != owner and self.is_below(other, owner) for other, _ in found)]
        with_code = [pair for pair in top if not pair[1].has(ABSTRACT)]
        return with_code[0] if len(with_code) == 1 else None

    def select(self, name, member):
        """The method that a call on an object of a class runs (JVMS 6.5, invokevirtual)."""
        for owner in self.above(name):
            found = self.declared(owner, member)
            if found and not found.has(PRIVATE) and not found.has(STATIC):
                return owner, found
        return self.specific(name, member)

    def special(self, current, name, member):
        """The method that invokespecial runs, from the named class or from the direct superclass of the current."""
        if not self.is_interface(name) and member[0] != "<init>" and name in list(self.above(current))[1:]:
            name = self.given[current].superclass
        for owner in self.above(name):
            found = self.declared(owner, member)
            if found and not found.has(STATIC):
                return owner, found
            if self.is_interface(name):
                break
        return self.specific(name, member)

    def initialized_before(self, name):
        """What is initialized before a class: its superclass, and the interfaces with code that it names."""
        file = self.given[name]
        if file.flags & INTERFACE:
            return []
        order = [file.superclass] if file.superclass in self.given else []

        def visit(interface):
            for further in self.given[interface].interfaces:
                visit(further)
            has_code = any(not one.has(ABSTRACT) and not one.has(STATIC) for one in self.given[interface].methods)
            if has_code and interface not in order:
                order.append(interface)

        for interface in file.interfaces:
            visit(interface)
        return order
