"""Class files from a text, and bytes from their spelling.

A class is a line, which goes on in the lines that begin with two spaces, or stands after ` | ` and another. It begins
with `class` or `interface`, and its name; then in this order, each only where it is there: `below` and a superclass,
which is `java/lang/Object` otherwise and none at all where it is `nothing`; `implements` and superinterfaces; and after
a colon the members, apart by commas. Access flags as four hexadecimal digits may stand before the name.

A member begins with its flags, as words or as four hexadecimal digits:

    static final x:I                   a field
    static final x:I int:5             a field with a ConstantValue
    abstract m()V                      a method without code, as it is abstract or native
    m(I)V                              a method whose code is `return`
    m(I)V 2 1 nop return               a method with its limits on operands and local variables, and its code
    main 2 1 nop return                public static main(String[]), with its code
    initializer 2 0 return             static <clinit>(), with its code
    attribute Name 0A0B                an attribute of the class, with its bytes

A line that begins with `bytes` is a class file as its bytes are spelled (`spelled`). In names and other texts a
backslash, `u` and four hexadecimal digits are a UTF-16 unit. The words of code are told at `CodeText`, those of the
constant pool at `Pool.constant`.

Nothing is verified: what a text asks for is written. A word that means nothing raises `Misspelled`.
"""
import re
import struct
from dataclasses import dataclass, field

MNEMONICS = """nop aconst_null iconst_m1 iconst_0 iconst_1 iconst_2 iconst_3 iconst_4 iconst_5 lconst_0 lconst_1
fconst_0 fconst_1 fconst_2 dconst_0 dconst_1 bipush sipush ldc ldc_w ldc2_w iload lload fload dload aload iload_0
iload_1 iload_2 iload_3 lload_0 lload_1 lload_2 lload_3 fload_0 fload_1 fload_2 fload_3 dload_0 dload_1 dload_2 dload_3
aload_0 aload_1 aload_2 aload_3 iaload laload faload daload aaload baload caload saload istore lstore fstore dstore
astore istore_0 istore_1 istore_2 istore_3 lstore_0 lstore_1 lstore_2 lstore_3 fstore_0 fstore_1 fstore_2 fstore_3
dstore_0 dstore_1 dstore_2 dstore_3 astore_0 astore_1 astore_2 astore_3 iastore lastore fastore dastore aastore bastore
castore sastore pop pop2 dup dup_x1 dup_x2 dup2 dup2_x1 dup2_x2 swap iadd ladd fadd dadd isub lsub fsub dsub imul lmul
fmul dmul idiv ldiv fdiv ddiv irem lrem frem drem ineg lneg fneg dneg ishl lshl ishr lshr iushr lushr iand land ior lor
ixor lxor iinc i2l i2f i2d l2i l2f l2d f2i f2l f2d d2i d2l d2f i2b i2c i2s lcmp fcmpl fcmpg dcmpl dcmpg ifeq ifne iflt
ifge ifgt ifle if_icmpeq if_icmpne if_icmplt if_icmpge if_icmpgt if_icmple if_acmpeq if_acmpne goto jsr ret tableswitch
lookupswitch ireturn lreturn freturn dreturn areturn return getstatic putstatic getfield putfield invokevirtual
invokespecial invokestatic invokeinterface invokedynamic new newarray anewarray arraylength athrow checkcast instanceof
monitorenter monitorexit wide multianewarray ifnull ifnonnull goto_w jsr_w""".split()

OPCODES = {name: number for number, name in enumerate(MNEMONICS)}

FLAGS = {"public": 1, "private": 2, "protected": 4, "static": 8, "final": 16, "synchronized": 32, "native": 256,
         "abstract": 1024}
NATIVE_OR_ABSTRACT = 0x0500


class Misspelled(ValueError):
    """A word of a text means nothing."""


def spelled(text: str) -> bytes:
    """The bytes of words: `0A1B` is two bytes, `'Code'` is the letters, and `255*5B` is a byte so many times; `0*00`
    is nothing. The words between `[` and `]` come after the number of their bytes, which has two bytes, and between
    `[[` and `]]` four."""
    open_brackets = [("", bytearray())]
    for word in text.split():
        if word in ("[", "[["):
            open_brackets.append((word, bytearray()))
        elif word in ("]", "]]"):
            opened, content = open_brackets.pop()
            if len(opened) != len(word):
                raise Misspelled(word)
            open_brackets[-1][1].extend(struct.pack(">H" if word == "]" else ">I", len(content)) + content)
        else:
            open_brackets[-1][1].extend(plain(word))
    if len(open_brackets) != 1:
        raise Misspelled("[")
    return bytes(open_brackets[0][1])


def plain(word: str) -> bytes:
    """The bytes of a word that is no bracket."""
    if letters := re.fullmatch("'([^']*)'", word):
        return letters[1].encode()
    if repeated := re.fullmatch(r"(\d+)\*((?:[0-9A-Fa-f]{2})*)", word):
        return bytes.fromhex(repeated[2]) * int(repeated[1])
    if re.fullmatch("(?:[0-9A-Fa-f]{2})*", word):
        return bytes.fromhex(word)
    raise Misspelled(word)


def units(text: str) -> list[int]:
    """The UTF-16 units of a text, in which a backslash, `u` and four digits are one."""
    found = []
    for place, part in enumerate(text.split("\\u")):
        if place:
            found.append(int(part[:4], 16))
            part = part[4:]
        encoded = part.encode("utf-16-be", "surrogatepass")
        found += struct.unpack(f">{len(encoded) // 2}H", encoded)
    return found


def modified_utf8(text: str) -> bytes:
    """A text as class files spell it (JVMS 4.4.7)."""
    out = bytearray()
    for unit in units(text):
        if 0 < unit < 0x80:
            out.append(unit)
        elif unit < 0x800:
            out += bytes((0xC0 | unit >> 6, 0x80 | unit & 63))
        else:
            out += bytes((0xE0 | unit >> 12, 0x80 | unit >> 6 & 63, 0x80 | unit & 63))
    return bytes(out)


class Pool:
    """A constant pool (JVMS 4.4): each entry once, in the order in which it is first asked for."""

    def __init__(self):
        self.entries, self.next = {}, 1

    def entry(self, content: bytes) -> int:
        if content not in self.entries:
            self.entries[content] = self.next
            self.next += 2 if content[0] in (5, 6) else 1
        return self.entries[content]

    def utf8(self, text: str) -> int:
        content = modified_utf8(text)
        return self.entry(struct.pack(">BH", 1, len(content)) + content)

    def class_(self, name: str) -> int:
        return self.entry(struct.pack(">BH", 7, self.utf8(name)))

    def member(self, tag: int, word: str) -> int:
        """The reference to a member, whose class and name have a dot between them: to a field where a colon follows."""
        name, dot, member = word.partition(".")
        if not dot:
            raise Misspelled(word)
        if ":" in member:
            tag = 9
        class_ = self.class_(name)
        return self.entry(struct.pack(">BHH", tag, class_, self.name_and_type(member)))

    def name_and_type(self, member: str) -> int:
        if ":" in member:
            name, descriptor = member.split(":", 1)
        elif "(" in member:
            name, rest = member.split("(", 1)
            descriptor = "(" + rest
        else:
            raise Misspelled(member)
        first = self.utf8(name)
        return self.entry(struct.pack(">BHH", 12, first, self.utf8(descriptor)))

    def constant(self, word: str) -> int:
        """The index of the entry of a word. `T.x:I` is a Fieldref, `T.m(I)V` a Methodref and `interface:T.m(I)V` an
        InterfaceMethodref. `int:5`, `long:5`, `float:7FC00000` and `double:0` are numbers, the last two by their bits;
        `string:text`, `class:T`, `type:()V`, `dynamic:0/m()V` and `handle:6/T.m()V` are the others by their tags."""
        kind, colon, rest = word.partition(":")
        if not colon or "." in kind:
            return self.member(10, word)
        if kind in ("int", "long"):
            return self.entry(struct.pack(">Bi" if kind == "int" else ">Bq", 3 if kind == "int" else 5, int(rest)))
        if kind in ("float", "double"):
            bits = int(rest, 16)
            return self.entry(struct.pack(">BI" if kind == "float" else ">BQ", 4 if kind == "float" else 6, bits))
        if kind in ("string", "class", "type"):
            return self.entry(struct.pack(">BH", {"string": 8, "class": 7, "type": 16}[kind], self.utf8(rest)))
        if kind == "interface":
            return self.member(11, rest)
        number, _, member = rest.partition("/")
        if kind == "dynamic":
            return self.entry(struct.pack(">BHH", 18, int(number), self.name_and_type(member)))
        if kind == "handle":
            return self.entry(struct.pack(">BBH", 15, int(number), self.member(10, member)))
        raise Misspelled(word)

    def write(self) -> bytes:
        return struct.pack(">H", self.next) + b"".join(self.entries)


class CodeText:
    """The code of one method, word by word.

    A word is the name of an instruction, which begins one; a byte in decimal digits; `#300` and `##300`, a number of
    two and of four bytes; an entry of the constant pool, as `T.x:I`, for its index; `here:`, a label of this place;
    `>here` and `>>here`, the offset of a label from the instruction, in two and in four bytes; `pad`, zeros up to a
    multiple of four; `catch:from,to,handler,T`, three labels and a class or `any`, an entry of the exception table;
    `out`, `getstatic` of `System.out`; or `println`, `invokevirtual` of `PrintStream.println(int)`. A number and `*`
    before one repeat it."""

    def __init__(self, pool: Pool):
        self.pool, self.code, self.start, self.short = pool, bytearray(), 0, False
        self.labels, self.offsets, self.handlers = {}, [], []

    def add(self, words: list[str]):
        for word in words:
            times, star, single = word.partition("*")
            if star and times.isdigit():
                for _ in range(int(times)):
                    self.add_single(single)
            else:
                self.add_single(word)

    def add_single(self, word: str):
        if word in OPCODES:
            self.start, self.short = len(self.code), word == "ldc"
            self.code.append(OPCODES[word])
        elif word == "out":
            self.add(["getstatic", "java/lang/System.out:Ljava/io/PrintStream;"])
        elif word == "println":
            self.add(["invokevirtual", "java/io/PrintStream.println(I)V"])
        elif word == "pad":
            self.code += bytes(-len(self.code) % 4)
        else:
            self.add_operand(word)

    def add_operand(self, word: str):
        if word.endswith(":"):
            self.labels.setdefault(word[:-1], len(self.code))
        elif word.startswith(">"):
            wide = word.startswith(">>")
            self.offsets.append((len(self.code), self.start, word[2 if wide else 1:], wide))
            self.code += bytes(4 if wide else 2)
        elif word.startswith("##"):
            self.code += struct.pack(">i", int(word[2:]))
        elif word.startswith("#"):
            self.code += struct.pack(">h", int(word[1:]))
        elif word.startswith("catch:"):
            start, end, handler, name = word[6:].split(",")
            self.handlers.append((start, end, handler, 0 if name == "any" else self.pool.class_(name)))
        elif word.isdigit() and int(word) < 256:
            self.code.append(int(word))
        else:
            index = self.pool.constant(word)
            self.code += struct.pack(">B" if self.short else ">H", index)

    def place_of(self, label: str) -> int:
        if label not in self.labels:
            raise Misspelled(label)
        return self.labels[label]

    def content(self, max_stack: int, max_locals: int) -> bytes:
        """The content of the attribute Code, with these limits."""
        for at, start, label, wide in self.offsets:
            offset, most = self.place_of(label) - start, 1 << (31 if wide else 15)
            if not -most <= offset < most:
                raise Misspelled(label)
            struct.pack_into(">i" if wide else ">h", self.code, at, offset)
        out = struct.pack(">HHI", max_stack, max_locals, len(self.code)) + self.code
        out += struct.pack(">H", len(self.handlers))
        for *labels, catch_type in self.handlers:
            out += struct.pack(">HHHH", *map(self.place_of, labels), catch_type)
        return out + b"\0\0"


@dataclass
class ClassText:
    """A class of a text, and its parts as they are put together."""

    name: str
    flags: int
    superclass: str
    interfaces: list[str]
    members: list[str] = field(default_factory=list)
    version: int = 52

    def file(self) -> bytes:
        """Its class file."""
        return self.file_with(None)[0]

    def file_with(self, constant: str | None) -> tuple[bytes, int]:
        """Its class file with one entry more in its pool, and the index of that, or 0."""
        pool = Pool()
        this_class = pool.class_(self.name)
        index = pool.constant(constant) if constant else 0
        above = None
        if self.superclass == "nothing":
            above = 0
        elif self.superclass:
            above = pool.class_(self.superclass)
        interfaces = [pool.class_(name) for name in self.interfaces]
        fields, methods, attributes = [], [], []
        for member in self.members:
            add_member(pool, fields, methods, attributes, member.split())
        if above is None:
            above = pool.class_("java/lang/Object")
        out = b"\xCA\xFE\xBA\xBE" + struct.pack(">HH", 0, self.version) + pool.write()
        out += struct.pack(">HHH", self.flags, this_class, above)
        out += struct.pack(">H", len(interfaces)) + b"".join(struct.pack(">H", index) for index in interfaces)
        for table in (fields, methods, attributes):
            out += struct.pack(">H", len(table)) + b"".join(table)
        return out, index


def class_of(line: str) -> ClassText:
    """The class of a line of text."""
    head, _, members = line.partition(": ")
    head, _, interfaces = head.partition(" implements ")
    head, _, superclass = head.partition(" below ")
    kind, _, name = head.partition(" ")
    if kind not in ("class", "interface"):
        raise Misspelled(kind)
    flags = 0x0601 if kind == "interface" else 0x0021
    first, _, rest = name.partition(" ")
    if rest and re.fullmatch("[0-9A-Fa-f]{4}", first):
        flags, name = int(first, 16), rest
    texts = [text for text in members.split(", ") if text.strip()]
    return ClassText(name, flags, superclass, interfaces.split(), texts)


def lines_of(text: str) -> list[str]:
    """The lines of a text with each class on one line."""
    return [line for line in text.replace("\n  ", " ").replace(" | ", "\n").split("\n") if line.strip()]


def file_of(line: str) -> bytes:
    """The class file of a line."""
    return spelled(line[6:]) if line.startswith("bytes ") else class_of(line).file()


def files_of(text: str) -> list[bytes]:
    """The class files of a text."""
    return [file_of(line) for line in lines_of(text)]


def flags_before(words: list[str]) -> tuple[int, list[str]]:
    """The flags that words begin with, and the other words."""
    flags = 0
    for place, word in enumerate(words):
        if word in FLAGS:
            flags |= FLAGS[word]
        elif re.fullmatch("[0-9A-Fa-f]{4}", word):
            flags |= int(word, 16)
        else:
            return flags, words[place:]
    return flags, []


def attribute(name: int, content: bytes) -> bytes:
    return struct.pack(">HI", name, len(content)) + content


def add_member(pool: Pool, fields: list, methods: list, attributes: list, words: list[str]):
    """Adds the member of these words to its table."""
    flags, words = flags_before(words)
    if not words:
        return
    word, *rest = words
    if word == "attribute":
        attributes.append(attribute(pool.utf8(rest[0]), spelled(rest[1] if rest[1:] else "")))
    elif word == "main":
        add_method(pool, methods, 9, "main", "([Ljava/lang/String;)V", rest)
    elif word == "initializer":
        add_method(pool, methods, 8, "<clinit>", "()V", rest)
    elif ":" in word:
        add_field(pool, fields, flags, word, rest)
    elif "(" in word:
        name, _, descriptor = word.partition("(")
        add_method(pool, methods, flags, name, "(" + descriptor, rest)
    else:
        raise Misspelled(word)


def add_field(pool: Pool, fields: list, flags: int, word: str, rest: list[str]):
    name, descriptor = word.split(":", 1)
    header = struct.pack(">HHH", flags, pool.utf8(name), pool.utf8(descriptor))
    if not rest:
        fields.append(header + b"\0\0")
        return
    value = pool.utf8("ConstantValue")
    fields.append(header + b"\0\1" + attribute(value, struct.pack(">H", pool.constant(rest[0]))))


def limit_of(words: list[str]) -> int:
    """The limit that a word is."""
    word = "".join(words)
    if not word.isdigit() or int(word) > 0xFFFF:
        raise Misspelled(word or "a limit")
    return int(word)


def add_method(pool: Pool, methods: list, flags: int, name: str, descriptor: str, rest: list[str]):
    if rest:
        max_stack, max_locals = limit_of(rest[:1]), limit_of(rest[1:2])
        code = CodeText(pool)
        code.add(rest[2:])
        content = code.content(max_stack, max_locals)
    elif flags & NATIVE_OR_ABSTRACT:
        methods.append(struct.pack(">HHH", flags, pool.utf8(name), pool.utf8(descriptor)) + b"\0\0")
        return
    else:
        content = bytes([0, 8, 0, 8, 0, 0, 0, 1, OPCODES["return"], 0, 0, 0, 0])
    header = struct.pack(">HHH", flags, pool.utf8(name), pool.utf8(descriptor))
    methods.append(header + b"\0\1" + attribute(pool.utf8("Code"), content))
