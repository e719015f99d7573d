#!/usr/bin/env python3
"""Writes class files that make one program: class_sets.py KIND COUNT FILE. KINDS, below, has the kinds.

In the file stand the class files one behind the other, each behind its length in four bytes, in an order that is not
the one of their names.
"""
import random
import struct
import sys

from class_files import Pool, attribute, member

OBJECT = "java/lang/Object"


def class_file(name, above=OBJECT, interfaces=(), flags=0x21, members=None):
    """A class file, with the fields and methods that `members` makes of its constant pool."""
    pool = Pool()
    numbers = [flags, pool.named(7, name), pool.named(7, above), len(interfaces)]
    numbers += [pool.named(7, interface) for interface in interfaces]
    fields, methods = members(pool) if members else ([], [])
    tables = b"".join(struct.pack(">H", len(table)) + b"".join(table) for table in (fields, methods, ()))
    head = b"\xca\xfe\xba\xbe" + struct.pack(">HH", 0, 52)
    return head + pool.bytes() + struct.pack(">%dH" % len(numbers), *numbers) + tables


def method(pool, flags, name, descriptor, code=None):
    attributes = []
    if code is not None:
        body = struct.pack(">HHI", 4, 4, len(code)) + code + struct.pack(">HH", 0, 0)
        attributes.append(attribute(pool, "Code", body))
    return member(flags, pool.text(name), pool.text(descriptor), attributes)


def interface(name, above=()):
    def members(pool):
        return [], [method(pool, 0x1, "run", "()V", b"\xb1")]
    return class_file(name, OBJECT, above, 0x601, members)


def small_class(number, above, interfaces):
    """Two fields, and two methods whose code names fields, a method and a constant."""
    name = "org/example/Class%d" % number

    def members(pool):
        static = pool.pair(9, pool.named(7, name), pool.name_and_type("count%d" % (number % 50), "I"))
        upper = pool.pair(9, pool.named(7, above), pool.name_and_type("value", "J"))
        called = pool.pair(10, pool.named(7, name), pool.name_and_type("run", "()V"))
        constant = pool.add(struct.pack(">BI", 3, number))
        fields = [member(0x8, pool.text("count%d" % (number % 50)), pool.text("I")),
                  member(0x0, pool.text("value"), pool.text("J"))]
        # ldc, putstatic, aload_0, getfield, pop2, return; aload_0, invokevirtual, return
        first = (bytes([18, constant, 179]) + struct.pack(">H", static)
                 + bytes([42, 180]) + struct.pack(">H", upper) + bytes([88, 177]))
        second = bytes([42, 182]) + struct.pack(">H", called) + bytes([177])
        steps = method(pool, 0x1, "step%d" % (number % 20), "()V", first)
        return fields, [steps, method(pool, 0x1, "again", "()V", second)]
    return class_file(name, above, interfaces, 0x21, members)


def small(count):
    """One interface to nine classes, ten below one another in a row, each of which implements one interface."""
    files = []
    for number in range(count):
        group = number - number % 10
        if number == group:
            files.append(interface("org/example/Able%d" % group))
        else:
            above = OBJECT if number == group + 1 else "org/example/Class%d" % (number - 1)
            files.append(small_class(number, above, ["org/example/Able%d" % group]))
    return files


def chain(count):
    """Each class below the one before."""
    return [class_file("C%d" % number, "C%d" % (number - 1) if number else OBJECT) for number in range(count)]


def chain_of_references(count):
    """The same, where each class names a method of the first one as its own."""
    files = []
    for number in range(count):
        def members(pool, name="C%d" % number, is_first=number == 0):
            pool.pair(10, pool.named(7, name), pool.name_and_type("run", "()V"))
            return [], [method(pool, 0x1, "run", "()V", b"\xb1")] if is_first else []
        files.append(class_file("C%d" % number, "C%d" % (number - 1) if number else OBJECT, members=members))
    return files


def fields_above(count):
    """One class with 60,000 instance fields, and so many classes below it."""
    def members(pool):
        return [member(0, pool.text("f%d" % number), pool.text("I")) for number in range(60000)], []
    return [class_file("Top", members=members)] + [class_file("C%d" % number, "Top") for number in range(count)]


def interface_chain(count):
    """Each interface below the one before."""
    return [interface("I%d" % number, ["I%d" % (number - 1)] if number else []) for number in range(count)]


def long_orders(count):
    """A chain of so many interfaces, all initialized before each of as many classes that implement the last one."""
    top = "I%d" % (count - 1)
    return interface_chain(count) + [class_file("C%d" % number, OBJECT, [top]) for number in range(count)]


def references(pool, tag, owner, names, count):
    """So many references to members of a class, as entries of their own, by these names in turn."""
    class_entry = pool.named(7, owner)
    for number in range(count):
        entry = struct.pack(">BHH", tag, class_entry, pool.name_and_type(names[number % len(names)], "()V"))
        pool.add_again(entry)


def declaring(number):
    """The members of an interface that declares the method of this number."""
    def members(pool):
        return [], [method(pool, 0x401, "m%d" % number, "()V")]
    return members


def naming(name, number=0):
    """The members of a class that names the method of this number of a class."""
    def members(pool):
        references(pool, 10, name, ["m%d" % number], 1)
        return [], []
    return members


def naming_next(number, count, methods):
    """The same of the class of a number, which names one of so many methods of the next class."""
    return naming("C%d" % ((number + 1) % count), number * 7919 % methods)


def many_defaults(count):
    """An interface below so many others, all with the same default method, and ten times as many equal references."""
    tops = ["I%d" % number for number in range(count)]

    def members(pool):
        references(pool, 10, "Main", ["run"], 10 * count)
        return [], []
    files = [interface(top) for top in tops]
    files.append(interface("Low", tops))
    files.append(class_file("Main", OBJECT, ["Low"], members=members))
    return files


def long_name(count):
    """One class with so many equal references to a method of a name of 65,000 bytes that nobody has."""
    def members(pool):
        references(pool, 10, "Main", ["a" * 65000], count)
        return [], []
    return [class_file("Main", members=members)]


def long_class_names(count):
    """Fifteen classes with names of 65,000 bytes that differ at their ends alone, and one with so many references to a
    method of the last, which an interface declares."""
    names = ["a" * 64990 + "%05d" % number for number in range(15)]

    def members(pool):
        references(pool, 10, names[-1], ["m0"], count)
        return [], []
    return [*map(class_file, names), class_file("I", OBJECT, (), 0x601, declaring(0)),
            class_file("Main", members=members)]


def equal_strings(count):
    """One class with so many String entries that name one text of as many bytes."""
    def members(pool):
        entry = struct.pack(">BH", 8, pool.text("a" * count))
        for _ in range(count):
            pool.add_again(entry)
        return [], []
    return [class_file("Main", members=members)]


def far(names, declared, refer):
    """A chain of as many classes as names, of which the first has members of these names, and a class below it that
    refers to them all."""
    def first(pool):
        return declared(pool, names)

    def last(pool):
        refer(pool, "Last", names)
        return [], []
    chain = [class_file("C%d" % number, "C%d" % (number - 1) if number else OBJECT, members=None if number else first)
             for number in range(len(names))]
    return [*chain, class_file("Last", "C%d" % (len(names) - 1), members=last)]


def far_references(count):
    """A chain of so many classes, and one below it with as many references to methods of the first, all distinct."""
    return far(["m%d" % number for number in range(count)],
               lambda pool, names: ([], [method(pool, 0x1, name, "()V", b"\xb1") for name in names]),
               lambda pool, owner, names: references(pool, 10, owner, names, count))


def far_fields(count):
    """The same with fields."""
    def refer(pool, owner, names):
        at = pool.named(7, owner)
        for name in names:
            pool.pair(9, at, pool.name_and_type(name, "I"))
    return far(["f%d" % number for number in range(count)],
               lambda pool, names: ([member(0x0, pool.text(name), pool.text("I")) for name in names], []), refer)


def overloads(count):
    """One class with references to so many methods of its own that have one name of 65,000 bytes."""
    def members(pool):
        owner = pool.named(7, "Main")
        methods = []
        for number in range(count):
            descriptor = "(LC%d;)V" % number
            pool.pair(10, owner, pool.name_and_type("a" * 65000, descriptor))
            methods.append(method(pool, 0x1, "a" * 65000, descriptor, b"\xb1"))
        return [], methods
    return [class_file("Main", members=members)]


def below_interfaces(count):
    """A class below so many interfaces, with a reference to the method that each of them declares."""
    tops = ["I%d" % number for number in range(count)]

    def below(pool):
        references(pool, 10, "Main", ["m%d" % number for number in range(count)], count)
        return [], []
    files = [class_file(top, OBJECT, (), 0x601, declaring(number)) for number, top in enumerate(tops)]
    files.append(class_file("Main", OBJECT, tops, members=below))
    return files


def bare_chain(count):
    """Abstract interfaces each below the one before, each with a method of its own."""
    return [class_file("I%d" % number, OBJECT, ["I%d" % (number - 1)] if number else (), 0x601, declaring(number))
            for number in range(count)]


def many_below(count):
    """So many classes below the last of a chain of as many interfaces; a reference to the first's method names each."""
    top = "I%d" % (count - 1)
    return bare_chain(count) + [class_file("C%d" % number, OBJECT, [top], members=naming("C%d" % number))
                                for number in range(count)]


def own_methods_below(count):
    """The same, where each class is named by a reference of another one to a method of an interface of its own."""
    top = "I%d" % (count - 1)
    below = [class_file("C%d" % number, OBJECT, [top], members=naming_next(number, count, count))
             for number in range(count)]
    return bare_chain(count) + below


def two_chains_below(count):
    """The same below two chains by turns, half as long, whose interfaces declare the same methods."""
    half = count // 2

    def interface(side, number):
        above = ["%s%d" % (side, number - 1)] if number else ()
        return class_file("%s%d" % (side, number), OBJECT, above, 0x601, declaring(number))
    chains = [interface(side, number) for side in "IJ" for number in range(half)]
    tops = ["I%d" % (half - 1), "J%d" % (half - 1)]
    return chains + [class_file("C%d" % number, OBJECT, tops if number % 2 else tops[::-1],
                                members=naming_next(number, count, half)) for number in range(count)]


def wide_below(count):
    """An interface below as many others with a method each, and as many classes below it, as `own_methods_below`."""
    tops = ["I%d" % number for number in range(count)]
    return ([class_file(top, OBJECT, (), 0x601, declaring(number)) for number, top in enumerate(tops)]
            + [class_file("Low", OBJECT, tops, 0x601)]
            + [class_file("C%d" % number, OBJECT, ["Low"], members=naming_next(number, count, count))
               for number in range(count)])


def conflicts_below(count):
    """As `many_below`, where each class has besides an interface with a default method that is the first one's."""
    top = "I%d" % (count - 1)

    def other(pool):
        return [], [method(pool, 0x1, "m0", "()V", b"\xb1")]
    names = ["C%d" % number for number in range(count)]
    return (bare_chain(count) + [class_file("Other", OBJECT, (), 0x601, other)]
            + [class_file(name, OBJECT, [top, "Other"], members=naming(name)) for name in names])


def on_top(initialized, count):
    """So many initialized interfaces above a chain of `count` others, before each of as many classes below."""
    chain = interface_chain(initialized) + bare_chain(initialized + count)[initialized:]
    top = "I%d" % (initialized + count - 1)
    return chain + [class_file("C%d" % number, OBJECT, [top]) for number in range(count)]


def initialized_on_top(count):
    """One initialized interface above a chain of so many others, before each of as many classes below."""
    return on_top(1, count)


def many_on_top(count):
    """As `initialized_on_top`, with 300 of them: more than the list has that an interface keeps."""
    return on_top(300, count)


def alternating(count):
    """Sixteen classes below the last of a chain of interfaces; references to its methods go from class to class."""
    top = "I%d" % (count - 1)
    names = ["C%d" % number for number in range(16)]

    def members(pool):
        for number in range(count):
            for name in names:
                pool.add_again(struct.pack(">BHH", 10, pool.named(7, name), pool.name_and_type("m%d" % number, "()V")))
        return [], []
    below = [class_file(name, OBJECT, [top]) for name in names]
    return bare_chain(count) + below + [class_file("Main", members=members)]


def with_initializer(name, fields, body, above=OBJECT, interfaces=(), others=()):
    """A class with static fields, whose class initialization method has the code that `body` makes.

    A field is (flags, name); another method is (flags, name, what makes its code). Both code makers get the pool.
    """
    def members(pool):
        made = [member(flags, pool.text(field), pool.text("I")) for flags, field in fields]
        methods = [method(pool, 0x8, "<clinit>", "()V", body(pool))]
        methods += [method(pool, flags, other, "()V", code(pool)) for flags, other, code in others]
        return made, methods
    return class_file(name, above, interfaces, 0x21, members)


def instruction(pool, opcode, owner, name, descriptor):
    """An instruction that names a member: a field for getstatic and putstatic, else a method."""
    tag = 9 if opcode in (178, 179) else 10
    entry = pool.pair(tag, pool.named(7, owner), pool.name_and_type(name, descriptor))
    return bytes([opcode]) + struct.pack(">H", entry)


RETURN = b"\xb1"


def initializers(count):
    """As `small`, where each class sets a final and reads that of one before it, one in ten calls a virtual method
    that one in twenty declares, and one in fifty prints."""
    files = []

    def body(number, name, earlier):
        def code(pool):
            made = bytes([4]) + instruction(pool, 179, name, "made", "I")
            if earlier:
                made += instruction(pool, 178, earlier, "made", "I") + bytes([87])
            if number % 10 == 5:
                made += bytes([1]) + instruction(pool, 182, name, "step%d" % (number % 20), "()V")
            if number % 50 == 7:
                made += bytes([1, 4]) + instruction(pool, 182, "java/io/PrintStream", "println", "(I)V")
            return made + RETURN
        return code

    def step(name):
        return lambda pool: instruction(pool, 178, name, "made", "I") + bytes([87]) + RETURN
    for number in range(count):
        group = number - number % 10
        if number == group:
            files.append(interface("org/example/Able%d" % group))
            continue
        name = "org/example/Class%d" % number
        above = OBJECT if number == group + 1 else "org/example/Class%d" % (number - 1)
        before = number // 2 + (number // 2 % 10 == 0)
        earlier = "org/example/Class%d" % before if before < number else None
        files.append(with_initializer(name, [(0x18, "made")], body(number, name, earlier), above,
                                      ["org/example/Able%d" % group], [(0x1, "step%d" % (number % 20), step(name))]))
    return files


def reading(numbers, count, prints=(), raises=()):
    """Classes whose initializers read finals of those that `numbers` gives for each; some print or raise besides."""
    def body(number):
        def code(pool):
            read = b"".join(instruction(pool, 178, "C%05d" % other, "x", "I") + bytes([87])
                            for other in numbers(number))
            if number in prints:
                read += bytes([1, 4]) + instruction(pool, 182, "java/io/PrintStream", "println", "(I)V")
            if number in raises:
                read += bytes([4, 3, 108, 87])  # iconst_1, iconst_0, idiv, pop
            return read + RETURN
        return code
    return [with_initializer("C%05d" % number, [(0x18, "x")], body(number)) for number in range(count)]


def apart(count):
    """Each class uses no other: one wave."""
    return reading(lambda number: [], count)


def waves(count):
    """Each class uses the one before: as many waves as classes."""
    return reading(lambda number: [number - 1] if number else [], count)


def one_cycle(count):
    """Each class uses the next, and the last one the first."""
    return reading(lambda number: [(number + 1) % count], count)


def refused_below(count):
    """Each class uses the one before, and the first one prints: each depends on the one before."""
    return reading(lambda number: [number - 1] if number else [], count, {0})


def stopped_below(count):
    """Each class uses the one before, and the first one raises: each depends on the one before."""
    return reading(lambda number: [number - 1] if number else [], count, raises={0})


def stopped_apart(count):
    """Each class uses no other, and raises."""
    return reading(lambda number: [], count, raises=range(count))


def virtual_calls(count):
    """Each class's initializer calls a virtual method that each class declares, which reads the next one's final."""
    def calling(number):
        return lambda pool: bytes([1]) + instruction(pool, 182, "C%05d" % number, "run", "()V") + RETURN

    def declared(number):
        return lambda pool: instruction(pool, 178, "C%05d" % ((number + 1) % count), "x", "I") + bytes([87]) + RETURN
    return [with_initializer("C%05d" % number, [(0x18, "x")], calling(number), others=[(0x1, "run", declared(number))])
            for number in range(count)]


def static_namesakes(count):
    """So many classes with a static method of the name and descriptor of Enum.name, and one that calls that 21,800
    times."""
    named = "()Ljava/lang/String;"

    def hiding(pool):
        return [], [method(pool, 0x9, "name", named, bytes([1, 176]))]

    def calling(pool):
        code = 21800 * instruction(pool, 182, "java/lang/Enum", "name", named) + RETURN
        return [], [method(pool, 0x1, "run", "()V", code)]
    files = [class_file("C%05d" % number, members=hiding) for number in range(count)]
    return [*files, class_file("Main", members=calling)]


def number_of(value):
    """The instruction that pushes a number of 16 bits."""
    return bytes([17]) + struct.pack(">h", value)


def class_with(name, fields, methods, above=OBJECT, flags=0x21):
    """A class with fields (flags, name, descriptor) and methods (flags, name, descriptor, what makes its code)."""
    def members(pool):
        made = [member(flags, pool.text(field), pool.text(kind)) for flags, field, kind in fields]
        return made, [method(pool, flags, other, kind, code(pool)) for flags, other, kind, code in methods]
    return class_file(name, above, (), flags, members)


def counting(step, rounds):
    """A loop over local variable 0, from 0, of a step so many times; `rounds` pushes how many."""
    head = bytes([26]) + rounds  # iload_0
    test = bytes([162]) + struct.pack(">h", 9 + len(step))  # if_icmpge, past the end
    back = bytes([132, 0, 1, 167]) + struct.pack(">h", -(len(head) + 6 + len(step)))  # iinc, goto
    return bytes([3, 59]) + head + test + step + back


def routes(name, size):
    """Two tables of so many numbers, filled by a loop."""
    def code(pool):
        made = b"".join(number_of(size) + bytes([188, 10]) + instruction(pool, 179, name, field, "[I")
                        for field in ("keys", "values"))
        step = (instruction(pool, 178, name, "keys", "[I") + bytes([26, 26]) + number_of(31) + bytes([104, 79])
                + instruction(pool, 178, name, "values", "[I") + bytes([26, 26, 79]))
        return made + counting(step, number_of(size)) + RETURN
    return class_with(name, [(0x18, "keys", "[I"), (0x18, "values", "[I")], [(0x8, "<clinit>", "()V", code)])


def enum(name, size):
    """So many constants, and the array of all."""
    own = "L%s;" % name

    def made(pool):
        above = instruction(pool, 183, "java/lang/Enum", "<init>", "(Ljava/lang/String;I)V")
        return bytes([42, 43, 28]) + above + RETURN

    def code(pool):
        body = b""
        for number in range(size):
            text = pool.add(struct.pack(">BH", 8, pool.text("CONSTANT%d" % number)))
            body += bytes([187]) + struct.pack(">H", pool.named(7, name)) + bytes([89, 19]) + struct.pack(">H", text)
            body += number_of(number) + instruction(pool, 183, name, "<init>", "(Ljava/lang/String;I)V")
            body += instruction(pool, 179, name, "CONSTANT%d" % number, own)
        body += number_of(size) + bytes([189]) + struct.pack(">H", pool.named(7, name))
        for number in range(size):
            body += (bytes([89]) + number_of(number) + instruction(pool, 178, name, "CONSTANT%d" % number, own)
                     + bytes([83]))
        return body + instruction(pool, 179, name, "$VALUES", "[" + own) + RETURN
    fields = [(0x4019, "CONSTANT%d" % number, own) for number in range(size)] + [(0x101A, "$VALUES", "[" + own)]
    return class_with(name, fields, [(0x2, "<init>", "(Ljava/lang/String;I)V", made), (0x8, "<clinit>", "()V", code)],
                      "java/lang/Enum", 0x4031)


def constants(name, earlier):
    """Eight numbers, the first of which is one more than that of another class, if one is named."""
    def code(pool):
        first = instruction(pool, 178, earlier, "k0", "I") if earlier else bytes([3])
        body = first + bytes([4, 96]) + instruction(pool, 179, name, "k0", "I")
        for number in range(1, 8):
            before = instruction(pool, 178, name, "k%d" % (number - 1), "I")
            body += before + number_of(number) + bytes([104]) + instruction(pool, 179, name, "k%d" % number, "I")
        return body + RETURN
    return class_with(name, [(0x18, "k%d" % number, "I") for number in range(8)], [(0x8, "<clinit>", "()V", code)])


def logging(name):
    """It prints."""
    def code(pool):
        return bytes([1, 4]) + instruction(pool, 182, "java/io/PrintStream", "println", "(I)V") + RETURN
    return class_with(name, [], [(0x8, "<clinit>", "()V", code)])


def service(count):
    """Like a service: of twenty classes, one has tables of routes, four are enums, six have constants that rest on
    those of earlier classes, one prints, and eight have no initializer."""
    files = []
    for number in range(count):
        name = "org/example/service/C%05d" % number
        kind = number % 20
        if kind == 0:
            files.append(routes(name, 200))
        elif kind < 5:
            files.append(enum(name, 4 + number % 7))
        elif kind < 11:
            before = number // 40 * 20 + kind
            files.append(constants(name, "org/example/service/C%05d" % before if before < number else None))
        elif kind == 11:
            files.append(logging(name))
        else:
            files.append(small_class(number, OBJECT, []))
    return files


def long_initializers(count):
    """So many classes, the initializer of each of which runs a million instructions."""
    def code(pool):
        times = pool.add(struct.pack(">Bi", 3, 166666))
        return counting(bytes([0]), bytes([19]) + struct.pack(">H", times)) + RETURN
    return [class_with("C%05d" % number, [], [(0x8, "<clinit>", "()V", code)]) for number in range(count)]


def wasteful(count):
    """So many classes, the initializer of each of which makes 9,850 objects and keeps the last."""
    def code(name):
        def made(pool):
            new = bytes([187]) + struct.pack(">H", pool.named(7, OBJECT)) + bytes([89])
            step = new + instruction(pool, 183, OBJECT, "<init>", "()V")
            step += instruction(pool, 179, name, "kept", "L%s;" % OBJECT)
            return counting(step, number_of(9850)) + RETURN
        return made
    names = ["C%05d" % number for number in range(count)]
    return [class_with(name, [(0x8, "kept", "L%s;" % OBJECT)], [(0x8, "<clinit>", "()V", code(name))])
            for name in names]


def indexed_service(count):
    """As `service`, where the tables of routes are as long as an enum has constants, which is another class."""
    files = service(count)
    for number in range(0, count, 20):
        name, verbs = ("org/example/service/C%05d" % one for one in (number, number + 1))

        def code(pool, name=name, verbs=verbs):
            values = instruction(pool, 178, verbs, "$VALUES", "[L%s;" % verbs) + bytes([190])
            return values + bytes([188, 10]) + instruction(pool, 179, name, "keys", "[I") + RETURN
        if number + 1 < count:
            files[number] = class_with(name, [(0x18, "keys", "[I")], [(0x8, "<clinit>", "()V", code)])
    return files


def deep_names(count):
    """Classes in one package 500 deep, so that their names of 1,005 bytes differ at their ends alone."""
    return [class_file("a/" * 500 + "%05d" % number) for number in range(count)]


def equal_interfaces(count):
    """A class that names one interface so many times among its superinterfaces, by a name of 65,000 bytes."""
    name = "a" * 65000
    return [interface(name), class_file("Main", interfaces=[name] * count)]


KINDS = {kind.__name__: kind for kind in (small, chain, chain_of_references, fields_above, interface_chain,
                                         many_defaults, long_name, long_class_names, equal_strings, far_references,
                                         equal_interfaces, far_fields, overloads, below_interfaces, many_below,
                                         own_methods_below, two_chains_below, wide_below, conflicts_below,
                                         initialized_on_top, many_on_top, alternating, long_orders, initializers,
                                         waves, apart, one_cycle, refused_below, stopped_below, stopped_apart,
                                         virtual_calls, static_namesakes, deep_names, service, indexed_service,
                                         long_initializers, wasteful)}


def main():
    kind, count, path = sys.argv[1:]
    files = KINDS[kind](int(count))
    random.Random(1).shuffle(files)
    with open(path, "wb") as file:
        for data in files:
            file.write(struct.pack(">I", len(data)) + data)
    print(kind, len(files), "classes,", sum(map(len, files)), "bytes")


if __name__ == "__main__":
    main()
