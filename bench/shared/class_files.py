#!/usr/bin/env python3
"""Writes a class file of a kind: class_files.py KIND FILE. KINDS, below, has the kinds."""
import struct
import sys


class Pool:
    def __init__(self):
        self.entries = []
        self.count = 1
        self.known = {}

    def add(self, entry, size=1):
        if entry in self.known:
            return self.known[entry]
        return self.add_again(entry, size)

    def add_again(self, entry, size=1):
        index = self.count
        self.entries.append(entry)
        self.count += size
        self.known[entry] = index
        return index

    def text(self, text):
        data = text.encode()
        return self.add(struct.pack(">BH", 1, len(data)) + data)

    def named(self, tag, text):
        return self.add(struct.pack(">BH", tag, self.text(text)))

    def pair(self, tag, a, b):
        return self.add(struct.pack(">BHH", tag, a, b))

    def name_and_type(self, name, descriptor):
        return self.pair(12, self.text(name), self.text(descriptor))

    def bytes(self):
        return struct.pack(">H", self.count) + b"".join(self.entries)


def attribute(pool, name, content):
    return struct.pack(">HI", pool.text(name), len(content)) + content


def class_file(pool, fields, methods, name="bench/Bench"):
    this, above = pool.named(7, name), pool.named(7, "java/lang/Object")
    return (b"\xca\xfe\xba\xbe" + struct.pack(">HH", 0, 52) + pool.bytes()
            + struct.pack(">HHHH", 0x21, this, above, 0)
            + struct.pack(">H", len(fields)) + b"".join(fields)
            + struct.pack(">H", len(methods)) + b"".join(methods) + struct.pack(">H", 0))


def member(flags, name, descriptor, attributes=()):
    return struct.pack(">HHHH", flags, name, descriptor, len(attributes)) + b"".join(attributes)


def mixed():
    """About 1 MB: texts, references, fields, and methods with code, lines and handlers."""
    pool, fields, methods = Pool(), [], []
    descriptors = ["()V", "(I)I", "(Ljava/lang/String;I)V", "([JLjava/util/List;)Ljava/lang/Object;"]
    for i in range(4000):
        owner = pool.named(7, "org/example/application/service/Component%d" % (i % 700))
        nat = pool.name_and_type("computeValue%d" % i, descriptors[i % 4])
        pool.pair(10, owner, nat)
        pool.named(8, "a message about the value number %d" % i)
    for i in range(1500):
        fields.append(member(0x2, pool.text("field%d" % i), pool.text("Ljava/util/Map;" if i % 2 else "J")))
    for i in range(4000):
        code = bytes((i * 7 + j * 13) & 0xFF for j in range(90))
        lines = struct.pack(">H", 10) + b"".join(struct.pack(">HH", j, i + j) for j in range(10))
        body = (struct.pack(">HHI", 4, 6, len(code)) + code
                + struct.pack(">H", 1) + struct.pack(">HHHH", 0, 40, 50, 0)
                + struct.pack(">H", 1) + attribute(pool, "LineNumberTable", lines))
        name, descriptor = pool.text("computeValue%d" % i), pool.text(descriptors[i % 4])
        methods.append(member(0x1, name, descriptor, [attribute(pool, "Code", body)]))
    return pool, fields, methods


def constants():
    """About 1 MB: a full pool, more than half of it texts of 22 bytes."""
    pool = Pool()
    for i in range(35000):
        pool.text("com/example/some/N%05d" % i)
    for i in range(15000):
        pool.add_again(struct.pack(">BI", 3, i))
    for i in range(13000):
        pool.add(struct.pack(">BH", 8, 1 + i))
    return pool, [], []


def fields():
    """65,000 fields of distinct names."""
    pool = Pool()
    descriptor = pool.text("I")
    names = [pool.text("f%d" % i) for i in range(65000)]
    return pool, [member(0, name, descriptor) for name in names], []


def prefixes():
    """65,000 fields whose names of 200 bytes differ at their end alone, each text in an entry of its own."""
    pool = Pool()
    descriptor = pool.text("I")
    names = [pool.text("f" * 195 + "%05d" % i) for i in range(65000)]
    return pool, [member(0, name, descriptor) for name in names], []


def long_name():
    """30,000 fields of one name of 65,000 bytes and of 30,000 types."""
    pool = Pool()
    name = pool.text("n" * 65000)
    types = [pool.text("Lt%d;" % i) for i in range(30000)]
    return pool, [member(0, name, t) for t in types], []


def long_descriptor():
    """10,000 Methodrefs, and 30,000 fields, each kind of one descriptor of 65,000 bytes."""
    pool = Pool()
    owner = pool.named(7, "Owner")
    long_type = "L" + "t" * 64990 + ";"
    method_type = pool.text("(" + "I" * 64990 + ")V")
    for i in range(10000):
        pool.pair(10, owner, pool.pair(12, pool.text("m%d" % i), method_type))
    descriptor = pool.text(long_type)
    names = [pool.text("f%d" % i) for i in range(30000)]
    return pool, [member(0, name, descriptor) for name in names], []


KINDS = {kind.__name__: kind for kind in (mixed, constants, fields, prefixes, long_name, long_descriptor)}


def main():
    kind, path = sys.argv[1:]
    pool, field_list, method_list = KINDS[kind]()
    # The class's own names, before the pool is written.
    pool.named(7, "bench/Bench")
    pool.named(7, "java/lang/Object")
    data = class_file(pool, field_list, method_list)
    with open(path, "wb") as file:
        file.write(data)
    print(kind, len(data), "bytes", pool.count, "entries")


if __name__ == "__main__":
    main()
