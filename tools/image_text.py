"""The bytes of an image of version 2, taken apart: `JPIM`, 0002, the class files, each after its length, a region or 00
for each class, and the digest. A region is the number of objects that were made, the values of the static fields, the
number of objects that are kept, and each of them after its number."""
import os
import struct
import sys
from dataclasses import dataclass

sys.path.append(f"{os.path.dirname(os.path.dirname(os.path.realpath(__file__)))}/bench/shared")
import class_model

STATIC = class_model.STATIC


@dataclass
class Region:
    """How many objects an initializer made, and the numbers of those that the image holds."""

    count: int
    kept: list[int]


class Bytes:
    """Bytes, from front to back."""

    def __init__(self, data: bytes):
        self.data, self.at = data, 0

    def number(self, form: str) -> int:
        value, = struct.unpack_from(f">{form}", self.data, self.at)
        self.at += struct.calcsize(form)
        return value

    def run(self, length: int) -> bytes:
        self.at += length
        return self.data[self.at - length:self.at]


@dataclass
class Image:
    """What is asked of an image: its classes by their names, each with its region where it is initialized."""

    regions: list

    @staticmethod
    def of(data: bytes) -> "Image":
        read = Bytes(data)
        if read.run(6) != b"JPIM\0\2":
            raise ValueError("no image of version 2")
        files = [class_model.read_class(read.run(read.number("I"))) for _ in range(read.number("I"))]
        by_name = {file.name: file for file in files}
        found = [(file.name, region(read, file, by_name) if read.number("B") else None) for file in files]
        if len(data) - read.at != 32:
            raise ValueError("more bytes than regions")
        return Image(found)


def has_value(descriptor: str) -> bool:
    """Whether a field of this type has a value: one of a float or a double has none."""
    return descriptor not in ("F", "D")


def region(read: Bytes, file, by_name: dict) -> Region:
    count = read.number("I")
    for field in file.fields:
        if field.has(STATIC) and has_value(field.descriptor):
            value(read)
    kept = []
    for _ in range(read.number("I")):
        kept.append(read.number("I"))
        skip_object(read, by_name)
    return Region(count, kept)


def value(read: Bytes):
    """Reads a value: an int, a long, null, a string, the name of an object, or `System.out`."""
    tag = read.number("B")
    if tag == 3:
        read.run(2 * read.number("H"))
    else:
        read.run({0: 0, 1: 4, 2: 8, 4: 8, 5: 0}[tag])


def skip_object(read: Bytes, by_name: dict):
    """Reads an object with its slots, or an array with its elements."""
    kind, name = read.number("B"), read.run(read.number("H")).decode("utf-8", "surrogatepass")
    if kind == 1:
        length, element = read.number("I"), name[1]
        for _ in range(length):
            if element in "L[":
                value(read)
            else:
                read.run({"Z": 1, "B": 1, "C": 2, "S": 2, "I": 4, "J": 8}[element])
        return
    while name is not None:
        file = by_name.get(name)
        slots = ["", ""] if name == "java/lang/Enum" else []
        if file:
            slots = [one for one in file.fields if not one.has(STATIC) and has_value(one.descriptor)]
        for _ in slots:
            value(read)
        name = file.superclass if file else class_model.BUILT_IN.get(name)
