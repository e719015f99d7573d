#!/usr/bin/env python3
"""Makes images that no build writes, and times how long `preinit run` takes to read each and to refuse its entry, and
how long `preinit renew` takes to write it again.

  bench/timings/forged_images.py --cmd 'path/to/preinit'

Each is near the worst for a reader by its bytes: objects of a class with 60,000 fields without values, and of one below
60,000 others; distinct strings that no class file has; arrays of classes that are neither given nor built in, by one
name and by distinct ones; an array of ints. Then, in both versions and in three sizes, objects each reached through the
one before, by numbers in a row, backwards or far apart, and objects of which none is reached, which version 2 refuses
(Idle) and of version 1 are left out. Last, a few objects whose numbers are far apart, up to the last one of 2^32 - 1,
and the strings again with a wrong digest, for which they are not looked at.
It prints the version, the bytes, and the seconds and the most memory of both commands, and ends in 1 where an answer is
not the one that the image has to get.
"""
import argparse
import hashlib
import pathlib
import re
import shlex
import struct
import subprocess
import sys
import tempfile


def u2(number):
    return struct.pack(">H", number)


def u4(number):
    return struct.pack(">I", number)


STATIC = 8


def class_file(name, parent, links=(STATIC,), doubles=0):
    """A class with fields of these flags for references, and so many of type double, which have no value here."""
    pool = []

    def add(entry):
        pool.append(entry)
        return len(pool)

    def text(value):
        return add(b"\x01" + u2(len(value)) + value)

    this = add(b"\x07" + u2(text(name)))
    above = add(b"\x07" + u2(text(parent)))
    kinds = [(flags, text(b"L" + OBJECT + b";")) for flags in links] + [(0, text(b"D"))] * doubles
    members = b"".join(u2(flags) + u2(text(b"f%d" % k)) + u2(kind) + u2(0) for k, (flags, kind) in enumerate(kinds))
    head = b"\xca\xfe\xba\xbe" + u2(0) + u2(52) + u2(len(pool) + 1) + b"".join(pool)
    return head + u2(0x21) + u2(this) + u2(above) + u2(0) + u2(len(kinds)) + members + u2(0) + u2(0)


def image(version, files, marks):
    body = b"JPIM" + u2(version) + u4(len(files)) + b"".join(u4(len(it)) + it for it in files) + b"".join(marks)
    return body + hashlib.sha256(body).digest()


def named(name):
    return u2(len(name)) + name


NULL = b"\x00"


def reference(number, maker=0):
    return b"\x04" + u4(maker) + u4(number)


def region(version, first, objects, numbers=None):
    """A region with a value of its static field, and objects, by numbers from 0 on or by these."""
    if version == 1:
        return b"\x01" + u4(len(objects)) + first + b"".join(objects)
    numbers = numbers or range(len(objects))
    kept = b"".join(u4(number) + it for number, it in zip(numbers, objects))
    return b"\x01" + u4(max(numbers) + 1) + first + u4(len(objects)) + kept


def array(name, count, elements=b""):
    return b"\x01" + named(name) + u4(count) + elements


def instance(name, links=b""):
    return b"\x00" + named(name) + links


OBJECT = b"java/lang/Object"
OBJECTS = b"[L" + OBJECT + b";"


def all_of(maker, objects):
    """A region of objects, with an array of all of them before."""
    links = b"".join(reference(number, maker) for number in range(1, len(objects) + 1))
    return region(2, reference(0, maker), [array(OBJECTS, len(objects), links), *objects])


def of_strings():
    strings = b"".join(b"\x03" + u2(8) + f"{k:08x}".encode("utf-16-be") for k in range(1_600_000))
    return image(2, [class_file(b"C", OBJECT)], [region(2, reference(0), [array(OBJECTS, 1_600_000, strings)])])


def worst():
    """Images of version 2 that are near the worst by their bytes."""
    yield "100,000 objects of a class of 60,000 fields", image(
        2, [class_file(b"C", OBJECT, doubles=60_000)], [all_of(0, [instance(b"C")] * 100_000)])
    names = [b"c%05d" % k for k in range(60_000)]
    chain = [class_file(name, above) for name, above in zip(names, [OBJECT, *names])]
    yield "100,000 objects of a class below 59,999 others", image(
        2, chain, [b"\x00"] * 59_999 + [all_of(59_999, [instance(names[-1])] * 100_000)])
    alone = [class_file(b"C", OBJECT)]
    yield "1,600,000 distinct strings", of_strings()
    yield "160,000 arrays of 200 dimensions of one unknown class", image(
        2, alone, [all_of(0, [array(b"[" * 200 + b"Lp/Foo;", 0)] * 160_000)])
    yield "640,000 arrays of distinct unknown classes", image(
        2, alone, [all_of(0, [array(b"[Lp/%07d;" % k, 0) for k in range(640_000)])])
    yield "an array of 8,000,000 ints", image(
        2, alone, [region(2, reference(0), [array(b"[I", 8_000_000, b"\0\0\0\1" * 8_000_000)])])


def chained(version, numbers):
    """Objects of these numbers, each of which is reached through the one before."""
    links = [reference(number) for number in numbers[1:]] + [NULL]
    objects = [made for _, made in sorted(zip(numbers, (instance(b"C", link) for link in links)))]
    return image(version, [class_file(b"C", OBJECT, (STATIC, 0))],
                 [region(version, reference(numbers[0]), objects, sorted(numbers))])


def unreached(version, count):
    return image(version, [class_file(b"C", OBJECT)], [region(version, NULL, [instance(b"C")] * count)])


def images():
    """What each image is, its version, its bytes, and what is refused of it, if anything is."""
    for what, content in worst():
        yield what, 2, content, None
    for count in 250_000, 500_000, 1_000_000:
        shown = f"{count:,} objects, each reached through the one before"
        for version in 1, 2:
            yield shown, version, chained(version, range(count)), None
            yield f"{shown}, backwards", version, chained(version, range(count)[::-1]), None
        yield f"{shown}, every 4,000th number", 2, chained(2, range(0, 4_000 * count, 4_000)), None
        yield f"{count:,} objects, none reached", 1, unreached(1, count), None
        yield f"{count:,} objects, none reached", 2, unreached(2, count), "Idle C"
    yield "three objects, the last of number 2^32 - 2", 2, chained(2, [2**31, 2**32 - 2, 0]), None
    yield "1,600,000 distinct strings, and a wrong digest", 2, of_strings()[:-32] + bytes(32), "Digest"


def measured(words, wanted):
    """The answer, the seconds and the most memory of a command."""
    ran = subprocess.run(["/usr/bin/time", "-q", "-f", "%U+%S s, %M KB", *words], capture_output=True, text=True,
                         check=False)
    *answer, last = ran.stderr.splitlines()
    return last if answer == wanted else f"{last}: another answer: {answer}", answer == wanted


def main():
    parser = argparse.ArgumentParser(formatter_class=argparse.RawDescriptionHelpFormatter, description=__doc__)
    parser.add_argument("--cmd", required=True)
    words, good = shlex.split(parser.parse_args().cmd), True
    with tempfile.TemporaryDirectory() as room:
        path = pathlib.Path(room) / "forged.img"
        for what, version, content, refused in images():
            path.write_bytes(content)
            wanted = [f"preinit: {refused}"] if refused else []
            run, is_read = measured([*words, "run", "--turns", "--entries", "Nobody", str(path)],
                                    wanted or ["preinit: Entry Unknown 0"])
            renew, is_renewed = measured([*words, "renew", "--out", f"{path}.new", str(path)], wanted)
            print(f"{what}: version {version}, {len(content)} bytes; run {run}; renew {renew}", flush=True)
            good = good and is_read and is_renewed
    sys.exit(not good)


if __name__ == "__main__":
    main()
