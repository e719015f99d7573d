"""Questions of images that are built of classes, `images`.

- `reached BUDGET`: the objects that some static field of the image reaches, each as its class and its number, how many
  they are, and how many were made, where each initializer may cost so much. An image holds those objects alone.
- `length`, how many bytes it has; `bytes OFFSET LENGTH`, those that stand there; `regions`, those between the class
  files and the digest.
- `orders`: `same` where the files in the opposite order give the same bytes; `workers`: where they do in both orders by
  1, 2 and 64 workers.
- `whole`: what reading it answers; `held PLACE`: `same` where it is the image at a place of those that `product_cases`
  reads cut at each length, with each byte changed, and writes into sinks that fail.
- `swapped PLACE PLACE` and `then BYTE`, what reading it answers with two class files in each other's place, or with a
  byte more before the digest. The digest is made anew.
"""
import hashlib

import case_files
import class_text
from asked_program import Asked, held, names_for, put
from case_files import Row
from image_text import Image

DIGEST = 32


def of_image(asked: Asked, row: Row) -> str | None:
    """What is found, where it is not as it is wanted."""
    files = [class_text.file_of(line) for line in class_text.lines_of(row.given)]
    word, _, about = row.asked.partition(" ")
    if word == "reached":
        found = reached(asked, files, about)
    elif word in ("orders", "workers"):
        found = compared(asked, files, ("1", "2", "64") if word == "workers" else ("1",))
    else:
        found = of_bytes(asked, files, built(asked, files), word, about)
    return None if found == row.wanted else found


def built(asked: Asked, files: list[bytes], *words: str) -> bytes:
    """The image of class files, or nothing."""
    put("image", b"")
    answer = asked.run("build", "--out", "image", *words, *names_for(files))
    return (held("image") or b"") if answer.status == 0 else b""


def reached(asked: Asked, files: list[bytes], budget: str) -> str:
    """The objects of an image."""
    image = built(asked, files, "--budget", budget)
    if not image:
        return "no image"
    regions = Image.of(image).regions
    kept = [(name, number) for name, region in regions for number in (region.kept if region else ())]
    made = sum(region.count for _, region in regions if region)
    objects = ", ".join(f"{name} {number}" for name, number in kept) or "nothing"
    return f"{objects}: {len(kept)} of {made}"


def compared(asked: Asked, files: list[bytes], workers: tuple[str, ...]) -> str:
    """Whether each number of workers, and both orders of the files, give the same bytes."""
    first = built(asked, files)
    for number in workers:
        for order in (files, files[::-1]):
            if built(asked, order, "--workers", number) != first or not first:
                return f"others by {number} workers"
    return "same"


def of_bytes(asked: Asked, files: list[bytes], image: bytes, word: str, about: str) -> str:
    numbers = [int(it) for it in about.split()]
    body = image[:-DIGEST]
    begin = 10 + sum(4 + len(file) for file in files)
    if word == "length":
        return str(len(image))
    if word == "bytes":
        return image[numbers[0]:sum(numbers)].hex().upper()
    if word == "regions":
        return body[begin:].hex().upper()
    if word == "whole":
        return reading(asked, image)
    if word == "held":
        return "same" if image == held_images()[numbers[0]] else "others"
    if word == "then":
        return reading(asked, digested(body + bytes(numbers)))
    if word == "swapped":
        order = list(range(len(files)))
        order[numbers[0]], order[numbers[1]] = numbers[1], numbers[0]
        swapped = b"".join(len(files[at]).to_bytes(4, "big") + files[at] for at in order)
        return reading(asked, digested(body[:10] + swapped + body[begin:]))
    return "no question"


def digested(body: bytes) -> bytes:
    return body + hashlib.sha256(body).digest()


def reading(asked: Asked, image: bytes) -> str:
    """What reading an image answers: `read`, or a fault. One that is read is written as it is."""
    put("changed", image)
    answer = asked.run("renew", "--out", "again", "changed")
    if answer.status == 0:
        return "read" if held("again") == image else "written otherwise"
    return answer.last_error()


def held_images() -> list[bytes]:
    """The images of `product_cases`."""
    with open(f"{case_files.ROOT}/crates/product_cases/data/images/images.txt", encoding="utf-8") as it:
        lines = it.read().splitlines()
    return [bytes.fromhex(line) for line in lines if line.startswith(b"JPIM".hex().upper())]
