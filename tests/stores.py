#!/usr/bin/env python3
"""A model of the stores, after the rules in docs/MODULE.md and not the code, and what crates/piles must print.

    tests/stores.py show IMAGE                        what startup show must print
    tests/stores.py new OUT CELLS WRITES [--strip]    the file that startup new must make
    tests/stores.py random FOLDER                     images of both kinds, whole and faulty

A store is a class with count, read, left and write. A refusal is the exception Refused with a
cause, the number of layers down and the cell there.
"""
import hashlib
import pathlib
import random
import sys


class Refused(Exception):
    def __init__(self, cause, layer, cell):
        super().__init__(cause)
        self.cause, self.layer, self.cell = cause, layer, cell

    def __str__(self):
        return f"{self.cause} {self.layer} {self.cell}"


class Store:
    """Refuses what does not fit; the classes below say the rest."""

    def check(self, cell, length):
        if length != 20:
            raise Refused("misfit", 0, cell)
        self.present(cell)

    def present(self, cell):
        if cell >= self.count():
            raise Refused("absent", 0, cell)


def number(data, place):
    return int.from_bytes(data[place:place + 2], "big")


class CellImage(Store):
    def __init__(self, data):
        self.data = bytearray(data)
        self.cells = number(data, 0)
        if len(data) < 4 or number(data, 2) != 20 or len(data) != 4 + 22 * self.cells:
            self.cells = 0

    def count(self):
        return self.cells

    def place(self, cell):
        return 4 + 2 * self.cells + 20 * cell

    def left(self, cell):
        self.present(cell)
        return number(self.data, 4 + 2 * cell)

    def read(self, cell, length):
        self.check(cell, length)
        return bytes(self.data[self.place(cell):self.place(cell) + 20])

    def write(self, cell, value):
        self.check(cell, len(value))
        left = self.left(cell)
        if left == 0:
            raise Refused("worn", 0, cell)
        self.data[4 + 2 * cell:6 + 2 * cell] = (left - 1).to_bytes(2, "big")
        self.data[self.place(cell):self.place(cell) + 20] = value


class StripImage(Store):
    def __init__(self, data):
        self.data = bytearray(data)
        self.cells, self.width = number(data, 0), number(data, 2)
        whole = len(data) >= 4 and len(data) == 4 + 2 * self.cells + 20 * self.cells * self.width
        if not whole or any(self.used(k) > self.width for k in range(self.cells)):
            self.cells = 0

    def used(self, cell):
        return number(self.data, 4 + 2 * cell)

    def count(self):
        return self.cells

    def place(self, cell, j):
        return 4 + 2 * self.cells + 20 * (cell * self.width + j)

    def left(self, cell):
        self.present(cell)
        return self.width - self.used(cell)

    def read(self, cell, length):
        self.check(cell, length)
        if self.used(cell) == 0:
            return bytes(20)
        at = self.place(cell, self.used(cell) - 1)
        return bytes(self.data[at:at + 20])

    def write(self, cell, value):
        self.check(cell, len(value))
        used = self.used(cell)
        if used == self.width:
            raise Refused("worn", 0, cell)
        at = self.place(cell, used)
        self.data[at:at + 20] = value
        self.data[4 + 2 * cell:6 + 2 * cell] = (used + 1).to_bytes(2, "big")


class Layer(Store):
    """Hands calls on to the store below, and the refusals of its writes up."""

    def pass_on(self, cell, value):
        try:
            self.below.write(cell, value)
        except Refused as refused:
            raise Refused(refused.cause, min(refused.layer + 1, 65535), refused.cell) from None


class Window(Layer):
    def __init__(self, below, first, most):
        self.below, self.first, self.most = below, first, most

    def count(self):
        return min(self.most, max(0, self.below.count() - self.first))

    def left(self, cell):
        self.present(cell)
        return self.below.left(self.first + cell)

    def read(self, cell, length):
        self.check(cell, length)
        return self.below.read(self.first + cell, length)

    def write(self, cell, value):
        self.check(cell, len(value))
        self.pass_on(self.first + cell, value)


class Guard(Layer):
    def __init__(self, below, allowance):
        self.below, self.rest = below, [allowance] * 32

    def count(self):
        return min(32, self.below.count())

    def left(self, cell):
        self.present(cell)
        return min(self.below.left(cell), self.rest[cell])

    def read(self, cell, length):
        self.check(cell, length)
        return self.below.read(cell, length)

    def write(self, cell, value):
        self.check(cell, len(value))
        if self.rest[cell] == 0:
            raise Refused("worn", 0, cell)
        self.pass_on(cell, value)
        self.rest[cell] -= 1


class Draws:
    def __init__(self):
        self.state = 1

    def below(self, n):
        self.state = (self.state * 1103515245 + 12345) % 2**31
        return self.state // 256 % n

    def length(self):
        return {0: 19, 1: 21}.get(self.below(12), 20)


def exercise(store, cells, turns):
    yield f"count {store.count()}"
    draws = Draws()
    for _ in range(turns):
        call, cell = draws.below(4), draws.below(cells)
        if call == 0:
            length = draws.length()
            into = bytes([0xA5] * length)
            try:
                answer = "ok"
                into = store.read(cell, length)
            except Refused as refused:
                answer = str(refused)
            yield f"read {cell} into {length}: {answer} {into.hex()}"
        elif call == 1:
            try:
                yield f"left {cell}: ok {store.left(cell)}"
            except Refused as refused:
                yield f"left {cell}: {refused} "
        else:
            byte = draws.below(256)
            length = draws.length()
            try:
                store.write(cell, bytes([byte] * length))
                yield f"write {cell} from {length} of {byte}: ok"
            except Refused as refused:
                yield f"write {cell} from {length} of {byte}: {refused} "
    if store.count() < 100:
        for k in range(store.count()):
            yield f"cell {k} {store.read(k, 20).hex()} {store.left(k)}"


def piles(store):
    for first, most in (1, 3), (4, 9), (60000, 9):
        yield f"window {first} {most}"
        yield from exercise(Window(store, first, most), 6, 12)
    for allowance in 1, 0:
        yield f"guard {allowance}"
        yield from exercise(Guard(store, allowance), 9, 12)
    yield "window 1 4, guard 2, window 1 40"
    yield from exercise(Window(Guard(Window(store, 1, 40), 2), 1, 4), 6, 40)
    yield "windows 0 9, 0 8, 0 7, 1 6, from below"
    one = Window(store, 0, 9)
    yield from exercise(one, 8, 12)
    two = Window(one, 0, 8)
    yield from exercise(two, 8, 12)
    three = Window(two, 0, 7)
    yield from exercise(three, 8, 12)
    yield from exercise(Window(three, 1, 6), 8, 20)
    yield "window 0 9, guard 1, guard 3, window 0 9"
    yield from exercise(Window(Guard(Guard(Window(store, 0, 9), 3), 1), 0, 9), 9, 30)


def values(n):
    return bytes(i % 251 for i in range(20 * n))


def cell_bytes():
    return b"\0\7\0\x14" + b"".join(bytes([0, k]) for k in range(7)) + values(7)


def strip_bytes():
    return b"\0\7\0\4" + b"".join(bytes([0, k % 5]) for k in range(7)) + values(28)


def image(store):
    return f"image {hashlib.sha1(store.data).hexdigest()}"


def lines():
    """What crates/piles prints."""
    for title, kind, data in ("cell image", CellImage, cell_bytes()), ("strip image", StripImage, strip_bytes()):
        yield title
        yield from exercise(kind(data), 9, 30)
        store = kind(data)
        yield from piles(store)
        yield image(store)
    for title, kind, data in (
        ("cell image, a byte short", CellImage, cell_bytes()[:-1]),
        ("cell image, a byte long", CellImage, cell_bytes() + b"\0"),
        ("cell image, without the 20", CellImage, b"\0\0\0\x15"),
        ("strip image, a byte short", StripImage, strip_bytes()[:-1]),
        ("strip image, a byte long", StripImage, strip_bytes() + b"\0"),
        ("strip image, width 0", StripImage, b"\0\2\0\0\0\0\0\0"),
        ("strip image, used above its width", StripImage, b"\0\2\0\0\0\0\0\1"),
        ("no bytes", StripImage, b""),
    ):
        yield title
        store = kind(data)
        yield from exercise(store, 3, 6)
        yield image(store)
    yield "through window 1 4 and guard 1"
    store = CellImage(cell_bytes())
    for turn in range(5):
        try:
            answer = "ok"
            Window(Guard(store, 1), 1, 4).write(2, bytes([turn] * 20))
        except Refused as refused:
            answer = str(refused)
        yield f"{answer} {image(store)}"
    for title, kind, data in (
        ("cell image of 65535", CellImage, b"\xff\xff\0\x14" + b"\0\2" * 65535 + bytes(20 * 65535)),
        ("strip image of 65535", StripImage, b"\xff\xff\0\2" + bytes(2 * 65535 + 40 * 65535)),
    ):
        yield title
        store = kind(data)
        yield from exercise(store, 65536, 60)
        yield from piles(store)
        yield image(store)


def is_cell_image(data):
    return len(data) >= 4 and number(data, 2) == 20 and len(data) == 4 + 22 * number(data, 0)


def is_strip_image(data):
    if len(data) < 4:
        return False
    cells, width = number(data, 0), number(data, 2)
    return len(data) == 4 + 2 * cells + 20 * cells * width and all(number(data, 4 + 2 * k) <= width for k in range(cells))


def show(data):
    if is_cell_image(data):
        kind, store = "cell", CellImage(data)
    elif is_strip_image(data):
        kind, store = "strip", StripImage(data)
    else:
        return
    yield f"{kind} image, cells {store.count()}"
    for k in range(store.count()):
        yield f"cell {k} {store.read(k, 20).hex()} writes left {store.left(k)}"


def cell_image(rng, cells):
    lefts = b"".join(rng.choice((0, 1, 255, 256, 65535)).to_bytes(2, "big") for _ in range(cells))
    return cells.to_bytes(2, "big") + b"\0\x14" + lefts + rng.randbytes(20 * cells)


def strip_image(rng, cells, width):
    used = b"".join(rng.randint(0, width).to_bytes(2, "big") for _ in range(cells))
    return cells.to_bytes(2, "big") + width.to_bytes(2, "big") + used + rng.randbytes(20 * cells * width)


def random_images(folder):
    rng = random.Random(7)
    images = [cell_image(rng, n) for n in (0, 1, 2, 31, 300)]
    images += [strip_image(rng, n, w) for n, w in ((0, 0), (0, 3), (1, 0), (1, 1), (5, 3), (40, 20), (2, 300))]
    images += [image + b"\0" for image in images] + [image[:-1] for image in images]
    above = bytearray(strip_image(rng, 3, 2))
    above[9] = 3
    images += [bytes(above), b"\0\0\0\x15", b"\0\1\0\x14", rng.randbytes(100)]
    for i, data in enumerate(images):
        (pathlib.Path(folder) / f"image-{i}").write_bytes(data)


def main(words):
    if words[0] == "show":
        sys.stdout.writelines(line + "\n" for line in show(pathlib.Path(words[1]).read_bytes()))
    elif words[0] == "new":
        cells, writes = int(words[2]), int(words[3])
        second, each, values = (writes, 0, cells * writes) if "--strip" in words else (20, writes, cells)
        header = cells.to_bytes(2, "big") + second.to_bytes(2, "big")
        pathlib.Path(words[1]).write_bytes(header + each.to_bytes(2, "big") * cells + bytes(20 * values))
    elif words[0] == "random":
        random_images(words[1])
    else:
        sys.exit(__doc__)


if __name__ == "__main__":
    main(sys.argv[1:] or ["help"])
