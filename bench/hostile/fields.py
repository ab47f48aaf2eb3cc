# Numbers in bytes, and the tests of docs/FORMATS.md on them.
END = 2**62
LONGEST = 2**32


# Why a project is not opened, as the program prints it.
class Refused(Exception):
    pass


def damaged(file, at, want, have):
    if want != have:
        raise Refused(f"Damaged {file} {at} {want} {have}")


def number(data, at, width):
    return int.from_bytes(data[at:at + width], "little")


# Tests of fields, each a place and a number, of a part of a file that begins at a base.
class Tests:
    def __init__(self, file, base=0):
        self.file, self.base = file, base

    def same(self, field, want):
        damaged(self.file, self.base + field[0], want, field[1])

    def at_least(self, field, bound):
        self.same(field, max(bound, field[1]))

    def at_most(self, field, bound):
        self.same(field, min(max(bound, 0), field[1]))

    # A field that ends at a place of a file of size bytes.
    def is_there(self, at, end, size):
        self.same((at, min(end, size)), end)


# Takes fields one after another, and knows where the last one ended, or would have ended.
class Walk:
    def __init__(self, data):
        self.data, self.at = data, 0

    def take(self, width):
        start = self.at
        self.at += width
        if self.at > len(self.data):
            raise EOFError
        return start, number(self.data, start, width)


# The bytes of fields, and each field's place and width beside them.
class Bytes:
    def __init__(self):
        self.data, self.fields = bytearray(), []

    def put(self, width, *numbers):
        for it in numbers:
            self.fields.append((len(self.data), width))
            self.data += it.to_bytes(width, "little")
