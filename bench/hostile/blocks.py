# The file of a block: how it is spelled, and what of it is damaged.
import math
import struct
from operator import mul

from fields import damaged, number

MAGIC = 827_015_745


# The sum of the squares. A long block mostly has one sample again and again.
def squares(samples):
    first = samples[0]
    if samples.count(first) == len(samples):
        return first * first * len(samples)
    return sum(map(mul, samples, samples))


def frame(samples):
    return struct.pack("<hhQ", min(samples), max(samples), squares(samples))


def frames(samples):
    return b"".join(
        frame(samples[i:i + width]) for width in (256, 65_536) for i in range(0, len(samples), width)
    )


def spell_block(id, samples):
    head = struct.pack("<IQI", MAGIC, id, len(samples))
    return head + struct.pack(f"<{len(samples)}h", *samples) + frames(samples)


def block_size(length):
    return 16 + 2 * length + 12 * (math.ceil(length / 256) + math.ceil(length / 65_536))


# The first fault of a block's head, as a read of its samples finds it.
def test_head(id, length, data):
    for at, width, want in ((0, 4, MAGIC), (4, 8, id), (12, 4, length)):
        damaged(id, at, want, number(data, at, width))


def samples_of(data, length):
    return struct.unpack_from(f"<{length}h", data, 16)


# Compares a block with its spelling.
def test_block(id, length, data):
    test_head(id, length, data)
    want = frames(samples_of(data, length))
    start = 16 + 2 * length
    for at in range(0, len(want), 12):
        for place, width in ((at, 2), (at + 2, 2), (at + 4, 8)):
            damaged(id, start + place, number(want, place, width), number(data, start + place, width))
