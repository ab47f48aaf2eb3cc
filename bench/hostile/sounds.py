# WAV files as docs/FORMATS.md has them, and files that are not as they should be.
import struct

from fields import number

PCM = bytes.fromhex("0100000000001000800000AA00389B71")


class BadWav(Exception):
    pass


def read_format(body):
    if len(body) < 16:
        raise BadWav("FmtShort")
    tag, channels, rate, _, align, bits = struct.unpack_from("<HHIIHH", body)
    if tag == 0xFFFE and len(body) < 40:
        raise BadWav("FmtShort")
    for is_fault, why in (
        (tag not in (1, 0xFFFE) or tag == 0xFFFE and body[24:40] != PCM, f"BadTag {tag}"),
        (bits != 16, f"BadBits {bits}"),
        (not 1 <= channels <= 8, f"BadChannels {channels}"),
        (align != 2 * channels, f"BadAlign {align}"),
        (rate == 0, f"BadRate {rate}"),
    ):
        if is_fault:
            raise BadWav(why)
    return channels, rate


# The rate, and the samples of each channel.
def read(data):
    if data[:4] != b"RIFF" or data[8:12] != b"WAVE":
        raise BadWav("NotRiff")
    at, found = 12, None
    while len(data) - at >= 8:
        name, size, rest = data[at:at + 4], number(data, at + 4, 4), data[at + 8:]
        if name == b"fmt " and not found:
            found = read_format(rest[:size])
        if name == b"data":
            if not found:
                raise BadWav("NoFmt")
            if size != 0xFFFFFFFF and size > len(rest):
                raise BadWav(f"Truncated {size} {len(rest)}")
            return found[1], channels_of(rest[:size], found[0])
        at += 8 + size + size % 2
    raise BadWav("NoData" if found else "NoFmt")


def channels_of(body, channels):
    count = len(body) // (2 * channels)
    samples = struct.unpack_from(f"<{count * channels}h", body)
    return [list(samples[c::channels]) for c in range(channels)]


# The file that an export writes, of a mix of channels on both sides.
def exported(rate, channels):
    count = max(map(len, channels), default=0)
    out = struct.pack("<4sI4s4sIHHIIHH4sI", b"RIFF", 36 + 4 * count, b"WAVE", b"fmt ", 16, 1, 2, rate,
                      4 * rate % 2**32, 4, 16, b"data", 4 * count)
    for i in range(count):
        heard = max(-32_768, min(32_767, sum(it[i] for it in channels)))
        out += struct.pack("<hh", heard, heard)
    return out


# The script of `try` that imports and exports a sound, what it prints, its status, and the file that it leaves.
def tried(data):
    try:
        rate, channels = read(data)
        why = None if rate == 8000 else f"RateDiffers {rate} 8000"
    except BadWav as fault:
        why = f"BadWav {fault}"
    if why:
        channels = []
    commit = int(not why)
    answers = [f"no 0 {why}" if why else "ok 1", f"tracks {commit} {len(channels)}"]
    answers += [f"track {t} 65536 both 0 {len(it)}" for t, it in enumerate(channels, 1)]
    lines = ["import a.wav", "tracks"]
    for t, it in enumerate(channels, 1):
        lines.append(f"show {t} 0 4096")
        answers.append(" ".join(["cells", "1", *map(str, it[:4096])]))
    out = exported(8000, channels)
    lines.append("export b.wav")
    answers += [f"wrote {commit} {len(out)}", f"end {commit}"]
    return "".join(f"{line}\n" for line in lines), answers, int(bool(why)), out


def chunk(draw, name, body):
    pad = b"\0" if len(body) % 2 and draw.random() < 0.9 else b""
    return name + len(body).to_bytes(4, "little") + body + pad


def format_body(draw, channels):
    rate = draw.choice([8000, 8000, 8000, 8000, 8000, 8000, 8001, 44_100])
    tag = draw.choice([1, 1, 0xFFFE])
    body = struct.pack("<HHIIHH", tag, channels, rate, 2 * channels * rate, 2 * channels, 16)
    return body + (struct.pack("<HHI", 22, 16, 3) + PCM if tag == 0xFFFE else draw.choice([b"", b"", b"\0\0"]))


# The chunks of a sound, with others between them.
def chunks(draw):
    channels = draw.choice([1, 1, 2, 2, 3, 8])
    frames = draw.choice([0, 1, 2, 3, 5, 17, draw.randrange(60)])
    # Some are read and written in several pieces.
    if draw.random() < 0.02:
        frames = draw.randrange(4_000, 40_000)
    samples = draw.randbytes(2 * channels * frames)
    out = [chunk(draw, b"fmt ", format_body(draw, channels)), chunk(draw, b"data", samples)]
    for _ in range(draw.choice([0, 0, 1, 2])):
        name = draw.choice([b"LIST", b"fact", b"junk", b"fmt", b"Data", b"\0\0\0\0"])[:4].ljust(4, b"x")
        out.insert(draw.randrange(len(out) + 1), chunk(draw, name, draw.randbytes(draw.randrange(9))))
    return out


SIZES = [0, 1, 2, 3, 7, 8, 13, 14, 15, 16, 17, 18, 39, 40, 2**31, 2**32 - 2, 2**32 - 1]


# One change of a sound.
def spoil(draw, data):
    data = bytearray(data)
    at = draw.randrange(len(data)) if data else 0
    way = draw.randrange(7)
    if way == 0 and data:
        data[at] ^= 1 << draw.randrange(8)
    elif way == 1:
        del data[at:]
    elif way == 2:
        data += draw.randbytes(draw.randrange(12))
    elif way == 3:
        del data[at:at + draw.choice([1, 2, 4, 8])]
    elif way == 4:
        data[at:at] = draw.randbytes(draw.choice([1, 2, 4, 8]))
    else:
        names = [i for i in range(len(data) - 8) if data[i:i + 4] in (b"fmt ", b"data", b"LIST", b"RIFF")]
        if names and way == 5:
            at = draw.choice(names) + 4
            size = draw.choice([*SIZES, len(data) - at - 4, len(data) - at - 3, len(data) - at - 5])
            data[at:at + 4] = (max(0, size) % 2**32).to_bytes(4, "little")
        elif names:
            at = draw.choice(names) + 8 + draw.choice([0, 2, 4, 12, 14, 16, 24, 39])
            data[at:at + 2] = draw.choice([0, 1, 2, 3, 8, 9, 16, 24, 0xFFFE, 0xFFFF]).to_bytes(2, "little")
    return bytes(data)


# A sound, most often with its chunks out of place or some of its bytes changed.
def make(draw):
    parts = chunks(draw)
    if draw.random() < 0.2:
        draw.shuffle(parts)
    if draw.random() < 0.2:
        parts.insert(draw.randrange(len(parts) + 1), draw.choice(parts))
    body = b"".join(parts)
    data = b"RIFF" + (len(body) + 4).to_bytes(4, "little") + b"WAVE" + body
    for _ in range(draw.choice([0, 1, 1, 1, 2, 3])):
        data = spoil(draw, data)
    return data
