# What makes a project hostile: bits that are turned, files that are cut, lengthened, swapped or absent, fields at their
# bounds and past them, records that come twice, change places or go, generations that are equal or exchanged, changes
# that do not go with the current point, points of a header that overlap or that no project may have, and files that no
# project has.
from fields import END, LONGEST, number
from formats import is_project
from making import Journal
from projects import FIRST_BLOCK, last_blocks, spell_edit, spell_heard

BOUNDS = [0, 1, 2, 3, 4, 5, 15, 16, 17, 63, 64, 65, 255, 256, 4095, 4096, 4097, 65_535, 65_536, 65_537, 262_143,
          262_144, 262_145, 262_146, 1_048_575, 1_048_576, 1_048_577, 2**31, 2**32 - 2, 2**32 - 1, 2**32,
          2**32 + 1, END - 1, END, END + 1, 2**63, 2**64 - 1]


def any_file(draw, files):
    return draw.choice([it for it, data in files.items() if data is not None])


# The file of a journal that is still there, most often of the one that counts, or None.
def any_journal(draw, drawn, files):
    there = [it for it in drawn.journals if it in files]
    newest = drawn.project.file
    return newest if newest in there and draw.random() < 0.8 else draw.choice(there or [None])


def write(files, file, at, data):
    files[file] = files[file][:at] + data + files[file][at + len(data):]


def turn_bit(draw, drawn, files):
    file = any_file(draw, files)
    if files[file]:
        size = len(files[file])
        at = draw.randrange(size) if draw.random() < 0.5 else draw.randrange(min(90, size))
        write(files, file, at, bytes([files[file][at] ^ 1 << draw.randrange(8)]))
        return f"bit at {at} of {file}"


def cut(draw, drawn, files):
    file = any_file(draw, files)
    at = draw.randrange(len(files[file]) + 1) if draw.random() < 0.7 else min(len(files[file]), draw.randrange(120))
    files[file] = files[file][:at]
    return f"{file} cut at {at}"


def lengthen(draw, drawn, files):
    file = any_file(draw, files)
    more = draw.choice([b"\0", b"\1", bytes(40), draw.randbytes(draw.randrange(1, 80))])
    files[file] += more
    return f"{file} longer by {len(more)}"


# A number in the place of a field of a journal.
def bound(draw, drawn, files):
    file = any_journal(draw, drawn, files)
    if file is not None:
        at, width = draw.choice(drawn.journals[file].out.fields)
        old = number(files[file], at, width)
        new = draw.choice([*BOUNDS, *(old + it for it in (-2, -1, 1, 2)), *near(draw, drawn)]) % 256**width
        write(files, file, at, new.to_bytes(width, "little"))
        return f"{new} at {at} of {file}"


# Numbers that mean something in this project.
def near(draw, drawn):
    project = drawn.project
    most = [project.block + it for it in (-1, 1)] + [project.block // 2 + it for it in (-1, 0)]
    ids = [project.next_block, project.next_track, project.commit, *drawn.lengths]
    sizes = [project.generation, project.depth, project.depth + 1, len(project.points), project.cursor]
    return draw.choice([most, ids, sizes])


def block_field(draw, drawn, files):
    blocks = [it for it, data in files.items() if it >= FIRST_BLOCK and data and len(data) > 40]
    if blocks:
        file = draw.choice(blocks)
        data = files[file]
        samples = 16 + 2 * number(data, 12, 4)
        at, width = draw.choice([(0, 4), (4, 8), (12, 4), (16, 2), (samples, 2), (samples + 2, 2), (samples + 4, 8),
                                 (samples + 12, 2), (len(data) - 12, 2), (len(data) - 10, 2), (len(data) - 8, 8)])
        new = draw.choice([0, 1, number(data, at, width) + 1, 256**width - 1, file, draw.getrandbits(8)]) % 256**width
        files[file] = data[:at] + new.to_bytes(width, "little") + data[at + width:]
        return f"{new} at {at} of {file}"


def swap(draw, drawn, files):
    blocks = [it for it in files if it >= FIRST_BLOCK and files[it] is not None]
    if len(blocks) > 1:
        one, other = draw.sample(blocks, 2)
        files[one], files[other] = files[other], files[one]
        return f"{one} and {other} swapped"


def copy(draw, drawn, files):
    one, other = any_file(draw, files), any_file(draw, files)
    files[other] = files[one]
    return f"{one} in the place of {other}"


def remove(draw, drawn, files):
    file = any_file(draw, files)
    if len(files) > 1:
        del files[file]
        return f"{file} removed"


# Files 0 and 1 change places, or both have what one of them has.
def exchange(draw, drawn, files):
    first, second = files.pop(0, None), files.pop(1, None)
    way, both = draw.choice([("exchanged", (second, first)), ("both as 0", (first,) * 2), ("both as 1", (second,) * 2)])
    files.update((it, data) for it, data in enumerate(both) if data is not None)
    return f"files 0 and 1 {way}"


# The generation of a journal is near that of the other.
def generation(draw, drawn, files):
    file = any_journal(draw, drawn, files)
    if file is not None and len(files[file]) >= 29:
        other = files.get(1 - file, b"")
        near = number(other, 21, 8) if is_project(other) and number(other, 5, 4) == 2 else 0
        new = draw.choice([near, near, near + 1, near - 1, END, END + 1]) % 2**64
        write(files, file, 21, new.to_bytes(8, "little"))
        return f"generation {new} of {file}"


# Bytes of a record come twice, or go, or change places with those of the next.
def records(draw, drawn, files):
    file = any_journal(draw, drawn, files)
    gates = drawn.journals[file].gates if file is not None else []
    if len(gates) < 2:
        return None
    data = files[file]
    i = draw.randrange(len(gates) - 1)
    one, other = gates[i], gates[i + 1]
    end = gates[i + 2] if i + 2 < len(gates) else other
    way = draw.randrange(4)
    if way == 0:
        files[file] = data[:other] + data[one:other] + data[other:]
    elif way == 1:
        files[file] = data[:one] + data[other:]
    elif way == 2:
        files[file] = data[:one] + data[other:end] + data[one:other] + data[end:]
    else:
        files[file] = data[:other] + data[one:other] * 40 + data[other:]
    return f"record {i} of {len(gates) - 1}: {['twice', 'gone', 'after the next', 'forty times more'][way]}"


# Tracks that no project may have, though each number alone may be right.
def strange_tracks(draw, project):
    empty = (65_536, 0, 0, [])
    most, id = project.block, max(16, project.next_block - 1)
    clips = draw.choice([
        [(0, [])],
        [(0, [(id, most)]), (most, [(id, most)])],
        [(0, [(id, most)]), (most + 1, [(id, most)]), (draw.choice([0, most, 2 * most + 1]), [])],
        [(LONGEST - most, [(id, most)])],
        [(LONGEST - most + 1, [(id, most), (id, most)])],
        [(LONGEST, [(id, 1)])],
        [(0, [(id, most), (id, draw.choice([1, most // 2 - 1, most // 2]))])],
        [(0, [(id, 1)] * 3000)],
    ])
    count = draw.choice([1, 2, 64, 65, 66, 300])
    ids = list(range(1, count + 1))
    if draw.random() < 0.3:
        ids[-1] = draw.choice([0, 1, count - 1, count + 1])
    tracks = [(id, *empty) for id in ids]
    if draw.random() < 0.6:
        at = draw.randrange(min(count, 64))
        tracks[at] = (ids[at], *empty[:3], clips)
    project.next_track = max(project.next_track, count + draw.choice([0, 1, 1, 1]))
    return tracks


# A mark that may not go with the current point, and what it asks.
def strange_change(draw, drawn, out, id, track):
    most = drawn.project.block
    mark = draw.choice([0, 1, 2, 2, 2, 2, 2, 2, 3, 255])
    blocks = last_blocks(track)[-2:] if track[4] else []
    blocks = draw.choice([blocks, blocks + blocks, list(drawn.lengths.items())[-1:], []])
    blocks = [(it, draw.choice([length] * 6 + [1, most // 2 - 1, most // 2, most, most + 1])) for it, length in blocks]
    out.put(8, id)
    out.put(1, mark)
    if mark == 1:
        spell_heard(out, track)
    elif mark == 2:
        count = len(last_blocks(track)) if track[4] else 0
        out.put(4, draw.choice([0, 1, max(0, count - 1), count, count, count + 1]))
        out.put(4, max(0, len(blocks) + draw.choice([0] * 8 + [-1, 1])))
        for it, length in blocks:
            out.put(8, it)
            out.put(4, length)


# An edit by changes, one of which may not go with the current point.
def strange_edit(draw, drawn, out):
    project = drawn.project
    tracks = {track[0]: track for track in project.tracks()}
    ids = list(tracks) + draw.choice([[]] * 9 + [[0], [1], [project.next_track - 1]])
    strange = draw.choice(ids or [0])
    out.put(1, draw.choice([5] * 19 + [1]))
    out.put(8, draw.choice([0, 0, project.commit]), project.next_block, project.next_track)
    out.put(4, len(ids) + draw.choice([0] * 20 + [1, -1]) if ids else 0)
    for id in ids:
        if id == strange:
            strange_change(draw, drawn, out, draw.choice([id] * 9 + [id + 1]), tracks.get(id, (id, 65_536, 0, 0, [])))
        else:
            out.put(8, id)
            out.put(1, 0)


# One more record, whose parts do not go together.
def strange_record(draw, drawn, files):
    project, journal = drawn.project, drawn.journal()
    if files.get(project.file) != bytes(journal.out.data):
        return None
    way = draw.random()
    if way < 0.3:
        project.next_block = max(0, project.next_block + draw.choice([-1, 0, 1, 1, 1, 1, 1, 1]))
        before = project.tracks()
        tag = draw.choice([0, 0, project.commit, project.commit + 1])
        project.record(strange_tracks(draw, project), tag)
        project.commit -= 1
        journal.append(spell_edit, project, before, tag)
    elif way < 0.8:
        journal.append(lambda out: strange_edit(draw, drawn, out))
    else:
        kind, more = draw.choice([0, 1, 2, 3, 4, 4, 5, 255]), draw.choice([0, 1, 7, 8, 9, 16, 28, 29])
        journal.append(lambda out: out.put(1, kind, *draw.randbytes(more)))
    files[project.file] = bytes(journal.out.data)
    return "one more record"


# A journal that is one header, with a point whose parts do not go together, or points that overlap.
def strange_point(draw, drawn, files):
    project, kept = drawn.project, drawn.project.points
    if project.version == 1 or not files.get(project.file):
        return None
    i = draw.randrange(len(kept))
    if draw.random() < 0.7:
        tag = draw.choice([kept[i][1]] * 4 + [project.commit, project.commit + 1])
        project.points = [*kept[:i], (strange_tracks(draw, project), tag), *kept[i + 1:]]
    journal = Journal(project)
    project.points = kept
    data, at = journal.out.data, 64
    if draw.random() < 0.5:
        for _ in range(i):
            at += 4 + number(data, at, 4)
        length = number(data, at, 4)
        after = number(data, at + 4 + length, 4)
        new = length + draw.choice([-12, -1, 1, 4, 12, 16, after, after + 4, after + 5, len(data)])
        data[at:at + 4] = max(0, new).to_bytes(4, "little")
    drawn.journals[project.file] = journal
    files[project.file] = bytes(data)
    return f"a header whose point {i} is strange"


def gate(draw, drawn, files):
    file = any_journal(draw, drawn, files)
    if file is not None:
        at, byte = draw.choice([0, *drawn.journals[file].gates]), draw.choice([0, 1, 2, 255])
        write(files, file, at, bytes([byte]))
        return f"gate at {at} of {file} is {byte}"


def foreign(draw, drawn, files):
    file = draw.choice([2, 15, END, END + 1, 2**64 - 1, END - 1, 16, 2**40])
    files[file] = draw.choice([b"", b"\0", files.get(drawn.project.file, b"")])
    return f"a file {file}"


# A folder or a link in the place of a file.
def no_file(draw, drawn, files):
    named = [id for id, _ in drawn.project.named()]
    file, what = draw.choice([0, 1, *named, 7]), draw.choice([None, "nowhere"])
    files[file] = what
    return f"{'a link' if what else 'a folder'} in the place of {file}"


WAYS = [turn_bit] * 4 + [cut] * 3 + [lengthen] + [bound] * 9 + [block_field] * 3 + [
    swap, copy, remove, exchange, generation, records, records, gate, foreign] + [strange_record] * 8 + [
    strange_point] * 3


# Makes the files hostile, and says how.
def spoil(draw, drawn, files):
    told = []
    for _ in range(draw.choice([0, 1, 1, 1, 1, 1, 2, 2, 3])):
        if any(data is not None for data in files.values()):
            told.append(draw.choice(WAYS)(draw, drawn, files))
    if draw.random() < 0.02:
        told.append(no_file(draw, drawn, files))
    return "; ".join(it for it in told if it) or "nothing"
