# Projects with their histories, and how a journal spells them by docs/FORMATS.md.
FIRST_BLOCK = 16
MAGIC = 827_214_401


# A project: its points are pairs of tracks and tag, a track is (id, gain, side, mute, clips), a clip (start, blocks), a
# block (id, length). Its journal has a file, a version and a generation, and ends at a gate that is 0.
class Project:
    def __init__(self, rate, block, depth):
        self.rate, self.block, self.depth = rate, block, depth
        self.points, self.cursor = [([], 0)], 0
        self.next_block, self.next_track, self.commit = FIRST_BLOCK, 1, 0
        self.file, self.version, self.generation, self.end = 0, 1, 0, 32

    def tracks(self):
        return self.points[self.cursor][0]

    # The blocks that points name, by rising id.
    def named(self):
        return sorted({b for tracks, _ in self.points for t in tracks for _, blocks in t[4] for b in blocks})

    def record(self, tracks, tag):
        if tag and self.points[self.cursor][1] == tag:
            self.points[self.cursor:] = [(tracks, tag)]
        else:
            self.points[self.cursor + 1:] = [(tracks, tag)]
            del self.points[:-self.depth]
        self.cursor = len(self.points) - 1
        self.commit += 1

    def go(self, step):
        self.cursor += step
        self.commit += 1

    def purge(self, count):
        del self.points[:count]
        self.go(-count)


def length_of(track):
    if not track[4]:
        return 0
    start, blocks = track[4][-1]
    return start + sum(length for _, length in blocks)


# Puts the length of what is spelled before it.
def spell_with_length(out, spell, *args):
    at = len(out.data)
    out.put(4, 0)
    spell(out, *args)
    out.data[at:at + 4] = (len(out.data) - at - 4).to_bytes(4, "little")


def spell_blocks(out, blocks):
    for id, length in blocks:
        out.put(8, id)
        out.put(4, length)


# A track without its id.
def spell_heard(out, track):
    _, gain, side, mute, clips = track
    out.put(4, gain)
    out.put(1, side, mute)
    out.put(4, len(clips))
    for start, blocks in clips:
        out.put(8, start)
        out.put(4, len(blocks))
        spell_blocks(out, blocks)


def spell_tracks(out, tracks):
    out.put(4, len(tracks))
    for track in tracks:
        out.put(8, track[0])
        spell_heard(out, track)


def spell_point(out, tracks, tag):
    out.put(8, tag)
    spell_tracks(out, tracks)


# The header of a journal that begins with a project, in the project's version, and the first gate.
def spell_header(out, project):
    out.put(1, 1)
    out.put(4, MAGIC, project.version, project.rate, project.block, project.depth)
    if project.version == 1:
        out.put(1, *[0] * 11)
    else:
        out.put(8, project.generation, project.commit, project.next_block, project.next_track)
        out.put(4, len(project.points), project.cursor)
        out.put(1, 0 if project.version == 2 else 16, 0, 0)
        for tracks, tag in project.points:
            spell_with_length(out, spell_point, tracks, tag)
    out.put(1, 0)


# How many blocks stand at the front of both.
def common(old, new):
    return next((i for i, (one, other) in enumerate(zip(old, new)) if one != other), min(len(old), len(new)))


def last_blocks(track):
    return track[4][-1][1]


# Whether only the blocks of the last clip differ, if any do.
def has_tail(old, new):
    return bool(old and old[4] and new[4]) and (
        (old[:4], old[4][:-1], old[4][-1][0]) == (new[:4], new[4][:-1], new[4][-1][0]))


# The mark that the program writes, and how many of the last blocks go.
def least_mark(old, new):
    if old == new:
        return 0, 0
    if has_tail(old, new):
        return 2, len(last_blocks(old)) - common(last_blocks(old), last_blocks(new))
    return 1, 0


# Each track by the current point: by its id, a mark and what the mark asks.
def spell_changes(out, before, tracks, mark_of):
    olds = {track[0]: track for track in before}
    out.put(4, len(tracks))
    for track in tracks:
        old = olds.get(track[0])
        mark, gone = mark_of(old, track)
        out.put(8, track[0])
        out.put(1, mark)
        if mark == 1:
            spell_heard(out, track)
        elif mark == 2:
            new = last_blocks(track)[len(last_blocks(old)) - gone:]
            out.put(4, gone, len(new))
            spell_blocks(out, new)


# The body of an edit to which a project has come from some tracks.
def spell_edit(out, project, before, tag, mark_of=least_mark):
    out.put(1, 1 if project.version == 1 else 5)
    out.put(8, tag, project.next_block, project.next_track)
    if project.version == 1:
        spell_tracks(out, project.tracks())
    else:
        spell_changes(out, before, project.tracks(), mark_of)


# Adds a record's length, body and the next gate after a gate, which is opened.
def append(out, spell, *args):
    out.data[-1] = 1
    spell_with_length(out, spell, *args)
    out.put(1, 0)
