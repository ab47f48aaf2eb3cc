# What the program has to print, and what it has to leave, for calls on a project or a sound, by docs/SCRIPT.md.
import blocks
import formats
from fields import END, LONGEST, Bytes, Refused
from projects import Project, append, length_of, spell_edit, spell_header

SIDES = ["both", "left", "right"]
# The settings of a track: their places in it, and values to set.
SETTINGS = {"level": (1, [0, 1, 65_536, 1_048_576]), "side": (2, [0, 1, 2]), "mute": (3, [0, 1])}
LINES = ["track", "drop", "undo", "redo", "purge", "purge-to", "show", "set", "set", *["compact"] * 2, *["put"] * 5]


def track_lines(project):
    for track in project.tracks():
        yield f"track {track[0]} {track[1]} {SIDES[track[2]]} {track[3]} {length_of(track)}"


# What a call prints and its status, where the project is not opened.
def refused(fault):
    status = 4 if str(fault) == "DiskFault" else 3
    return [f"refused {fault}"], status


def listed(files):
    try:
        project = formats.open_project(files)
    except Refused as fault:
        return refused(fault)
    head = f"project {project.rate} {project.block} {project.depth}"
    points = f"commit {project.commit} points {len(project.points)} cursor {project.cursor}"
    return [head, points, *track_lines(project), f"end {project.commit}"], 0


def checked(files):
    try:
        project = formats.open_project(files)
        named = project.named()
        for id, length in named:
            blocks.test_block(id, length, files[id])
    except Refused as fault:
        return refused(fault)
    return [f"checked {len(named)}", f"end {project.commit}"], 0


# `new` on a disk that may have anything, and the journal that it leaves.
def made(files, rate, block, depth):
    try:
        journals = formats.journals_of(files)
        if any(formats.is_project(it) for it in journals):
            raise Refused("Exists")
        formats.find_foreign(files)
    except Refused as fault:
        return refused(fault)
    project, out = Project(rate, block, depth), Bytes()
    project.version = 3
    spell_header(out, project)
    files[0] = bytes(out.data) + journals[0][len(out.data):]
    return ["ok 0"], 0


# The blocks of a track, each with the cell at which it begins.
def placed(track):
    for start, named in track[4]:
        for id, length in named:
            yield start, id, length
            start += length


# The samples of a block, as a line reads them.
def read_block(files, id, length):
    blocks.test_head(id, length, files[id])
    return list(blocks.samples_of(files[id], length))


# The cells from the track's front up to a place; None is a gap.
def cells(files, track, to):
    out = []
    for start, id, length in placed(track):
        if start < to:
            out += [None] * (start - len(out))
            out += read_block(files, id, length)[:to - start]
    return out + [None] * (min(to, length_of(track)) - len(out))


# How many samples each new block has: total in all, and at most most in each.
def sizes(total, most):
    count = -(-total // most)
    return [total // count + (i < total % count) for i in range(count)]


# The script of a call of `run`, carried out line by line.
class Script:
    def __init__(self, files):
        self.files = files
        self.lines, self.answers, self.is_refused, self.is_stopped = [], [], False, False
        self.project = formats.open_project(files)

    def say(self, line, *answers):
        self.lines.append(line)
        self.answers += answers

    def refuse(self, line, why):
        self.is_refused = True
        self.say(line, f"no {self.project.commit} {why}")

    # A change of the disk failed: each later line is refused.
    def stop(self, line):
        self.refuse(line, "DiskFault")
        self.is_stopped = True

    # Whether no counter of these is at its end; if one is, the line is refused.
    def has_space(self, line, *counters):
        if END in (*counters, self.project.commit):
            self.refuse(line, f"SpaceSpent {END} 1")
            return False
        return True

    # Adds a record to the journal, in its file and its version.
    def add(self, spell, *args):
        project, out = self.project, Bytes()
        journal = self.files[project.file]
        out.data += journal[:project.end + 1]
        append(out, spell, *args)
        self.files[project.file] = bytes(out.data) + journal[len(out.data):]
        project.end = len(out.data) - 1

    def write(self, line, spell, *args):
        self.add(spell, *args)
        self.say(line, f"ok {self.project.commit}")

    def edit(self, line, tracks):
        before = self.project.tracks()
        self.project.record(tracks, 0)
        self.write(line, spell_edit, self.project, before, 0)

    # Tracks with another one in the place of the one of its id.
    def with_track(self, track):
        return [track if it[0] == track[0] else it for it in self.project.tracks()]

    def tracks(self):
        project = self.project
        self.say("tracks", f"tracks {project.commit} {len(project.tracks())}", *track_lines(project))

    def show(self, track, to):
        line = f"show {track[0]} 0 {to}"
        try:
            shown = cells(self.files, track, to)
        except Refused as fault:
            return self.refuse(line, fault)
        words = ["." if it is None else str(it) for it in shown]
        self.say(line, " ".join(["cells", str(self.project.commit), *words]))

    def track(self):
        project = self.project
        if len(project.tracks()) == 64:
            self.refuse("track", "TrackLimit")
        elif self.has_space("track", project.next_track):
            new = (project.next_track, 65_536, 0, 0, [])
            project.next_track += 1
            self.edit("track", [*project.tracks(), new])

    def drop(self, track):
        line = f"drop {track[0]}"
        if self.has_space(line):
            self.edit(line, [it for it in self.project.tracks() if it[0] != track[0]])

    # Sets what changes no cell of a track.
    def set(self, track, what, value):
        at = SETTINGS[what][0]
        line = f"{what} {track[0]} {SIDES[value] if what == 'side' else value}"
        if self.has_space(line):
            self.edit(line, self.with_track((*track[:at], value, *track[at + 1:])))

    # Samples at the end of a track, or further on, after a gap.
    def put(self, track, gap, samples):
        length = length_of(track) + gap
        line = " ".join(str(it) for it in ["put", track[0], length, *samples])
        if length + len(samples) > LONGEST:
            return self.refuse(line, f"LengthLimit {length + len(samples)}")
        *others, (start, kept) = track[4] if track[4] and not gap else [*track[4], (length, [])]
        absorbed = self.absorbed(kept, len(samples))
        kept = kept[:len(kept) - len(absorbed)]
        self.lay_out(line, track, [*others, (start, kept)], absorbed, samples)

    # The last block of a clip, if samples after it are laid out together with it, by docs/LAYOUTS.md.
    def absorbed(self, blocks, count):
        half = self.project.block // 2
        return blocks[-1:] if count < half or len(blocks) == 1 and blocks[0][1] < half else []

    # Adds new blocks to the last clip of a track, with the samples of some old ones before those of a line.
    def lay_out(self, line, track, clips, absorbed, samples):
        project = self.project
        lengths = sizes(sum(it[1] for it in absorbed) + len(samples), project.block)
        if project.next_block + len(lengths) > END:
            return self.refuse(line, f"SpaceSpent {project.next_block} {len(lengths)}")
        if not self.has_space(line):
            return None
        try:
            samples = [it for block in absorbed for it in read_block(self.files, *block)] + samples
        except Refused as fault:
            return self.refuse(line, fault)
        new = []
        for i in range(len(lengths)):
            # (a folder stands where the block would be)
            if self.files.get(project.next_block, b"") is None:
                return self.stop(line)
            new.append(self.make(samples, lengths, i))
        start, kept = clips[-1]
        return self.edit(line, self.with_track((*track[:4], [*clips[:-1], (start, kept + new)])))

    # The next block, of the samples that are its own.
    def make(self, samples, lengths, i):
        id, start = self.project.next_block, sum(lengths[:i])
        self.files[id] = blocks.spell_block(id, samples[start:start + lengths[i]])
        self.project.next_block += 1
        return id, lengths[i]

    def undo(self):
        if not self.project.cursor:
            self.refuse("undo", "NothingToUndo")
        elif self.has_space("undo"):
            self.project.go(-1)
            self.write("undo", lambda out: out.put(1, 2))

    def redo(self):
        if self.project.cursor + 1 == len(self.project.points):
            self.refuse("redo", "NothingToRedo")
        elif self.has_space("redo"):
            self.project.go(1)
            self.write("redo", lambda out: out.put(1, 3))

    def purge(self, count):
        line = f"purge {count}"
        if not 1 <= count <= self.project.cursor:
            self.refuse(line, "BadRange")
        elif self.has_space(line):
            self.project.purge(count)
            self.write(line, lambda out: (out.put(1, 4), out.put(8, count)))

    # How many bytes the files have of the blocks that points name, without this many of the oldest.
    def size_without(self, count):
        points = self.project.points[count:]
        named = {block for tracks, _ in points for track in tracks for _, of in track[4] for block in of}
        return sum(blocks.block_size(length) for _, length in named)

    def purge_to(self, most):
        line, cursor = f"purge-to {most}", self.project.cursor
        count = next((it for it in range(cursor) if self.size_without(it) <= most), cursor)
        if count == 0:
            self.refuse(line, "BadRange")
        elif self.has_space(line):
            self.project.purge(count)
            self.add(lambda out: (out.put(1, 4), out.put(8, count)))
            self.say(line, f"purged {self.project.commit} {count}")

    # Puts the journal into one header, in the file that it was not in. What that file had before is gone.
    def compact(self):
        project = self.project
        if project.generation == END:
            return self.refuse("compact", f"SpaceSpent {END} 1")
        del self.files[project.file]
        project.file, project.version = 1 - project.file, 3
        project.generation += 1
        out = Bytes()
        spell_header(out, project)
        self.files[project.file] = bytes(out.data)
        project.end = len(out.data) - 1
        self.say("compact", f"packed {project.commit} {len(out.data)}")

    # Removes the files that no point names.
    def reclaim(self):
        named = {id for id, _ in self.project.named()}
        unnamed = [it for it, data in self.files.items() if data is not None and it > 15 and it not in named]
        for it in unnamed:
            del self.files[it]
        self.say("reclaim", f"freed {self.project.commit} {len(unnamed)}")

    # One line that is drawn.
    def draw_line(self, draw):
        tracks, way = self.project.tracks(), draw.choice(LINES)
        if self.is_stopped:
            self.refuse("track", "Stopped 1")
        elif way in ("undo", "redo", "compact"):
            getattr(self, way)()
        elif way == "purge":
            self.purge(draw.choice([0, 1, 1, 2, 5]))
        elif way == "purge-to":
            self.purge_to(draw.choice([0, 44, 100, 1000, 2**20, 2**63 - 1]))
        elif way == "track" or not tracks:
            self.track()
        else:
            self.draw_on(draw, way, draw.choice(tracks))

    # One that acts on a track.
    def draw_on(self, draw, way, track):
        if way == "drop":
            self.drop(track)
        elif way == "show":
            self.show(track, 40)
        elif way == "set":
            what = draw.choice(list(SETTINGS))
            self.set(track, what, draw.choice(SETTINGS[what][1]))
        else:
            samples = draw.choices([-32_768, 32_767, 1, -2, 3], k=draw.choice([1, 1, 2, 3, 4, 5, 9, 33]))
            self.put(track, draw.choice([0, 0, 0, 0, 1, 7]), samples)

    def ended(self):
        status = 4 if self.is_stopped else int(self.is_refused)
        return [*self.answers, f"end {self.project.commit}"], status


# A call of `run` that shows what is there, edits it and removes what is not named: its script, what is printed, and the
# status. What it leaves is in the files.
def ran(files, draw):
    try:
        script = Script(files)
    except Refused as fault:
        return "track\n", *refused(fault)
    script.tracks()
    for track in script.project.tracks()[:3]:
        script.show(track, 40)
    script.track()
    for _ in range(draw.randrange(2, 9)):
        script.draw_line(draw)
    if script.is_stopped:
        script.refuse("undo", "Stopped 1")
    else:
        script.undo()
        script.reclaim()
        script.tracks()
    return "".join(f"{line}\n" for line in script.lines), *script.ended()
