# Projects that are sound, drawn by a generator: journals of each version, in file 0 or 1 or in both, with edits,
# pieces, undos, redos and purges, and their blocks.
from blocks import spell_block
from fields import END, LONGEST, Bytes
from projects import Project, append, common, has_tail, last_blocks, least_mark, length_of, spell_edit, spell_header

RATES = [1, 8000, 44_100, 2**32 - 1]
MOST = [4, 4, 4, 6, 8, 64, 256, 512, 262_144]
DEPTHS = [1, 2, 3, 4, 8, 256, 4096, 65_536]
GAINS = [65_536, 65_536, 0, 1, 1_048_576]


# A journal that begins with a project: its bytes with each field's place, and the places of its gates.
class Journal:
    def __init__(self, project):
        self.out, self.version = Bytes(), project.version
        spell_header(self.out, project)
        self.gates = [len(self.out.data) - 1]

    def append(self, spell, *args):
        append(self.out, spell, *args)
        self.gates.append(len(self.out.data) - 1)


# A project as it is drawn: its journals by their files, and the lengths of its blocks.
class Drawn:
    def __init__(self, draw):
        self.draw, self.journals, self.lengths, self.older = draw, {}, {}, set()
        self.project = Project(draw.choice(RATES), draw.choice(MOST), draw.choice(DEPTHS))
        self.project.file = draw.choice([0, 0, 0, 1])
        self.versions = [2, 3, 3] if self.project.depth <= 4096 else [3]
        if self.project.depth > 4096 or draw.random() < 0.3:
            self.records()
            self.rebase()
        self.begin()
        for _ in range(draw.choice([0, 0, 0, 1, 1, 2])):
            self.replace()

    # The journal that counts.
    def journal(self):
        return self.journals.get(self.project.file)

    # A journal begins with the project as it is, and records follow.
    def begin(self):
        self.journals[self.project.file] = Journal(self.project)
        self.records()

    # What a header of version 2 or 3 says besides the history.
    def rebase(self):
        draw, project = self.draw, self.project
        project.version = draw.choice(self.versions)
        project.generation = draw.choice([0, 1, 3, 2**32, END - 1, END])
        if draw.random() < 0.3:
            project.commit = draw.choice([project.commit + 5, 2**40, END, END - 1, END - 4])
        if draw.random() < 0.1:
            project.next_track = draw.choice([END, END - 1])
        if draw.random() < 0.1:
            project.next_block = draw.choice([END, END - 1])

    # A journal in the other file takes the place of this one, which most often stays.
    def replace(self):
        project = self.project
        if project.generation < END:
            self.older.update(id for id, _ in project.named())
            project.generation += self.draw.choice([1, 1, 1, END - project.generation])
            project.file, project.version = 1 - project.file, self.draw.choice(self.versions)
            self.begin()

    def records(self):
        for _ in range(self.draw.choice([0, 1, 2, 3, 4, 6, 9])):
            self.record()

    # A new block, or one that is there.
    def block(self, least):
        draw, most = self.draw, self.project.block
        old = [it for it in self.lengths.items() if it[1] >= least]
        if old and draw.random() < 0.2:
            return draw.choice(old)
        length = draw.choice([least, min(most, least + 1), min(most, draw.choice([most, 5, 40, 300]))])
        id = self.project.next_block + draw.choice([0, 0, 0, 0, 1, 7])
        self.project.next_block = id + 1
        self.lengths[id] = max(1, length, least)
        return id, self.lengths[id]

    def clip(self, start):
        count = self.draw.choice([1, 1, 2, 3])
        least = self.project.block // 2 if count > 1 else 1
        return start, [self.block(least) for _ in range(count if least < 400 else 1)]

    # A track with another clip, without its last one, or with other blocks at its end.
    def changed(self, track):
        draw, length = self.draw, length_of(track)
        if track[4] and draw.random() < 0.2:
            return *track[:4], track[4][:-1]
        if track[4] and draw.random() < 0.5:
            return *track[:4], [*track[4][:-1], self.with_tail(*track[4][-1])]
        start = length + draw.choice([1, 2, 9, 9, 1000]) if track[4] else draw.choice([0, 0, 5])
        return *track[:4], [*track[4], self.clip(start)]

    # A clip with other blocks at its end.
    def with_tail(self, start, blocks):
        draw, half = self.draw, self.project.block // 2
        kept = blocks[:draw.randrange(len(blocks) + 1)]
        count = draw.choice([0, 1, 1, 2]) if half < 400 else 0
        if count and len(kept) == 1 and kept[0][1] < half or not kept and not count:
            kept, count = [], max(1, count)
        return start, kept + [self.block(half if kept or count > 1 else 1) for _ in range(count)]

    def settings(self):
        draw = self.draw
        return draw.choice(GAINS), draw.randrange(3), draw.randrange(2)

    def tracks(self):
        draw, project, tracks = self.draw, self.project, list(self.project.tracks())
        way = draw.randrange(8)
        if way < 2 or not tracks:
            if len(tracks) < 64 and project.next_track < END - 4:
                id = project.next_track + draw.choice([0, 0, 0, 3])
                project.next_track = id + 1
                tracks.append((id, *self.settings(), []))
        elif way < 6:
            at = draw.randrange(len(tracks))
            if length_of(tracks[at]) < LONGEST // 2 and project.next_block < END - 64:
                tracks[at] = self.changed(tracks[at])
        elif way == 6:
            at = draw.randrange(len(tracks))
            tracks[at] = (tracks[at][0], *self.settings(), tracks[at][4])
        else:
            del tracks[draw.randrange(len(tracks))]
        return tracks

    # A mark that can say a track by that of the current point, and how many of the last blocks go.
    def mark(self, old, new):
        ways = [least_mark(old, new)] * 3 + [(1, 0)]
        if has_tail(old, new):
            olds = last_blocks(old)
            ways.append((2, self.draw.randint(len(olds) - common(olds, last_blocks(new)), len(olds))))
        return self.draw.choice(ways)

    def append(self, spell, *args):
        if self.journal():
            self.journal().append(spell, *args)

    # Adds a record of a kind that may follow.
    def record(self):
        draw, project = self.draw, self.project
        way = draw.randrange(10)
        if project.commit == END:
            return
        if way == 0 and project.cursor:
            project.go(-1)
            self.append(lambda out: out.put(1, 2))
        elif way == 1 and project.cursor + 1 < len(project.points):
            project.go(1)
            self.append(lambda out: out.put(1, 3))
        elif way == 2 and project.cursor:
            count = draw.randint(1, project.cursor)
            project.purge(count)
            self.append(lambda out: (out.put(1, 4), out.put(8, count)))
        else:
            tag = draw.choice([0, 0, 0, min(1, project.commit), project.commit])
            before = project.tracks()
            project.record(self.tracks(), tag)
            self.append(spell_edit, project, before, tag, self.mark)

    # What is in the other file, if it has no journal that is older.
    def other(self, files):
        draw, data = self.draw, files[self.project.file]
        files[1 - self.project.file] = draw.choice([
            b"", b"\0", b"\1" * 32, b"\0" + data[1:], data[:draw.randrange(33)], b"\0" + draw.randbytes(90)])

    # The files of the project: its journals, the blocks that a point names, and some others.
    def files(self):
        draw = self.draw
        files = {file: bytes(it.out.data) for file, it in self.journals.items()}
        if len(files) > 1 and draw.random() < 0.2:
            del files[1 - self.project.file]
        if len(files) == 1 and draw.random() < 0.3:
            self.other(files)
        named = {id for id, _ in self.project.named()}
        for id, length in self.lengths.items():
            if id in named or draw.random() < (0.9 if id in self.older else 0.3):
                files[id] = spell_block(id, self.samples(length))
        above = self.project.next_block + draw.choice([0, 1, 100, 2**40])
        if draw.random() < 0.1 and above < END:
            files[above] = draw.randbytes(draw.randrange(50))
        return files

    def samples(self, length):
        draw = self.draw
        if length > 400:
            return [draw.choice([0, 7, -7])] * length
        return [draw.choice([-32_768, 32_767, draw.randint(-9, 9), draw.randint(-9, 9)]) for _ in range(length)]
