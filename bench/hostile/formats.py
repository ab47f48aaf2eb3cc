# What is found where a project is opened, by docs/FORMATS.md. It is written from that page, so that it can differ from
# the program.
from blocks import block_size
from fields import END, LONGEST, Refused, Tests, Walk, damaged, number
from projects import FIRST_BLOCK, MAGIC, Project, last_blocks, length_of


# The fields of blocks, clips and tracks. A field is a place and a number.
def walk_blocks(walk, count):
    return [(walk.take(8), walk.take(4)) for _ in range(count)]


def walk_clip(walk):
    start, count = walk.take(8), walk.take(4)
    return start, count, walk_blocks(walk, count[1])


# Of a track without its id.
def walk_heard(walk):
    gain, side, mute, count = walk.take(4), walk.take(1), walk.take(1), walk.take(4)
    return gain, side, mute, [walk_clip(walk) for _ in range(count[1])]


def walk_tracks(walk):
    count = walk.take(4)
    return count, [(walk.take(8), *walk_heard(walk)) for _ in range(count[1])]


# Of changes. What follows a mark above 2 is not known, and may have any length.
def walk_changes(walk):
    count, changes = walk.take(4), []
    for _ in range(count[1]):
        id, mark, more = walk.take(8), walk.take(1), None
        if mark[1] == 1:
            more = walk_heard(walk)
        elif mark[1] == 2:
            gone, coming = walk.take(4), walk.take(4)
            more = gone, coming, walk_blocks(walk, coming[1])
        changes.append((id, mark, more))
        if mark[1] > 2:
            walk.at = len(walk.data)
            break
    return count, changes


# The numbers of fields, as a project has them.
def plain_blocks(blocks):
    return [(id[1], length[1]) for id, length in blocks]


def plain_heard(heard):
    gain, side, mute, clips = heard
    return gain[1], side[1], mute[1], [(start[1], plain_blocks(blocks)) for start, _, blocks in clips]


# The tests of a body or of a header's point, whose bounds are these.
class BodyTests(Tests):
    def __init__(self, file, base, next_block, next_track, most):
        super().__init__(file, base)
        self.next_block, self.next_track, self.most = next_block, next_track, most

    # Blocks of a clip that begins after end cells; it returns where they end.
    def test_blocks(self, blocks, is_several, end):
        for id, length in blocks:
            self.at_least(id, FIRST_BLOCK)
            self.at_most(id, self.next_block - 1)
            self.at_most(length, LONGEST - end)
            self.at_least(length, 1)
            self.at_most(length, self.most)
            if is_several:
                self.at_least(length, self.most // 2)
            end += length[1]
        return end

    def test_heard(self, heard):
        gain, side, mute, clips = heard
        self.at_most(gain, 1_048_576)
        self.at_most(side, 2)
        self.at_most(mute, 1)
        first = 0
        for start, count, blocks in clips:
            self.at_least(start, first)
            self.at_most(start, LONGEST)
            self.at_least(count, 1)
            first = self.test_blocks(blocks, count[1] > 1, start[1]) + 1

    # Ids rise, and are below the next one.
    def test_id(self, id, last):
        self.at_least(id, 1)
        self.at_least(id, last + 1)
        self.at_most(id, self.next_track - 1)

    def test_tracks(self, count, tracks):
        self.at_most(count, 64)
        last = 0
        for id, *heard in tracks:
            self.test_id(id, last)
            self.test_heard(heard)
            last = id[1]

    def test_mark(self, mark, old):
        self.at_most(mark, 2)
        if old is None or mark[1] == 2 and not old[4]:
            self.same(mark, 1)

    # The last blocks of a track's last clip are replaced.
    def test_tail(self, tail, old):
        gone, coming, blocks = tail
        olds = last_blocks(old)
        self.at_most(gone, len(olds))
        if coming[1] and len(olds) == 1 and olds[0][1] < self.most // 2:
            self.at_least(gone, 1)
        kept = olds[:len(olds) - gone[1]]
        if not kept:
            self.at_least(coming, 1)
        end = old[4][-1][0] + sum(length for _, length in kept)
        self.test_blocks(blocks, len(kept) + coming[1] > 1, end)

    def test_changes(self, count, changes, current):
        self.at_most(count, 64)
        last = 0
        for id, mark, more in changes:
            self.test_id(id, last)
            old = current.get(id[1])
            self.test_mark(mark, old)
            if mark[1] == 1:
                self.test_heard(more)
            elif mark[1] == 2:
                self.test_tail(more, old)
            last = id[1]


# The track that a change says by the current point.
def changed(id, mark, more, old):
    if mark[1] == 0:
        return old
    if mark[1] == 1:
        return id[1], *plain_heard(more)
    kept = last_blocks(old)[:len(last_blocks(old)) - more[0][1]]
    return *old[:4], [*old[4][:-1], (old[4][-1][0], kept + plain_blocks(more[2]))]


# The bytes from a base on, read by a walk that the length before them has to fit.
def walk_whole(tests, body, read):
    walk = Walk(body)
    try:
        found = read(walk)
    except EOFError:
        found = None
    tests.same((-4, len(body)), walk.at)
    return found


# The body of a record by its kind; that of an unknown kind may have any length.
def walk_body(version):
    def read(walk):
        kind, least = walk.take(1), min(version, 2)
        if kind[1] == 4:
            return kind, walk.take(8)
        if kind[1] == (1, 5)[least - 1]:
            head = [walk.take(8) for _ in range(3)]
            return kind, *head, *(walk_tracks if version == 1 else walk_changes)(walk)
        if not least <= kind[1] <= least + 3:
            walk.at = len(walk.data)
        return (kind,)
    return read


# An edit of each version.
def fold_edit(project, file, base, edit):
    kind, tag, next_block, next_track, count, said = edit
    tests = BodyTests(file, base, next_block[1], next_track[1], project.block)
    tests.at_most(tag, project.commit)
    for field, low, before in ((next_block, FIRST_BLOCK, project.next_block), (next_track, 1, project.next_track)):
        tests.at_least(field, low)
        tests.at_most(field, END)
        tests.at_least(field, before)
    if kind[1] == 1:
        tests.test_tracks(count, said)
        tracks = [(id[1], *plain_heard(heard)) for id, *heard in said]
    else:
        current = {track[0]: track for track in project.tracks()}
        tests.test_changes(count, said, current)
        tracks = [changed(id, mark, more, current.get(id[1])) for id, mark, more in said]
    project.next_block, project.next_track = next_block[1], next_track[1]
    project.record(tracks, tag[1])


# Carries out a record whose body stands at a place, or finds its first fault.
def fold_record(project, file, base, body):
    tests = Tests(file, base)
    found = walk_whole(tests, body, walk_body(project.version))
    (at, kind), least = found[0], min(project.version, 2)
    tests.same((at, kind), max(least, min(least + 3, kind)))
    tests.at_least((at, min(END - project.commit, 1)), 1)
    if kind == 2:
        tests.at_least((at, min(project.cursor, 1)), 1)
        project.go(-1)
    elif kind == 3:
        tests.at_least((at, min(len(project.points) - 1 - project.cursor, 1)), 1)
        project.go(1)
    elif kind == 4:
        tests.at_least((at, min(project.cursor, 1)), 1)
        tests.at_least(found[1], 1)
        tests.at_most(found[1], project.cursor)
        project.purge(found[1][1])
    else:
        fold_edit(project, file, base, found)


# A point of a header, whose tag is at most the base commit.
def read_point(project, file, base, body):
    tests = BodyTests(file, base, project.next_block, project.next_track, project.block)
    tag, count, tracks = walk_whole(tests, body, lambda walk: (walk.take(8), *walk_tracks(walk)))
    tests.at_most(tag, project.commit)
    tests.test_tracks(count, tracks)
    return [(id[1], *plain_heard(heard)) for id, *heard in tracks], tag[1]


# The bytes of a point or a body, after their length at a place.
def framed(tests, data, at):
    size = len(data)
    tests.is_there(at, at + 4, size)
    end = at + 4 + number(data, at, 4)
    tests.is_there(at + 4, end, size)
    return data[at + 4:end]


# The fields that versions 2 and 3 add, each of which the file may lack.
def read_base(tests, data, project):
    def take(at, width, low, high):
        tests.is_there(at, at + width, len(data))
        field = at, number(data, at, width)
        tests.at_least(field, low)
        tests.at_most(field, high)
        return field[1]

    project.generation = take(21, 8, 0, END)
    project.commit = take(29, 8, 0, END)
    project.next_block = take(37, 8, FIRST_BLOCK, END)
    project.next_track = take(45, 8, 1, END)
    count = take(53, 4, 1, project.depth)
    cursor = take(57, 4, 0, count - 1)
    # The bits of a sample, and zeros.
    zeros = 61 if project.version == 2 else 62
    if project.version > 2:
        tests.is_there(61, 62, len(data))
        tests.same((61, data[61]), 16)
    tests.is_there(zeros, 64, len(data))
    for at in range(zeros, 64):
        tests.same((at, data[at]), 0)
    return count, cursor


# The points of a header; it answers where they end.
def read_points(tests, data, project, count):
    at, points = 64, []
    for _ in range(count):
        body = framed(tests, data, at)
        points.append(read_point(project, tests.file, at + 4, body))
        at += 4 + len(body)
    project.points = points
    return at


# The header, and the place of the first record's gate.
def read_header(tests, data):
    magic, version, rate, most, depth = ((at, number(data, at, 4)) for at in range(1, 21, 4))
    tests.same(magic, MAGIC)
    tests.same(version, max(1, min(3, version[1])))
    tests.at_least(rate, 1)
    tests.same(most, max(4, min(262_144, most[1] - most[1] % 2)))
    tests.same(depth, max(1, min(4096 if version[1] < 3 else 65_536, depth[1])))
    project = Project(rate[1], most[1], depth[1])
    project.file, project.version = tests.file, version[1]
    if project.version == 1:
        for at in range(21, 32):
            tests.same((at, data[at]), 0)
        return project, 32
    count, cursor = read_base(tests, data, project)
    at = read_points(tests, data, project, count)
    project.cursor = cursor
    return project, at


def read_journal(file, data):
    tests, size = Tests(file), len(data)
    project, at = read_header(tests, data)
    while True:
        tests.is_there(at, at + 1, size)
        if data[at] == 0:
            project.end = at
            return project
        body = framed(tests, data, at + 1)
        fold_record(project, file, at + 5, body)
        at += 5 + len(body)


# The bytes of a file. Where a link stands no call on the file succeeds, and a folder is not listed.
def bytes_of(files, file):
    data = files.get(file) or b""
    if isinstance(data, str):
        raise Refused("DiskFault")
    return data


# The bytes of files 0 and 1, on which the first calls come before the files are listed.
def journals_of(files):
    if any(files.get(file, b"") is None for file in (0, 1)):
        raise Refused("DiskFault")
    return [bytes_of(files, file) for file in (0, 1)]


def is_project(data):
    return len(data) >= 33 and data[0] != 0


# A number at which no project has a file.
def find_foreign(files):
    foreign = [it for it, data in files.items() if data is not None and (2 <= it <= 15 or it >= END)]
    if foreign:
        raise Refused(f"Foreign {min(foreign)}")


# The generation of a file that holds a project, after the tests before a choice.
def generation_of(file, data):
    tests = Tests(file)
    version = number(data, 5, 4)
    tests.same((1, number(data, 1, 4)), MAGIC)
    tests.same((5, version), max(1, min(3, version)))
    generation = number(data, 21, 8) if version > 1 else 0
    tests.at_most((21, generation), END)
    return generation


# The file of the journal that counts.
def choose(journals):
    held = [file for file in (0, 1) if is_project(journals[file])]
    if len(held) < 2:
        return held[0]
    first, second = (generation_of(file, journals[file]) for file in held)
    if first == second:
        damaged(1, 21, second + 1, second)
    return int(second > first)


# The project of a disk, whose files are bytes by number, or None for a folder, or the text of a link.
def open_project(files):
    journals = journals_of(files)
    if not any(is_project(it) for it in journals):
        raise Refused("Absent")
    find_foreign(files)
    file = choose(journals)
    project = read_journal(file, journals[file])
    # Each file that is listed is measured before a size is compared.
    sizes = {it: len(bytes_of(files, it)) for it in files}
    for id, length in project.named():
        damaged(id, 0, block_size(length), sizes.get(id, 0))
    project.next_block = max(project.next_block, *(it + 1 for it, data in files.items() if data is not None))
    return project
