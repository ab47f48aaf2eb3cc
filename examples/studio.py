#!/usr/bin/env python3
"""Talks to a studio from Python: each line gets its answer.

    with Studio("song") as studio:
        studio.ask("track")                  # [["ok", "1"]]
        studio.ask("put 1 0 100 200 300")    # [["ok", "2"]]
    studio.end                               # [["end", "2"]]
    studio.status                            # 0

As a program it prints the peak of each track: examples/studio.py FOLDER
"""
import subprocess
import sys
import time
from pathlib import Path


class Refused(Exception):
    """A line that was refused: `words` has its answer, as ["no", "2", "NoTrack", "7"]. Or a call that was refused, as
    ["refused", "Absent"], or a recording or a playback that failed, as ["rec", "1", "0", "0", "fault"]. There are no
    words if the studio ended without its last line."""

    def __init__(self, words):
        super().__init__(" ".join(words) or "the studio has ended")
        self.words = words


class Studio:
    """A call of `./studio FOLDER run`, with options as "--record". Leaving the `with` ends the script, and waits for
    the recording and the playback. Then `end` has the last lines as lists of words, and `status` the exit status."""

    def __init__(self, folder, *options):
        program = Path(__file__).resolve().parent.parent / "studio"
        self.call = subprocess.Popen(
            [program, folder, "run", *options], stdin=subprocess.PIPE, stdout=subprocess.PIPE, text=True
        )
        self.end = []
        self.status = None

    def read(self):
        """The words of the next line that the studio prints."""
        words = self.call.stdout.readline().split()
        if not words or words[0] == "refused":
            raise Refused(words)
        return words

    def ask(self, line):
        """Hands over a line, neither empty nor a comment, and returns the lines of its answer as lists of words."""
        try:
            print(line, file=self.call.stdin, flush=True)
        except BrokenPipeError:
            pass  # the studio has ended: what it printed says why
        first = self.read()
        if first[0] == "no":
            raise Refused(first)
        more = int(first[2]) if first[0] in ("columns", "tracks") else 0
        return [first, *(self.read() for _ in range(more))]

    def tracks(self):
        """The length of each track in cells, by its id."""
        return {int(words[1]): int(words[5]) for words in self.ask("tracks")[1:]}

    def wait_for(self, track, cells, seconds=5):
        """Waits until the track has that many cells, and returns whether it has. It gives up when the track has not
        grown for some seconds, as after the end of a recording. It can't see that one failed: the last lines say so."""
        length, grown = self.tracks()[track], time.monotonic()
        while length < cells and time.monotonic() - grown < seconds:
            time.sleep(0.1)
            before, length = length, self.tracks()[track]
            if length != before:
                grown = time.monotonic()
        return length >= cells

    def __enter__(self):
        return self

    def __exit__(self, kind, *_):
        try:
            self.call.stdin.close()
        except BrokenPipeError:
            pass
        self.end = [line.split() for line in self.call.stdout]
        self.status = self.call.wait()
        if kind is None:
            self.raise_failed()

    def raise_failed(self):
        """Raises the first of the last lines that says that something failed, or was refused."""
        for words in self.end:
            if words[0] == "refused" or words[-1] == "fault" or "no" in words:
                raise Refused(words)
        if not self.end or self.end[-1][0] != "end":
            raise Refused([])


def peak(studio, track, length):
    """The greatest distance of a sample from 0, of a track that is not empty; 0 where it has gaps alone."""
    column = studio.ask(f"envelope {track} 0 {length} 1")[1]
    return 0 if column[1] == "none" else max(-int(column[1]), int(column[2]))


def main():
    """Prints the peak of each track."""
    if len(sys.argv) != 2:
        sys.exit("usage: examples/studio.py FOLDER")
    try:
        with Studio(sys.argv[1]) as asked:
            for track, length in asked.tracks().items():
                print(f"track {track}: {length} cells, peak {peak(asked, track, length) if length else 0}")
    except Refused as refused:
        sys.exit(f"studio.py: {refused}")


if __name__ == "__main__":
    main()
