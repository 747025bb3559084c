#!/usr/bin/env python3
"""Hands a built program sides that say that a frame is long, in files with holes, and ends with status 0 where all held.

Usage: examples/sparse_side.py FLEET

Each side is as long as a side may be, and a hole but for its first bytes. A frame's length is not believed before the fields in
it say the same, so the side is answered as its bytes say, with 128 MB of memory at most, and keeps its bytes. (The first sync
writes them back, so the hole is filled; it needs a gigabyte of disk.)

- `fault journal`, status 4, where the first frame is no header, however long it is said to be;
- `fault record 1`, status 4, behind a header, where the first entry's frame is longer than its own count of pairs says.
"""
import pathlib
import resource
import struct
import subprocess
import sys
import tempfile

DATA = pathlib.Path(__file__).resolve().parent.parent / "crates" / "fleet" / "data"
SIDE_LIMIT = 1 << 30
MEMORY = 128 << 20


def frame(size, payload):
    """An open gate, the length that is said, and the first bytes of a payload."""
    return b"\1" + struct.pack(">I", size) + payload


def header(map_length, plan_length):
    """What a header begins with whose map and plan are said to have these lengths."""
    return b"FLET\1" + struct.pack(">QI", 1, map_length) + struct.pack(">I", plan_length)


def sides(whole):
    """The cases: a name, the bytes at the front of side A, and the line that is due."""
    longest = SIDE_LIMIT - 6
    yield "zeros", frame(longest, b""), b"fault journal\n"
    yield "another program's file", b"\x7fELF" * 16, b"fault journal\n"
    yield "a header that is too short for its frame", frame(longest, whole[5:]), b"fault journal\n"
    yield "a map that is longer than the side", frame(longest, header(0xFFFFFFFF, 0xFFFFFFFF)), b"fault journal\n"
    delay = b"\2" + bytes(20) + struct.pack(">I", 0)
    yield "an entry that is longer than it counts", whole[:-1] + frame(longest - len(whole), delay), b"fault record 1\n"
    yield "an entry of zeros", whole[:-1] + frame(longest - len(whole), b""), b"fault record 1\n"


def run(fleet, folder, reports=b""):
    """One session in the folder: its status and what it has sent."""
    words = [fleet, "run", str(DATA / "M"), str(DATA / "P"), f"{folder}/J"]
    limit = lambda: resource.setrlimit(resource.RLIMIT_AS, (MEMORY, MEMORY))
    done = subprocess.run(words, input=reports, capture_output=True, preexec_fn=limit)
    return done.returncode, done.stdout


def keeps(side, front):
    """Whether the side has its first bytes, and zeros behind them up to its length."""
    with side.open("rb") as file:
        if file.read(len(front)) != front:
            return False
        pieces = iter(lambda: file.read(1 << 22), b"")
        return sum(len(piece) for piece in pieces if not any(piece)) == SIDE_LIMIT - len(front)


def main(fleet):
    with tempfile.TemporaryDirectory() as top:
        first = pathlib.Path(top) / "first"
        first.mkdir()
        status, sent = run(fleet, first)
        assert (status, sent[:8]) == (0, b"ready 0\n"), (status, sent)
        whole = (first / "J.a").read_bytes()
        for number, (name, front, line) in enumerate(sides(whole)):
            folder = pathlib.Path(top) / str(number)
            folder.mkdir()
            side = folder / "J.a"
            side.write_bytes(front)
            with side.open("r+b") as file:
                file.truncate(SIDE_LIMIT)
            ended = run(fleet, folder)
            assert ended == (4, line), (name, ended)
            assert keeps(side, front), name
            side.unlink()
            print(f"{name}: {line.decode().strip()}")


if __name__ == "__main__":
    if len(sys.argv) != 2:
        sys.exit(__doc__)
    main(sys.argv[1])
