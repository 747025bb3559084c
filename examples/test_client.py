#!/usr/bin/env python3
"""Tests client.py against a built program over the crossing, two robots whose ways cross in one cell.

Usage: examples/test_client.py FLEET
"""
import pathlib
import subprocess
import sys
import tempfile

HERE = pathlib.Path(__file__).resolve().parent
DATA = HERE.parent / "crates" / "fleet" / "data"


def names(folder):
    return [str(DATA / "M"), str(DATA / "P"), str(pathlib.Path(folder) / "J")]


def drive(fleet, folder):
    """What the client prints in one session."""
    ran = subprocess.run([sys.executable, str(HERE / "client.py"), fleet, *names(folder)], stdout=subprocess.PIPE, text=True, timeout=60)
    assert ran.returncode == 0, ran
    return ran.stdout.splitlines()


def kill_after(fleet, folder, report, answer):
    """A session that is killed when it has given this answer to a report."""
    with subprocess.Popen([fleet, "run", *names(folder)], stdin=subprocess.PIPE, stdout=subprocess.PIPE, text=True, bufsize=1) as session:
        session.stdin.write(report + "\n")
        while session.stdout.readline() != answer + "\n":
            pass
        session.kill()


def main(fleet):
    with tempfile.TemporaryDirectory() as folder:
        said = drive(fleet, folder)
        assert said[0] == "ready 0" and said[-1] == "ok 6", said
        assert sum(line.startswith("release ") for line in said) == 6, said
        assert drive(fleet, folder) == ["ready 6", "known"]
    with tempfile.TemporaryDirectory() as folder:
        kill_after(fleet, folder, "arrive 0 1 1", "ok 1")
        said = drive(fleet, folder)
        assert said[:2] == ["ready 1", "release 0 2 1 2"] and said[-1] == "ok 6", said
    print("the client drives the crossing, also after a session that was killed")


if __name__ == "__main__":
    main(*sys.argv[1:])
