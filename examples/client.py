#!/usr/bin/env python3
"""Drives a fleet over pipes: each robot goes on as soon as it is released, until all stand at the ends of their paths.

Usage: examples/client.py FLEET MAP PLAN JOURNAL

It prints what the session says, and may be run again after any end: the journal knows what was reported.
"""
import subprocess
import sys
import time


def drive(fleet, *names):
    with subprocess.Popen([fleet, "run", *names], stdin=subprocess.PIPE, stdout=subprocess.PIPE, text=True, bufsize=1) as session:

        def report(robot, visit):
            # The clock counts the ticks, since those of a later session must not be below those of an earlier one.
            session.stdin.write(f"arrive {robot} {visit} {int(time.time())}\n")

        due = 1
        for line in session.stdout:
            if not line.endswith("\n"):
                break  # a piece without its line end is no line
            print(line, end="", flush=True)
            word, *numbers = line.split()
            if word == "ready":
                report(0, 0)  # known, as every robot starts at its visit 0: this answer comes behind the whole greeting
            elif word == "release":
                report(*numbers[:2])  # here a robot is at its next visit as soon as it may move
                due += 1
            elif word in ("ok", "known", "refused"):
                due -= 1
            if due == 0:
                session.stdin.close()  # a fleet never stalls: where no robot may move, all have arrived
    return session.returncode


if __name__ == "__main__":
    sys.exit(drive(*sys.argv[1:]))
