#!/usr/bin/env python3
"""Plays a plan to its end over one session, with robots that are late now and then.

Usage: examples/play.py FLEET MAP PLAN JOURNAL REPORTS LOG

Each robot begins a move as soon as it is released. A move lasts a tick, and one of forty is reported to last up to twenty
more. The report lines go to REPORTS and the answers to LOG, in their order, as examples/draw.py reads them.
"""
import heapq
import random
import subprocess
import sys


class Session:
    """A session of the program: report lines go in, and releases come out."""

    def __init__(self, fleet, papers, reports, log):
        self.program = subprocess.Popen([fleet, "run", *papers], stdin=subprocess.PIPE, stdout=subprocess.PIPE, text=True, bufsize=1)
        self.reports, self.log = open(reports, "w"), open(log, "w")
        self.released = {}

    def report(self, line):
        """Sends a report, and reads on until it is answered."""
        print(line, file=self.reports)
        print(line, file=self.program.stdin, flush=True)
        for answer in self.program.stdout:
            self.log.write(answer)
            word, *rest = answer.split()
            if word == "release":
                self.released.setdefault(int(rest[0]), []).append(int(rest[1]))
            if word in ("ok", "known", "refused"):
                return
        sys.exit(f"the session has ended, with {self.program.wait()}")


def play(session, seed=1):
    """Ticks on until no robot moves, and says how many ticks that took."""
    draw, moves, tick = random.Random(seed), [], 0
    session.report("arrive 0 0 0")  # known: its answer stands behind the whole greeting
    while True:
        while moves and moves[0][0] == tick:
            _, robot, visit = heapq.heappop(moves)
            session.report(f"arrive {robot} {visit} {tick}")
        moving = {robot for _, robot, _ in moves}
        ready = sorted(robot for robot, visits in session.released.items() if visits and robot not in moving)
        for robot in ready:
            visit, late = session.released[robot].pop(0), draw.randint(1, 20) if draw.random() < 1 / 40 else 0
            if late:
                session.report(f"delay {robot} {visit} {late} {tick}")
            heapq.heappush(moves, (tick + 1 + late, robot, visit))
        if not moves:
            return tick
        tick += 1


if __name__ == "__main__":
    if len(sys.argv) != 7:
        sys.exit(__doc__)
    fleet, *papers, reports, log = sys.argv[1:]
    session = Session(fleet, papers, reports, log)
    ticks = play(session)
    session.program.stdin.close()
    print(f"all robots stand after {ticks} ticks, the session ended with {session.program.wait()}")
