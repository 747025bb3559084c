#!/usr/bin/env python3
"""Times `fleet check` on large files of its own making, beside `cksum` and `wc -w` of the same files, rankings, schedules,
checks of certificates, plans in turn, searches for a cheaper order, sessions, the opening of journals, and what it costs to
keep a report.

Usage: bench/bench.py FLEET RANK_BENCH CERT_BENCH PLAN_BENCH SEARCH_BENCH [TABLE..]

With names of tables (check, rank, session, kept, journal, cert, plan, search) it makes these alone. That of plans builds its
yardstick by `rustc`.

Each row of the first table is one pair of files, each row of the second one plan. A time is the least of nine runs, as the
processor time of the process; the memory is the greatest resident size. The tables are written in Markdown.
"""
import os
import re
import struct
import subprocess
import sys
import tempfile
import time

RUNS = 9
RANKS = 40
SIDE = 4096
LISTED = 4097
KEPT_RUNS = 9
PLAN_RUNS = 3
MEMORY = "/dev/shm"


def run(command):
    """The processor seconds and the peak memory in MB of one run, with what it wrote."""
    reader, writer = os.pipe()
    child = os.fork()
    if child == 0:
        os.dup2(writer, 1)
        os.execvp(command[0], command)
    os.close(writer)
    with os.fdopen(reader, "rb") as pipe:
        out = pipe.read()
    _, _, usage = os.wait4(child, 0)
    return usage.ru_utime + usage.ru_stime, usage.ru_maxrss / 1024, out.decode().strip()


def least(command, runs=RUNS):
    """The least time of several runs, with its memory and output."""
    return min((run(command) for _ in range(runs)), key=lambda row: row[0])


def write_map(path):
    with open(path, "w") as file:
        file.write(f"type octile\nheight {SIDE}\nwidth {SIDE}\nmap\n")
        file.write(("." * SIDE + "\n") * SIDE)


def write_plan(path, robots, cells_of):
    with open(path, "w") as file:
        for robot in range(robots):
            cells = "->".join(f"({row},{column})" for row, column in cells_of(robot))
            file.write(f"Agent {robot}: {cells}\n")


def spread(robots):
    """Robots in rows of their own that move once in 16 ticks: 256 visits and 4,097 listed cells each, no pairs."""
    return lambda robot: ((16 * robot, min(tick // 16, 255)) for tick in range(LISTED))


def convoy(robots, steps):
    """Robots behind one another in one row, all moving at each tick: the cells that two of them pass are pairs."""
    return lambda robot: ((0, robots - 1 - robot + tick) for tick in range(steps + 1))


def pairs_of_convoy(robots, steps):
    return sum((robots - apart) * (steps + 1 - apart) for apart in range(1, min(robots, steps + 1)))


def longest_convoy(robots, most):
    steps = 1
    while pairs_of_convoy(robots, steps + 1) <= most:
        steps += 1
    return steps


def moving(robots):
    """Robots in rows of their own that move at each tick: too many visits, so the plan is read and then refused."""
    return lambda robot: ((16 * robot, tick % SIDE if tick < SIDE else SIDE - 2) for tick in range(LISTED))


def check_table(program):
    rows = []
    for robots in (32, 64, 128, 256):
        rows.append((f"{robots} robots, {LISTED:,} cells listed, 256 visits each", robots, spread(robots)))
    steps = longest_convoy(256, 1048576)
    rows.append(("256 robots, pairs just below the limit", 256, convoy(256, steps)))
    rows.append(("256 robots, more pairs than the limit", 256, convoy(256, 255)))
    rows.append((f"256 robots, {LISTED:,} cells listed, too many visits", 256, moving(256)))
    print("| plan (map 4,096 x 4,096) | MB of both files | answer | times `cksum` | times `wc -w` | peak MB |")
    print("|---|---|---|---|---|---|")
    with tempfile.TemporaryDirectory() as folder:
        map_path, plan_path = (os.path.join(folder, name) for name in ("M", "P"))
        write_map(map_path)
        for name, robots, cells_of in rows:
            write_plan(plan_path, robots, cells_of)
            size = (os.path.getsize(map_path) + os.path.getsize(plan_path)) / 1e6
            seconds, memory, answer = least([program, "check", map_path, plan_path])
            sums = least(["cksum", map_path, plan_path])[0]
            words = least(["wc", "-w", map_path, plan_path])[0]
            print(f"| {name} | {size:.1f} | `{answer}` | {seconds / sums:.0f} | {seconds / words:.1f} | {memory:.0f} |")
            print(f"{name}: {seconds:.3f} s, cksum {sums:.3f} s, wc {words:.3f} s", file=sys.stderr)


def rank_table(program):
    print("| pairs | visits | milliseconds of one ranking | of one schedule | peak MB |")
    print("|---|---|---|---|---|")
    for most in (262144, 524288, 1048576):
        steps = longest_convoy(256, most)
        before = least([program, "256", str(steps), "0", "0"])[0]
        ranked, memory, _ = least([program, "256", str(steps), str(RANKS), "0"])
        scheduled = least([program, "256", str(steps), "0", str(RANKS)])[0]
        rank = 1000 * (ranked - before) / RANKS
        schedule = 1000 * (scheduled - before) / RANKS
        visits = 256 * (steps + 1)
        print(f"| {pairs_of_convoy(256, steps):,} | {visits:,} | {rank:.0f} | {schedule:.0f} | {memory:.0f} |")


def convoy_reports(robots, steps):
    """The arrivals of a convoy, step by step from its first robot on: each is released when it is reported."""
    return "".join(f"arrive {robot} {step} {step}\n" for step in range(1, steps + 1) for robot in range(robots))


def piped(command, data):
    """The seconds from the start to the end of a command that is fed over one pipe and read over another."""
    start = time.perf_counter()
    subprocess.run(command, input=data, stdout=subprocess.PIPE, check=True)
    return time.perf_counter() - start


def delays(robots, visit, rounds):
    """Delays of one visit of each robot, another one in each round."""
    return "".join(f"delay {robot} {visit} {extra} 0\n" for extra in range(1, rounds + 1) for robot in range(robots))


def write_convoy(folder, robots, steps):
    """The map and the plan of a convoy, in this folder."""
    map_path, plan_path = (os.path.join(folder, name) for name in ("M", "P"))
    with open(map_path, "w") as file:
        file.write(f"type octile\nheight 1\nwidth {robots + steps}\nmap\n" + "." * (robots + steps) + "\n")
    write_plan(plan_path, robots, convoy(robots, steps))
    return map_path, plan_path


def anew(run):
    """A run in a folder of its own, in the file system where no sync takes time."""

    def timed():
        with tempfile.TemporaryDirectory(dir=MEMORY) as folder:
            return run(os.path.join(folder, "J"))

    return timed


def session_row(program, robots, steps, data):
    reports = data.count(b"\n")
    with tempfile.TemporaryDirectory() as folder:
        command = [program, "run", *write_convoy(folder, robots, steps)]
        timed = lambda data: anew(lambda journal: piped([*command, journal], data))
        answers = anew(lambda journal: subprocess.run([*command, journal], input=data, stdout=subprocess.PIPE, check=True).stdout)()
        assert answers.endswith(f"ok {reports}\n".encode())
        empty = min(timed(b"")() for _ in range(RUNS))
        whole = min(timed(data)() for _ in range(RUNS))
        copied = min(piped(["cat"], data) for _ in range(RUNS))
    each = (whole - empty) / reports
    pairs, visits = pairs_of_convoy(robots, steps), robots * (steps + 1)
    print(f"| {reports:,} | {visits:,} | {pairs:,} | {len(data):,} | {len(answers):,} | {1e6 * each:.0f} | {1 / each:,.0f} | {1e6 * copied / reports:.1f} |")


def session_table(program):
    print("| reports | visits | pairs | bytes in | bytes out | microseconds of one report | reports a second | microseconds of `cat` for one |")
    print("|---|---|---|---|---|---|---|---|")
    session_row(program, 32, 6, delays(32, 6, 320).encode())
    session_row(program, 32, 320, convoy_reports(32, 320).encode())


def header_payload(map_text, plan_text):
    """The payload of the header of a new journal."""
    return b"FLET" + struct.pack(">BQ", 1, 1) + b"".join(struct.pack(">I", len(text)) + text for text in (map_text, plan_text)) + b"\0"


def report_payload(line):
    """The payload of an accepted report, which switches no pair."""
    kind, *numbers = line.split()
    if kind == b"arrive":
        return struct.pack(">BIIQ", 1, *map(int, numbers))
    return struct.pack(">BIIIQI", 2, *map(int, numbers), 0)


def journal_bytes(map_path, plan_path, data):
    """The side of a journal of this map and plan that holds these reports."""
    with open(map_path, "rb") as map_file, open(plan_path, "rb") as plan_file:
        payloads = [header_payload(map_file.read(), plan_file.read())]
    payloads += (report_payload(line) for line in data.splitlines())
    return b"".join(b"\1" + struct.pack(">I", len(payload)) + payload for payload in payloads) + b"\0"


def opening_row(program, name, robots, steps, data):
    reports = data.count(b"\n")
    with tempfile.TemporaryDirectory(dir=MEMORY) as folder:
        papers = write_convoy(folder, robots, steps)
        journals = [os.path.join(folder, name) for name in ("empty", "whole")]
        for journal, held in zip(journals, (b"", data)):
            with open(journal + ".a", "wb") as file:
                file.write(journal_bytes(*papers, held))
        size = os.path.getsize(journals[1] + ".a")
        greeted = subprocess.run([program, "run", *papers, journals[1]], input=b"", stdout=subprocess.PIPE, check=True).stdout
        assert greeted.startswith(f"ready {reports}\n".encode())
        times = [min(piped([program, "run", *papers, journal], b"") for _ in range(RUNS)) for journal in journals]
        summed = least(["cksum", journals[1] + ".a"])[0]
    spent = times[1] - times[0]
    print(f"| {name} | {reports:,} | {robots} | {size / 1e6:.1f} | {1e3 * spent:.0f} | {1e6 * spent / reports:.2f} | {1e9 * spent / size:.0f} | {1e3 * summed:.1f} |", flush=True)


def journal_table(program):
    print("| reports kept | how many | robots | MB | ms of opening | microseconds a report | ns a byte | ms of `cksum` |")
    print("|---|---|---|---|---|---|---|---|")
    for rounds in (780, 1560, 3120):
        opening_row(program, "delays", 32, 6, delays(32, 6, 2 * rounds).encode())
    opening_row(program, "arrivals", 32, 2040, convoy_reports(32, 2040).encode())
    opening_row(program, "delays", 256, 60, delays(256, 60, 390).encode())


def bare_loop(path, frames):
    """The seconds of writing these frames as a session does: behind the closed gate, a sync, the gate, a sync."""
    place = 0
    file = os.open(path, os.O_CREAT | os.O_RDWR)
    try:
        start = time.perf_counter()
        for frame in frames:
            os.pwrite(file, frame, place + 1)
            os.fdatasync(file)
            os.pwrite(file, b"\1", place)
            os.fdatasync(file)
            place += len(frame)
        return time.perf_counter() - start
    finally:
        os.close(file)


def filed(command, path):
    """The seconds of a command that reads this file, and whose answers nobody waits for."""
    with open(path, "rb") as data:
        start = time.perf_counter()
        subprocess.run(command, stdin=data, stdout=subprocess.DEVNULL, check=True)
        return time.perf_counter() - start


def kept_row(program, where, folder_of):
    data = delays(32, 6, 313).encode()
    payloads = [report_payload(line) for line in data.splitlines()]
    frames = [struct.pack(">I", len(payload)) + payload + b"\0" for payload in payloads]
    reports = len(frames)
    served, bare = [], []
    for _ in range(KEPT_RUNS):
        with tempfile.TemporaryDirectory(dir=folder_of) as folder:
            command = [program, "run", *write_convoy(folder, 32, 6)]
            path = os.path.join(folder, "R")
            with open(path, "wb") as file:
                file.write(data)
            empty = filed([*command, os.path.join(folder, "E")], os.devnull)
            served.append(filed([*command, os.path.join(folder, "J")], path) - empty)
            bare.append(bare_loop(os.path.join(folder, "B"), frames))
    print(f"| {where} | {reports:,} | {1e6 * min(served) / reports:.1f} | {1e6 * min(bare) / reports:.1f} | {min(served) / min(bare):.2f} |", flush=True)


def kept_table(program):
    print("| file system | reports | microseconds of one kept report | microseconds of two writes and two syncs | times |")
    print("|---|---|---|---|---|")
    kept_row(program, "disk", os.getcwd())
    kept_row(program, "memory", MEMORY)


TREES = [
    ("optimal, no paths", "bare", 20, 2, (13, 16, 19)),
    ("optimal, a path for each decided pair", "listed", 20, 2, (10, 13, 16)),
    ("spent", "spent", 20, 2, (13, 16, 19)),
    ("optimal, no paths", "bare", 80, 2, (16,)),
    ("optimal, no paths", "bare", 20, 9, (16,)),
    ("optimal, a path for each decided pair", "listed", 80, 2, (13,)),
    ("spent", "spent", 80, 2, (16,)),
    ("spent", "spent", 20, 9, (16,)),
]


def cert_row(program, name, tree):
    """Reading and checking one certificate, each so often that small ones take long enough to be timed."""
    crossings, arm = int(tree[1]), int(tree[2])
    with tempfile.TemporaryDirectory() as folder:
        path, empty = (os.path.join(folder, file) for file in ("C", "E"))
        open(empty, "w").close()
        with open(path, "wb") as file:
            subprocess.run([program, *tree, "0", "0"], stdout=file, check=True)
        with open(path, "rb") as file:
            lines = file.read().count(b"\n")
        size = os.path.getsize(path)
        words = least(["wc", "-w", path])[0] - least(["wc", "-w", empty])[0]
    subprocess.run([program, *tree, "1", "1"], check=True)
    times = max(1, 300000 // lines)
    once = least([program, *tree, "1", "0"])[0]
    read = (least([program, *tree, str(1 + times), "0"])[0] - once) / times
    checked = (least([program, *tree, "1", str(times)])[0] - once) / times
    state = f"{2 * crossings} | {2 * crossings * (2 * arm + 1)}"
    spent = f"{1e3 * read:.1f} | {1e9 * read / lines:.0f} | {1e3 * checked:.1f} | {1e9 * checked / lines:.0f} | {1e3 * words:.1f}"
    print(f"| {name} | {state} | {lines:,} | {size / 1e6:.1f} | {spent} |", flush=True)


def cert_table(program):
    print("| tree | robots | visits | lines | MB of text | ms of reading | ns a line | ms of checking | ns a line | ms of `wc -w` |")
    print("|---|---|---|---|---|---|---|---|---|---|")
    for name, kind, crossings, arm, depths in TREES:
        for depth in depths:
            cert_row(program, name, [kind, str(crossings), str(arm), str(depth)])


PLANS = [
    (32, 32, 10, 1),
    (32, 32, 10, 2),
    (32, 32, 10, 3),
    (256, 256, 0, 1),
    (256, 256, 10, 1),
    (256, 256, 10, 2),
    (256, 256, 10, 4),
    (256, 256, 10, 5),
    (256, 256, 10, 3),
    (256, 256, 30, 1),
]
HORIZON = 1024


def plans_timed(program, draw, plans):
    """The milliseconds of one of so many plans, with the memory and what was written last."""
    before = least([program, *draw, "0"], PLAN_RUNS)[0]
    seconds, memory, answer = least([program, *draw, str(plans)], PLAN_RUNS)
    return 1000 * (seconds - before) / plans, memory, answer


def plan_row(program, yardstick, robots, side, blocked, seed):
    draw = [str(number) for number in (robots, side, HORIZON, blocked, seed)]
    plans = max(1, 100 * 32 * 32 // (side * side))
    spent, memory, answer = plans_timed(program, draw, plans)
    other, _, same = plans_timed(yardstick, draw, plans)
    assert answer == same
    print(f"| {side} x {side}, {blocked} % | {seed} | {robots} | {answer} | {spent:,.1f} | {memory:.0f} | {other:,.1f} |", flush=True)


def plan_table(program):
    print("| map, cells blocked | seed | robots | answer | milliseconds | peak MB | milliseconds in Rust |")
    print("|---|---|---|---|---|---|---|")
    source = os.path.join(os.path.dirname(os.path.abspath(__file__)), "turns.rs")
    with tempfile.TemporaryDirectory() as folder:
        yardstick = os.path.join(folder, "turns")
        subprocess.run(["rustc", "--edition", "2021", "-O", source, "-o", yardstick], check=True)
        for row in PLANS:
            plan_row(program, yardstick, *row)


SEARCH_SEEDS = range(1, 5)
SEARCH_EXTRA = 20
SEARCH_BUDGET = 128
SEARCHES = 20
SEARCH_SCHEDULES = 1000
SEARCH_RUNS = 3


def searched(program, seed, robot, searches, schedules):
    """The processor seconds of one call of the program, and the numbers that it wrote."""
    words = (seed, robot, SEARCH_EXTRA, SEARCH_BUDGET, searches, schedules)
    seconds, _, answer = least([program, *map(str, words)], SEARCH_RUNS)
    return seconds, [int(number) for number in re.findall("[0-9]+", answer)]


def search_row(program, seed):
    """One delay of each robot in turn: what a search takes, and what it takes for each node that it makes."""
    spent, nodes, schedule, cheaper = [], 0, 0.0, 0
    for robot in range(32):
        before, _ = searched(program, seed, robot, 0, 1)
        schedule += (searched(program, seed, robot, 0, 1 + SEARCH_SCHEDULES)[0] - before) / SEARCH_SCHEDULES / 32
        seconds, (pairs, visits, _, branches, kept, cost) = searched(program, seed, robot, SEARCHES, 1)
        spent.append((seconds - before) / SEARCHES)
        nodes += 2 * branches + 1
        cheaper += cost < kept
    spent.sort()
    node = 1e6 * sum(spent) / nodes
    print(
        f"| {seed} | {pairs} | {visits} | {1e6 * schedule:.1f} | {1e3 * spent[16]:.2f} | {1e3 * spent[-1]:.2f} "
        f"| {nodes:,} | {node:.1f} | {node / schedule / 1e6:.2f} | {cheaper} |",
        flush=True,
    )


def search_table(program):
    print("| seed | pairs | visits | us of a schedule | ms of a search, median | at worst | nodes in all | us a node | in schedules | cheaper |")
    print("|---|---|---|---|---|---|---|---|---|---|")
    for seed in SEARCH_SEEDS:
        search_row(program, seed)


def main():
    programs = (os.path.abspath(path) for path in sys.argv[1:6])
    fleet, rank_bench, cert_bench, plan_bench, search_bench = programs
    tables = {
        "check": lambda: check_table(fleet),
        "rank": lambda: rank_table(rank_bench),
        "session": lambda: session_table(fleet),
        "kept": lambda: kept_table(fleet),
        "journal": lambda: journal_table(fleet),
        "cert": lambda: cert_table(cert_bench),
        "plan": lambda: plan_table(plan_bench),
        "search": lambda: search_table(search_bench),
    }
    for name in sys.argv[6:] or tables:
        tables[name]()
        print(flush=True)


if __name__ == "__main__":
    main()
