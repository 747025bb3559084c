#!/usr/bin/env python3
"""Strikes sessions of a built program, over real files, in each way that a machine may, and ends with status 0 where all held.

Usage: examples/fail_in_turn.py FLEET

The sessions are those of the crossing, two robots with six reports: one on a new journal, and one that opens a journal with
three reports in it.

- Each allocation finds no memory, each call to the system fails, and a session is killed before each call. The call that was
  struck says how the session has to end. What it has sent is a front of the right lines, whole but for a fault line where one
  is due; the next session knows every report that was answered ok and at most one more, and brings both robots home. The
  journal is named by its path, by a name in the folder of the session, and by a path that ends with a slash.
- Each of the standard streams is closed, alone and together.
- A second session is begun on a journal that another one has.
- A folder may not be read, so that it cannot be synced.
- Each sync of a file fails and is forgotten: the system counts the bytes as written, and they are not. The next session
  opens the journal, then the power is lost, and the one after it knows every report that was answered. The syncs are those
  of a library that is loaded before the program; and where the machine allows it those of a file system on a loop device,
  whose own file may not be written for a moment.

It needs a C compiler, `cc`; for the loop device it has to be run as root.
"""
import collections
import itertools
import os
import pathlib
import shutil
import signal
import subprocess
import sys
import tempfile

HERE = pathlib.Path(__file__).resolve().parent
DATA = HERE.parent / "crates" / "fleet" / "data"
REPORTS = (DATA / "reports").read_bytes().splitlines(keepends=True)
NO_REPORT = []
NOBODY = 65534


class Journal:
    """A journal in a folder of its own, by one of its names."""

    def __init__(self, machine, kind="path"):
        self.folder = pathlib.Path(tempfile.mkdtemp(dir=machine.folder))
        self.word = {"path": f"{self.folder}/J", "name": "J", "folder": f"{self.folder}/"}[kind]
        stem = f"{self.folder}/" if kind == "folder" else f"{self.folder}/J"
        self.files = [pathlib.Path(f"{stem}.a"), pathlib.Path(f"{stem}.b")]
        self.disk = machine.new_folder()

    def bytes(self):
        return [it.read_bytes() if it.exists() else None for it in self.files]

    def lose_power(self):
        """Leaves of each file what its syncs have kept."""
        for file in self.files:
            file.unlink(missing_ok=True)
            kept = self.disk / file.name
            if kept.exists():
                shutil.copy(kept, file)


class Machine:
    """The program, its map and plan, and the library that strikes, in a folder that everybody may read."""

    def __init__(self, folder, fleet):
        self.folder = pathlib.Path(folder).resolve()
        self.folder.chmod(0o755)
        self.fleet, self.map, self.plan, self.shim = (str(self.folder / it) for it in ("fleet", "M", "P", "fail_in_turn.so"))
        for source, name in ((fleet, self.fleet), (DATA / "M", self.map), (DATA / "P", self.plan)):
            shutil.copy(source, name)
            os.chmod(name, 0o755)
        subprocess.run(["cc", "-shared", "-fPIC", "-o", self.shim, str(HERE / "fail_in_turn.c"), "-ldl"], check=True)

    def new_folder(self):
        return pathlib.Path(tempfile.mkdtemp(dir=self.folder))

    def orders(self, what, number, **more):
        return dict(os.environ, LD_PRELOAD=self.shim, FAIL_WHAT=what, FAIL_AT=str(number), **{name: str(it) for name, it in more.items()})

    def session(self, journal, reports, orders=None, **how):
        """The status of a session, and what it has sent."""
        command = [self.fleet, "run", self.map, self.plan, journal.word]
        how = dict(cwd=journal.folder, env=orders, timeout=60) | how
        ran = subprocess.run(command, input=b"".join(reports), stdout=subprocess.PIPE, **how)
        return ran.returncode, ran.stdout

    def begin(self, known, kind="path", orders=None):
        """A journal with so many reports in it."""
        journal = Journal(self, kind)
        if known:
            assert self.session(journal, REPORTS[:known], orders and orders(journal))[0] == 0
        return journal

    def right(self, known, reports=REPORTS):
        """What a session sends that is not struck."""
        return self.session(self.begin(known), reports)[1].splitlines(keepends=True)


def oks(lines, least):
    """How many reports are kept for certain by these lines."""
    return max((int(line.split()[1]) for line in lines if line.split()[0] in (b"ready", b"ok")), default=least)


def ends_of(machine, journal, call):
    """The status and the fault line that are due where this call of a session fails."""
    name, target = call.split(" ", 1)
    target = os.path.join(journal.folder, target)
    file = os.path.basename(target)
    if name == "close" or (name, file) == ("lseek", "input"):
        return 0, []
    lines = {machine.map: b"fault read map\n", machine.plan: b"fault read plan\n", f"{journal.folder}/input": b"fault read reports\n"}
    if target in lines:
        return 5, [lines[target]]
    ours = [f"{journal.folder}/output", "/", str(journal.folder), *map(str, journal.files)]
    assert os.path.normpath(target) in ours, call
    return 6, []


def strike(machine, kind, known, what, number, right):
    """A session that is struck, and the next one: the call that was struck with its status, or None where it ends before."""
    journal = machine.begin(known, kind)
    count = journal.folder / "count"
    status, sent = machine.session(journal, REPORTS, machine.orders(what, number, FAIL_COUNT=count))
    counted, call = count.read_text().splitlines() if count.exists() else (number, "killed")
    if int(counted) < number:
        return None
    if what == "call":
        due, fault = ends_of(machine, journal, call)
    else:
        due, fault = {"memory": 7, "stop": -signal.SIGKILL}[what], []
    lines = sent.splitlines(keepends=True)
    said = lines[: len(lines) - len(fault)]
    told = (kind, known, what, number, call, status, sent)
    assert status == due and lines[len(said) :] == fault, told
    assert said == right[: len(said)] and (status != 0 or said == right), told
    status_after, sent_after = machine.session(journal, REPORTS)
    after = sent_after.splitlines(keepends=True)
    least = oks(said, known)
    assert status_after == 0 and least <= int(after[0].split()[1]) <= least + 1, (told, sent_after)
    assert machine.session(journal, NO_REPORT)[1] == b"ready 6\n", told
    return call.replace(f"{journal.folder}", "FOLDER"), status


def strike_each(machine):
    """Each allocation and each call is struck, and a session is killed before each call."""
    for kind, known, what in [("path", known, what) for known in (0, 3) for what in ("memory", "call", "stop")] + [("name", 0, "call"), ("folder", 0, "call")]:
        right = machine.right(known)
        struck = list(itertools.takewhile(bool, (strike(machine, kind, known, what, number, right) for number in itertools.count(1))))
        statuses = collections.Counter(status for _, status in struck)
        assert struck, f"no {what} was counted"
        if what == "call":
            folders = [call for call, _ in struck if call.startswith("fsync ")]
            assert folders == ["fsync FOLDER"], folders
        print(f"{what}, journal by its {kind}, {known} reports known: {len(struck)} in turn, statuses {dict(sorted(statuses.items()))}")
        yield len(struck)


def close_streams(machine):
    """Each of the standard streams is closed, alone and together."""
    cases = [closed for count in (1, 2, 3) for closed in itertools.combinations(range(3), count)]
    for known, closed in itertools.product((0, 3), cases):
        how = {"preexec_fn": lambda: [os.close(it) for it in closed]}
        journal = machine.begin(known)
        before = journal.bytes()
        status, sent = machine.session(journal, REPORTS, machine.orders("call", 0), **how)
        if 1 in closed:
            due = 6, b""
        elif 0 in closed:
            due = 5, b"".join(machine.right(known, NO_REPORT)) + b"fault read reports\n"
        else:
            due = 0, b"".join(machine.right(known))
        assert (status, sent) == due, (known, closed, status, sent)
        assert known == 0 or due[0] == 0 or journal.bytes() == before, (known, closed)
        assert machine.session(journal, NO_REPORT)[1].startswith(b"ready %d\n" % (6 if due[0] == 0 else known))
        checked = subprocess.run([machine.fleet, "check", machine.map, machine.plan], stdout=subprocess.PIPE, **how)
        assert (checked.returncode, checked.stdout) == ((6, b"") if 1 in closed else (0, b"sound 2 8 1\n")), (closed, checked)
    print(f"streams closed: {len(cases)} sets of them, two journals each")
    return 2 * len(cases)


def run_two(machine):
    """A second session on a journal that another one has, which is then killed."""
    for known in (0, 3):
        journal = machine.begin(known)
        command = [machine.fleet, "run", machine.map, machine.plan, journal.word]
        with subprocess.Popen(command, stdin=subprocess.PIPE, stdout=subprocess.PIPE) as first:
            greeting = machine.right(known, NO_REPORT)
            assert [first.stdout.readline() for _ in greeting] == greeting
            before = journal.bytes()
            assert machine.session(journal, REPORTS) == (6, b"")
            assert journal.bytes() == before
            first.kill()
        assert machine.session(journal, REPORTS)[1] == b"".join(machine.right(known))
    print("a second session on one journal: status 6, and it goes on once the first has ended")
    return 2


def shut_folder(machine):
    """A folder may not be read, so that it cannot be synced."""
    how = {"user": NOBODY, "group": NOBODY, "extra_groups": []} if os.geteuid() == 0 else {}
    journal = Journal(machine)
    journal.folder.chmod(0o333)
    for _ in range(2):
        assert machine.session(journal, REPORTS, **how) == (6, b"")
    journal.folder.chmod(0o777)
    assert machine.session(journal, REPORTS, **how)[1] == b"".join(machine.right(0))
    print("a folder that may not be read: status 6")
    return 2


def lose_a_sync(machine, known, number, later):
    """A sync that fails and is forgotten, then a session, then a loss of power: whether there is such a sync."""

    def orders(journal, number=0):
        return machine.orders("lost", number, FAIL_DISK=journal.disk, FAIL_COUNT=journal.disk / "count")

    journal = machine.begin(known, orders=orders)
    status, first = machine.session(journal, REPORTS, orders(journal, number))
    if status == 0:
        return False
    assert status == 6, (known, number, status)
    status, second = machine.session(journal, later, orders(journal))
    least = oks(second.splitlines(keepends=True), oks(first.splitlines(keepends=True), known))
    journal.lose_power()
    after, third = machine.session(journal, NO_REPORT)
    assert status == after == 0 and third.startswith(b"ready %d\n" % least), (known, number, later, first, second, third)
    return True


def lose_each_sync(machine):
    lost = 0
    for known, later in itertools.product((0, 3), (NO_REPORT, REPORTS[:1], REPORTS)):
        lost += len(list(itertools.takewhile(bool, (lose_a_sync(machine, known, number, later) for number in itertools.count(1)))))
    assert lost, "no sync was counted"
    print(f"syncs that failed and were forgotten: {lost}")
    return lost


class LoopDevice:
    """A file system on a file of its own."""

    def __init__(self, machine):
        self.image = machine.new_folder() / "image"
        self.mounted = machine.new_folder()
        self.image.write_bytes(b"")
        os.truncate(self.image, 1 << 24)
        run("mkfs.ext4", "-q", self.image)

    def __enter__(self):
        self.device = run("losetup", "--find", "--show", self.image)
        run("mount", self.device, self.mounted)
        return self

    def refuse_writes(self):
        run("chattr", "+i", self.image)

    def allow_writes(self):
        run("chattr", "-i", self.image)

    def __exit__(self, *_):
        run("umount", self.mounted)
        run("losetup", "--detach", self.device)


def run(*words):
    return subprocess.run([str(it) for it in words], check=True, stdout=subprocess.PIPE, stderr=subprocess.PIPE, text=True).stdout.strip()


def fail_a_sync(machine, loop, number):
    """A sync on the loop device fails while its file may not be written; then a session, and then a loss of power."""
    with loop:
        journal = Journal(machine)
        journal.folder = loop.mounted
        journal.word = f"{loop.mounted}/J{number}"
        assert machine.session(journal, NO_REPORT)[0] == 0
    with loop:
        command = [machine.fleet, "run", machine.map, machine.plan, journal.word]
        with subprocess.Popen(command, stdin=subprocess.PIPE, stdout=subprocess.PIPE, env=machine.orders("pause", number)) as struck:
            struck.stdin.write(b"".join(REPORTS))
            struck.stdin.close()
            assert os.WIFSTOPPED(os.waitpid(struck.pid, os.WUNTRACED)[1])
            loop.refuse_writes()
            try:
                struck.send_signal(signal.SIGCONT)
                first = struck.stdout.read()
                status = struck.wait(timeout=60)
            finally:
                loop.allow_writes()
        assert status == 6, (number, status, first)
        status, second = machine.session(journal, NO_REPORT)
        least = oks(second.splitlines(keepends=True), oks(first.splitlines(keepends=True), 0))
    # What the next mount reads is what the device holds.
    with loop:
        after, third = machine.session(journal, NO_REPORT)
    assert status == after == 0 and third.startswith(b"ready %d\n" % least), (number, first, second, third)


def fail_each_sync(machine):
    try:
        loop = LoopDevice(machine)
        with loop:
            loop.refuse_writes()
            loop.allow_writes()
    except (OSError, subprocess.CalledProcessError) as error:
        print(f"a loop device: not allowed here ({error})")
        return 0
    numbers = range(1, 14)
    for number in numbers:
        fail_a_sync(machine, loop, number)
    print(f"syncs that failed on a loop device: {len(numbers)}")
    return len(numbers)


def main(fleet):
    with tempfile.TemporaryDirectory() as folder:
        machine = Machine(folder, fleet)
        struck = sum(strike_each(machine))
        struck += sum(part(machine) for part in (close_streams, run_two, shut_folder, lose_each_sync, fail_each_sync))
        print(f"all held: {struck} sessions were struck")


if __name__ == "__main__":
    main(sys.argv[1])
