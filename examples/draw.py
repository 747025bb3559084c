#!/usr/bin/env python3
"""Draws a run of a fleet as one SVG on standard output: the map with each robot's way, and a time line for each robot.

Usage: examples/draw.py MAP PLAN REPORTS LOG > run.svg

REPORTS has the report lines that the sessions took, LOG the lines that they sent, both in order. The map shows where robots
start (ring) and end (disc); a cell to which two robots come is shaded. On a time line the upper bar is the plan and the lower one
the run: grey from the release of a visit to its arrival, coloured while the robot stands there. A small mark below shows a
report of a delay, a vertical line a report after which the order was switched.
"""
import sys

COLOURS = ["#1f77b4", "#d62728", "#2ca02c", "#9467bd", "#ff7f0e", "#8c564b", "#17becf", "#bcbd22"]
CELL, ROW, LEFT = 28, 34, 76
FREE = set(".GS")


def read_map(path):
    lines = open(path).read().splitlines()
    return lines[4 : 4 + int(lines[1].split()[1])]


def read_plan(path):
    """For each robot its cells, tick by tick."""
    plan = []
    for line in open(path).read().splitlines():
        if line:
            cells = line.split(": ", 1)[1].split("->")
            plan.append([tuple(map(int, cell.strip("()").split(","))) for cell in cells if cell])
    return plan


def visits_of(cells):
    """The cells without direct repeats, each with the first tick of its run."""
    return [(cell, tick) for tick, cell in enumerate(cells) if tick == 0 or cells[tick - 1] != cell]


class Run:
    """What the robots were told and have told: ticks by robot and visit."""

    def __init__(self, plan):
        self.released = [{0: 0} for _ in plan]
        self.arrived = [{0: 0} for _ in plan]
        self.delays = []
        self.switches = []
        self.now = 0

    def read(self, reports, log):
        """Each answer belongs to the next report; the releases and switches before it are its own."""
        waiting = iter(reports)
        told, switched, count = [], False, 0
        for line in log:
            word, *rest = line.split()
            if word == "ready":
                count = int(rest[0])
            if word == "release":
                told.append((int(rest[0]), int(rest[1])))
            if word == "switch":
                switched = True
            if word in ("ok", "known", "refused"):
                self.hear(next(waiting, "").split(), word == "ok", switched)
                switched = False
            if word in ("ready", "ok", "known", "refused"):
                self.tell(told)
                told = []
        self.tell(told)
        return count

    def hear(self, report, accepted, switched):
        if not accepted or not report:
            return
        numbers = list(map(int, report[1:]))
        self.now = max(self.now, numbers[-1])
        if report[0] == "arrive":
            self.arrived[numbers[0]][numbers[1]] = numbers[2]
        else:
            self.delays.append((numbers[0], numbers[3], numbers[2]))
            if switched:
                self.switches.append(numbers[3])

    def tell(self, told):
        for robot, visit in told:
            self.released[robot].setdefault(visit, self.now)


class Drawing:
    def __init__(self):
        self.parts = []

    def add(self, kind, text=None, **given):
        fields = "".join(f' {name.replace("_", "-")}="{value}"' for name, value in given.items())
        self.parts.append(f"<{kind}{fields}/>" if text is None else f"<{kind}{fields}>{text}</{kind}>")

    def whole(self, width, height):
        head = f'<svg xmlns="http://www.w3.org/2000/svg" width="{width:g}" height="{height:g}" viewBox="0 0 {width:g} {height:g}" font-family="sans-serif" font-size="12">'
        return "\n".join([head, f'<rect width="{width:g}" height="{height:g}" fill="white"/>', *self.parts, "</svg>"])


def colour(robot):
    return COLOURS[robot % len(COLOURS)]


def draw_map(out, rows, plan):
    users = {}
    for robot, cells in enumerate(plan):
        for cell in set(cells):
            users.setdefault(cell, set()).add(robot)
    for r, row in enumerate(rows):
        for c, letter in enumerate(row):
            fill = "#444" if letter not in FREE else "#ffe9a8" if len(users.get((r, c), ())) > 1 else "#f4f4f4"
            out.add("rect", x=LEFT + c * CELL, y=10 + r * CELL, width=CELL - 1, height=CELL - 1, fill=fill)
    for robot, cells in enumerate(plan):
        shift = CELL * (0.5 + 0.22 * ((robot % 3) - 1))
        points = [(LEFT + c * CELL + shift, 10 + r * CELL + shift) for r, c in cells]
        out.add("polyline", points=" ".join(f"{x:g},{y:g}" for x, y in points), fill="none", stroke=colour(robot), stroke_width=2.5, stroke_linejoin="round")
        (x, y), (u, v) = points[0], points[-1]
        out.add("circle", cx=f"{x:g}", cy=f"{y:g}", r=5, fill="white", stroke=colour(robot), stroke_width=2)
        out.add("circle", cx=f"{u:g}", cy=f"{v:g}", r=5, fill=colour(robot))


def draw_bars(out, top, scale, spans, height, opacity):
    for begin, end, fill in spans:
        out.add("rect", x=f"{LEFT + begin * scale:.2f}", y=top, width=f"{max((end - begin) * scale, 0.8):.2f}", height=height, fill=fill, opacity=opacity)


def draw_times(out, top, plan, run, last, scale):
    for robot, cells in enumerate(plan):
        y = top + robot * ROW
        visits = visits_of(cells)
        out.add("text", f"robot {robot}", x=8, y=y + 16, fill=colour(robot))
        planned = [(tick, visits[k + 1][1] if k + 1 < len(visits) else last, colour(robot)) for k, (_, tick) in enumerate(visits)]
        draw_bars(out, y, scale, planned, 9, 0.35)
        for k in range(len(visits)):
            out.add("line", x1=f"{LEFT + visits[k][1] * scale:.2f}", x2=f"{LEFT + visits[k][1] * scale:.2f}", y1=y, y2=y + 9, stroke="white")
            if k not in run.arrived[robot]:
                continue
            arrived = run.arrived[robot][k]
            left = run.released[robot].get(k + 1, last)
            draw_bars(out, y + 11, scale, [(arrived, min(max(left, arrived), last), colour(robot))], 9, 0.9)
            if k + 1 in run.released[robot]:
                draw_bars(out, y + 11, scale, [(max(left, arrived), run.arrived[robot].get(k + 1, last), "#bbb")], 9, 0.9)
            out.add("line", x1=f"{LEFT + arrived * scale:.2f}", x2=f"{LEFT + arrived * scale:.2f}", y1=y + 11, y2=y + 20, stroke="black", stroke_width=0.7)
    for robot, tick, extra in run.delays:
        x, y = LEFT + tick * scale, top + robot * ROW + 21
        out.add("path", f"<title>a delay of {extra}</title>", d=f"M{x:.2f} {y} l4 7 l-8 0 z", fill="black")
    bottom = top + len(plan) * ROW
    for tick in run.switches:
        out.add("line", x1=f"{LEFT + tick * scale:.2f}", x2=f"{LEFT + tick * scale:.2f}", y1=top - 4, y2=bottom, stroke="black", stroke_dasharray="3 3")
    return bottom


def draw_axis(out, bottom, last, scale):
    step = next(s for s in (1, 2, 5, 10, 20, 50, 100, 200, 500, 1000, 10**4, 10**6, 10**12) if last / s <= 20)
    for tick in range(0, last + 1, step):
        out.add("text", tick, x=f"{LEFT + tick * scale:.2f}", y=bottom + 12, text_anchor="middle", fill="#555")


def main(map_path, plan_path, reports_path, log_path):
    rows, plan = read_map(map_path), read_plan(plan_path)
    run = Run(plan)
    run.read(open(reports_path).read().splitlines(), open(log_path).read().splitlines())
    last = max([len(cells) - 1 for cells in plan] + [run.now]) + 1
    width = max(LEFT + len(rows[0]) * CELL + 10, 640)
    scale = (width - LEFT - 16) / last
    out = Drawing()
    draw_map(out, rows, plan)
    bottom = draw_times(out, 10 + len(rows) * CELL + 16, plan, run, last, scale)
    draw_axis(out, bottom, last, scale)
    print(out.whole(width, bottom + 22))


if __name__ == "__main__":
    if len(sys.argv) != 5:
        sys.exit(__doc__)
    main(*sys.argv[1:])
