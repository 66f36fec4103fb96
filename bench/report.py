#!/usr/bin/env python3
"""Tables and a plot of what bench/run --all measured, from the file of results that it leaves.

    bench/report.py [FOLDER]    writes FOLDER's tables and times.svg again from its results.json; FOLDER is bench/ if left out
    bench/report.py --check     status 1 if those of bench/ are others

In bench/ the tables go into README.md, between the marks of each figure; in another folder into tables.md.
"""
import json
import math
import pathlib
import re
import sys
import textwrap

HERE = pathlib.Path(__file__).resolve().parent
# which of the tasks prefer machines in the columns of the figure beside LEMON
SHARES = "none", "1 in 20", "1 in 5", "1 in 2", "all"
# the columns of each figure: a heading, and the field of a row or what is computed of it
COLUMNS = {
    "beside": (("tasks", "tasks"), ("kind", "kind"), *((share, share) for share in SHARES)),
    "program": (("tasks", "tasks"), ("`winners`", "winners"), ("`graph`", "graph"), ("`solve`", "solve"),
                ("`graph --at 2` after one packet", "passed_on")),
    "rounds": (("tasks", "tasks"), ("prefer machines", "prefer"), ("rounds", "rounds"), ("operations before each", "changed"),
               ("each, ms", "each"), ("MB that stay", "room")),
    "edits": (("tasks", "tasks"), ("a report", "report"), ("a task done", "done"), ("a proposal", "proposal"), ("a new task", "new"),
              ("10 operations", "10"), ("100 operations", "100"), ("1 % of the tasks", "1 %"), ("building", "built")),
    "alone": (("tasks", "tasks"), ("the earlier flow", "flow"), ("`solve`", "solve"), ("`solve_from`", "solve_from")),
}
# the colors of what the curves of a plot differ in first; the second of a color is dashed
COLORS = "#2a9d8f", "#e9a23b", "#6d5bd0"


def save(results, folder):
    """Leaves the results, their tables and their plot in the folder."""
    figures = []
    for key, figure in results.items():
        lines = [f"  {json.dumps(field)}: {json.dumps(value)}" for field, value in figure.items() if field != "rows"]
        rows = ",\n".join("   " + json.dumps(row) for row in figure["rows"])
        figures.append(f' "{key}": {{\n' + ",\n".join(lines) + f',\n  "rows": [\n{rows}\n  ]\n }}')
    (folder / "results.json").write_text("{\n" + ",\n".join(figures) + "\n}\n")
    write(folder)


def write(folder):
    for name, text in made(folder).items():
        (folder / name).write_text(text)


def made(folder):
    """The texts of the files that the folder's results come to, by name."""
    results = json.loads((folder / "results.json").read_text())
    if folder != HERE:
        tables = "\n".join(f"## {key}\n\n{table(key, figure)}" for key, figure in results.items())
        return {"times.svg": picture(results), "tables.md": tables}
    page = (folder / "README.md").read_text()
    for key, figure in results.items():
        begin, _, rest = page.partition(f"<!-- figure: {key} -->\n")
        _, end, rest = rest.partition("<!-- end -->")
        if not end:
            sys.exit(f"bench/report.py: bench/README.md has no place for the figure {key}")
        page = f"{begin}<!-- figure: {key} -->\n{table(key, figure)}{end}{rest}"
    return {"times.svg": picture(results), "README.md": page}


def table(key, figure):
    """A figure's table, with how it was had."""
    rows = by_share(figure["rows"]) if key == "beside" else figure["rows"]
    columns = [(head, field) for head, field in COLUMNS[key] if any(shown(row.get(field, "")) for row in rows)]
    lines = ["| " + " | ".join(head for head, _ in columns) + " |", "|" + "---|" * len(columns)]
    lines += ["| " + " | ".join(shown(row.get(field, "")) for _, field in columns) + " |" for row in rows]
    how = " ".join(f"{field.capitalize()}: {figure[field]}." for field in ("date", "build", "machine", "command")) + " " + figure["note"]
    return "\n".join(lines) + "\n\n" + textwrap.fill(how.strip(), 132, break_on_hyphens=False) + "\n"


def own(row):
    """The milliseconds of building, solving and writing."""
    return row["build"] + row["solve"] + row["write"]


def by_share(rows):
    """A row for each size and kind of cluster. For each share of tasks that prefer machines it has what part of LEMON's time the call `solve`
    alone takes, and what part all of solving, with its milliseconds."""
    found = {}
    for row in rows:
        text = f"{row['solve'] / row['lemon']:.2f}, {own(row) / row['lemon']:.2f} ({shown(own(row))})"
        found.setdefault((row["tasks"], row["kind"]), {"tasks": row["tasks"], "kind": row["kind"]})[row["prefer"]] = text
    return list(found.values())


def shown(value):
    """A number to two digits or three, the larger ones and counts whole."""
    if not isinstance(value, (int, float)):
        return str(value)
    if value >= 100 or isinstance(value, int):
        return f"{round(value):,}"
    return f"{value:.1f}" if value >= 10 else f"{value:#.2g}"


class Panel:
    """One plot with logarithmic axes. A series has its points, what gives its color, and what tells it from another of that color."""

    def __init__(self, left, title, series):
        self.left, self.title, self.series = left, title, {names: points for names, points in series.items() if points}
        points = [point for its in self.series.values() for point in its]
        self.wide, self.high, self.top = 380, 260, 70
        self.low, self.most = ([f(math.log10(point[axis]) for point in points) for axis in (0, 1)] for f in (min, max))
        self.low[1], self.most[1] = math.floor(self.low[1]), max(math.ceil(self.most[1]), math.floor(self.low[1]) + 1)

    def place(self, point):
        part = [(math.log10(point[axis]) - self.low[axis]) / ((self.most[axis] - self.low[axis]) or 1) for axis in (0, 1)]
        return self.left + part[0] * self.wide, self.top + (1 - part[1]) * self.high

    def lines(self):
        yield f'<text x="{self.left}" y="{self.top - 26}" class="head">{self.title}</text>'
        for power in range(self.low[1], self.most[1] + 1):
            _, y = self.place((10 ** self.low[0], 10 ** power))
            yield f'<path d="M{self.left} {y:.1f}H{self.left + self.wide}" class="grid"/>'
            yield f'<text x="{self.left - 6}" y="{y + 4:.1f}" class="scale end">{10 ** power:g} ms</text>'
        for tasks in sorted({point[0] for points in self.series.values() for point in points}):
            x, _ = self.place((tasks, 10 ** self.low[1]))
            yield f'<text x="{x:.1f}" y="{self.top + self.high + 18}" class="scale middle">{tasks:,} tasks</text>'
        firsts = list(dict.fromkeys(first for first, _ in self.series))
        for at, ((first, second), points) in enumerate(self.series.items()):
            path = " ".join(f"{x:.1f},{y:.1f}" for x, y in map(self.place, sorted(points)))
            color = COLORS[firsts.index(first)]
            dashes = ' stroke-dasharray="5 4"' if (first, second) != next(it for it in self.series if it[0] == first) else ""
            yield f'<polyline points="{path}" fill="none" stroke="{color}" stroke-width="2"{dashes}/>'
            yield from (f'<circle cx="{x:.1f}" cy="{y:.1f}" r="3.2" fill="{color}"/>' for x, y in map(self.place, points))
            below = self.top + self.high + 42 + 17 * at
            yield f'<path d="M{self.left} {below - 4}h26" stroke="{color}" stroke-width="2"{dashes}/>'
            yield f'<text x="{self.left + 34}" y="{below}" class="key">{first}: {second}</text>'


# the clusters whose curves are drawn, each a kind and which of the tasks prefer machines
DRAWN = ("mix", "none"), ("mix", "1 in 2"), ("hard", "1 in 2")


def picture(results):
    """Times by size, as an SVG: solving beside LEMON, and a round."""
    solving, rounds = {}, {}
    for row in results.get("beside", {"rows": []})["rows"]:
        if (row["kind"], row["prefer"]) in DRAWN:
            for second, time in ("build, solve, certify and write", own(row)), ("LEMON's run alone", row["lemon"]):
                solving.setdefault(("%s, %s prefer machines" % (row["kind"], row["prefer"]), second), []).append((row["tasks"], time))
    for row in results.get("rounds", {"rows": []})["rows"]:
        names = "%s of the tasks prefer machines" % row["prefer"], "a round after %s operations" % row["changed"]
        rounds.setdefault(names, []).extend([(row["tasks"], row["each"])] if row["each"] > 0 else [])
    plots = (70, "Solving beside LEMON", solving), (560, "A round", rounds)
    panels = [Panel(*plot) for plot in plots if any(plot[2].values())]
    below = max((panel.top + panel.high + 50 + 17 * len(panel.series) for panel in panels), default=100)
    style = "text{font-family:sans-serif;fill:#1e293b}.head{font-size:16px;font-weight:600}.scale,.key{font-size:11.5px;fill:#475569}" \
            ".end{text-anchor:end}.middle{text-anchor:middle}.grid{stroke:#dbe2ea}"
    lines = [f'<svg xmlns="http://www.w3.org/2000/svg" width="990" height="{below}" viewBox="0 0 990 {below}">', f"<style>{style}</style>",
             f'<rect width="990" height="{below}" fill="#fcfcfa"/>']
    return "\n".join([*lines, *(line for panel in panels for line in panel.lines()), "</svg>", ""])


def main(words):
    if words != ["--check"]:
        write(pathlib.Path(words[0]).resolve() if words else HERE)
        return 0
    stale = [name for name, text in made(HERE).items() if (HERE / name).read_text() != text]
    for name in stale:
        print(f"bench/report.py: bench/{name} is not what bench/results.json comes to", file=sys.stderr)
    return 1 if stale else 0


if __name__ == "__main__":
    sys.exit(main(sys.argv[1:]))
