"""The table and the picture of what bench/slurm measured."""
import json
import math

NAMES = {"default": "Slurm's default", "spread": "Slurm, CR_LLN", "counted": "Slurm, CR_LLN and consumable bandwidth", "fetohamu": "Fetohamu"}
COLORS = {"default": "#94a3b8", "spread": "#e9a23b", "counted": "#6d5bd0", "fetohamu": "#2a9d8f"}
WIDE, HIGH, LEFT, TOP = 640, 300, 70, 64
STYLE = ("text{font-family:sans-serif;fill:#1e293b}.head{font-size:16px;font-weight:600}.scale,.key{font-size:12px;fill:#475569}"
         ".end{text-anchor:end}.middle{text-anchor:middle}.grid{stroke:#e2e8f0;fill:none}")


def save(file, how, rows):
    """Writes the results, a row a line."""
    file.write_text(json.dumps(how)[:-1] + ',\n "rows": [\n  ' + ",\n  ".join(map(json.dumps, rows)) + "\n ]}\n")


def load(file):
    """How they were made, and the rows."""
    how = json.loads(file.read_text())
    return how, how.pop("rows")


def responses(rows, policy):
    """The seconds from submission to the end of each job that fetches, in order; endless for one that did not end."""
    return sorted(row["ended"] - row["submitted"] if "ended" in row else math.inf
                  for row in rows if row["policy"] == policy and row["kind"] == "fetch")


def share(values, part):
    """The least value that so large a part of the values does not exceed."""
    return values[max(0, math.ceil(part * len(values)) - 1)]


def figures(values):
    """p50, p90, the greatest, and the mean."""
    return share(values, 0.5), share(values, 0.9), values[-1], sum(values) / len(values)


def shown(value):
    return "over 280" if value == math.inf else f"{value:.1f}"


def table(rows):
    """A line for each policy."""
    lines = ["| policy | jobs | p50 | p90 | worst | mean | on a loaded link |", "|---|---|---|---|---|---|---|"]
    for policy, name in NAMES.items():
        values = responses(rows, policy)
        if values:
            loaded = [row["is_loaded"] for row in rows if row["policy"] == policy and row["kind"] == "fetch"]
            lines.append(f"| {name} | {len(values)} | " + " | ".join(map(shown, figures(values))) + f" | {sum(loaded)} |")
    return "\n".join(lines)


def picture(how, rows):
    """How many of the jobs had ended so long after they were submitted, as an SVG."""
    policies = [policy for policy in NAMES if responses(rows, policy)]
    ends = [value for policy in policies for value in responses(rows, policy) if value < math.inf]
    low, most = math.log10(min(ends) * 0.9), math.log10(max(ends) * 1.1)
    x = lambda seconds: LEFT + WIDE * (math.log10(seconds) - low) / (most - low)
    y = lambda part: TOP + HIGH * (1 - part)
    lines = [f'<text x="{LEFT}" y="{TOP - 34}" class="head">Jobs that fetch 50 MB, while two of four links carry 80 of 100 Mbit/s</text>',
             f'<text x="{LEFT}" y="{TOP - 14}" class="key">share of the jobs that had ended, by seconds after they were submitted</text>']
    for part in (0, 0.25, 0.5, 0.75, 0.9, 1):
        lines += [f'<path d="M{LEFT} {y(part):.1f}H{LEFT + WIDE}" class="grid"/>',
                  f'<text x="{LEFT - 8}" y="{y(part) + 4:.1f}" class="scale end">{part:.0%}</text>']
    for seconds in (1, 2, 5, 10, 20, 50, 100, 200):
        if low <= math.log10(seconds) <= most:
            lines += [f'<path d="M{x(seconds):.1f} {TOP}V{TOP + HIGH}" class="grid"/>',
                      f'<text x="{x(seconds):.1f}" y="{TOP + HIGH + 18}" class="scale middle">{seconds} s</text>']
    for policy in policies:
        lines.append(f'<path d="{curve(responses(rows, policy), x, y)}" fill="none" stroke="{COLORS[policy]}" stroke-width="2.5"/>')
    lines += keys(policies, rows)
    below = TOP + HIGH + 74 + 20 * len(policies)
    lines.append(f'<text x="{LEFT}" y="{below}" class="key">{said(how, rows)}</text>')
    size = f'width="{LEFT + WIDE + 30}" height="{below + 18}"'
    return (f'<svg xmlns="http://www.w3.org/2000/svg" {size}>\n<style>{STYLE}</style>\n<rect width="100%" height="100%" fill="white"/>\n'
            + "\n".join(lines) + "\n</svg>\n")


def curve(values, x, y):
    """The steps of a distribution."""
    path = f"M{x(values[0]):.1f} {y(0):.1f}"
    for place, value in enumerate(values, 1):
        if value < math.inf:
            path += f"H{x(value):.1f}V{y(place / len(values)):.1f}"
    return path


def keys(policies, rows):
    """The names of the curves, each with its figures."""
    columns = [LEFT + WIDE - 210 + 70 * index for index in range(4)]
    top = TOP + HIGH + 46
    yield from (f'<text x="{at}" y="{top}" class="key end">{name}</text>' for at, name in zip(columns, ("p50", "p90", "worst", "mean")))
    for index, policy in enumerate(policies, 1):
        line = top + 20 * index
        yield f'<path d="M{LEFT} {line - 4}h26" stroke="{COLORS[policy]}" stroke-width="2.5"/>'
        yield f'<text x="{LEFT + 36}" y="{line}" class="key">{NAMES[policy]}</text>'
        yield from (f'<text x="{at}" y="{line}" class="key end">{shown(value)}</text>'
                    for at, value in zip(columns, figures(responses(rows, policy))))


def said(how, rows):
    """How it was made."""
    count = len({(row["repetition"], row["job"]) for row in rows if row["kind"] == "fetch"})
    beside = "side by side" if how["side_by_side"] else "one after another"
    return f'seconds, of {count} such jobs for each policy, in {how["repetitions"]} runs each; policies {beside}; {how["date"]}'
