"""Plots of lives as SVG texts, drawn by matplotlib (Debian's python3-matplotlib)."""
import io
import re

import matplotlib

matplotlib.use("svg")
import matplotlib.pyplot as pyplot
import matplotlib.ticker as ticker

from .figures import RULES, value_at

COLORS = "#2a9d8f", "#e9a23b", "#6d5bd0", "#d1495b", "#4a6fa5", "#8a8f98", "#1b4965", "#b07d62"
STYLE = {
    "svg.fonttype": "none", "svg.hashsalt": "cluster", "font.family": "sans-serif", "font.size": 10, "axes.spines.top": False,
    "axes.spines.right": False, "axes.grid": True, "axes.axisbelow": True, "grid.color": "#e3e8ee", "axes.edgecolor": "#94a3b8", "axes.titlesize": 12,
    "axes.titleweight": "semibold", "axes.titlelocation": "left", "legend.frameon": False, "legend.fontsize": 9,
    "figure.facecolor": "none", "axes.facecolor": "none", "axes.prop_cycle": matplotlib.cycler(color=COLORS)}


def finished(axes, **labels):
    """Sets labels, plain numbers along logarithmic axes, and a legend if there is something to tell."""
    axes.set(**labels)
    for axis in (axes.xaxis, axes.yaxis):
        if axis.get_scale() == "log":
            axis.set_major_formatter(ticker.FuncFormatter(lambda value, _: format(value, ",.10g")))
            axis.set_minor_formatter(ticker.NullFormatter())
    if axes.get_legend_handles_labels()[0]:
        axes.legend(loc="upper left", bbox_to_anchor=(0, -0.14), ncol=2, columnspacing=1, handlelength=1.6)
    else:
        axes.text(0.5, 0.5, "none", transform=axes.transAxes, ha="center", color=COLORS[5])


def named(life):
    many = "1 coordinator" if life["coordinators"] == 1 else "%d coordinators" % life["coordinators"]
    return "%s tasks, %s%s" % (format(life["tasks"], ","), many, whole(life, ", whole plans"))


def whole(life, text):
    """The text, if several coordinators carried out whole plans."""
    return text if life["coordinators"] > 1 and life["sharing"] == "all" else ""


def drawn(lives):
    """Each life with how its line looks: a color for each size, and dashes for whole plans."""
    sizes = list(dict.fromkeys((life["tasks"], life["coordinators"]) for life in lives))
    for life in lives:
        color = COLORS[sizes.index((life["tasks"], life["coordinators"])) % len(COLORS)]
        yield life, {"label": named(life), "color": color, "linestyle": whole(life, "--") or "-"}


def svg(draw, *given, size=(6.2, 3.9)):
    """The SVG of what a function draws on axes."""
    with matplotlib.rc_context(STYLE):
        figure, axes = pyplot.subplots(figsize=size, layout="constrained")
        draw(axes, *given)
        text = io.StringIO()
        figure.savefig(text, format="svg", metadata={"Date": None, "Creator": None})
        pyplot.close(figure)
    found = re.search(r"<svg.*</svg>", text.getvalue(), re.S)[0]
    return re.sub(r'(<svg[^>]*?) width="[^"]*"', r'\1 width="100%"', re.sub(r'(<svg[^>]*?) height="[^"]*"', r"\1", found, count=1), count=1)


def latency(axes, lives):
    for life, look in drawn(lives):
        points = life["curves"]["latency"]
        if points:
            axes.plot([at for _, at in points], [100 * part for part, _ in points], linewidth=1.8, **look)
    finished(axes, title="From told to placed", xscale="log", xlabel="simulated time, ms", ylabel="% of tasks placed", ylim=(0, 101))


def alone(lives):
    """The lives of one coordinator, by size."""
    return sorted((life for life in lives if life["coordinators"] == 1), key=lambda life: life["tasks"])


def rounds(axes, lives):
    lines = (("a round, median", "round.median", "o-"), ("a round, 99 %", "round.p99", "o--"), ("LEMON's run, from scratch", "beside.lemon", "s-"),
             ("LEMON with reading", "beside.whole", "s--"))
    for place, (name, path, form) in enumerate(lines):
        points = [(life["tasks"], value_at(life, path)) for life in alone(lives) if value_at(life, path)]
        if points:
            axes.plot(*zip(*points), form, label=name, color=COLORS[place // 2], markersize=5)
    finished(axes, title="A round by size of the cluster", xscale="log", yscale="log", xlabel="tasks", ylabel="ms")


def memory(axes, lives):
    for life, look in drawn(lives):
        for number, points in life["curves"]["memory"].items():
            if int(number) == 1:
                axes.plot(*zip(*points), linewidth=1.8, **look)
    finished(axes, title="Memory of the first coordinator", yscale="log", xlabel="simulated time, s", ylabel="MB")


def carried(axes, life):
    for name, key, color in (("least-cost flow", "bandwidth", COLORS[0]), ("random free slot", "blind", COLORS[1])):
        points = life["curves"][key]
        axes.plot([one[0] for one in points], [one[1] for one in points], label="used: " + name, color=color, linewidth=1.8)
        axes.plot([one[0] for one in points], [one[2] for one in points], "--", label="beyond nics: " + name, color=color)
    finished(axes, title="Bandwidth: " + named(life), xlabel="simulated time, s", ylabel="% of all bandwidth", ylim=(0, None))


def beyond(axes, lives):
    for life, look in drawn(lives):
        points = life["curves"]["bandwidth"]
        axes.plot([one[0] for one in points], [one[2] for one in points], linewidth=1.8, **look)
    points = lives[-1]["curves"]["blind"]
    axes.plot([one[0] for one in points], [one[2] for one in points], ":", label="random machine with a free slot", color=COLORS[5])
    finished(axes, title="Asked beyond nics, by how many share", xlabel="simulated time, s", ylabel="% of all bandwidth", ylim=(0, None))


def refusals(axes, life):
    spans, below = life["curves"]["refusals"], None
    times = [span[0] for span in spans]
    width = times[1] - times[0] if len(times) > 1 else 1
    for place, rule in enumerate(RULES):
        heights = [span[1 + place] for span in spans]
        if any(heights):
            axes.bar(times, heights, width, below, align="edge", label=rule, color=COLORS[place])
            below = heights if below is None else [one + two for one, two in zip(below, heights)]
    finished(axes, title="Refused by admission: " + named(life), xlabel="simulated time, s", ylabel="entries of plans")


def came(life):
    """How many tasks came. Older results have only how many of them were placed."""
    return life.get("tasks_came", life["latency"]["count"]) or 1


def stale(axes, lives):
    """What coordinators did in vain, beside what they did."""
    bars = (("tasks started twice", lambda life: 100 * life["stale"]["started_twice"] / came(life)),
            ("tasks preempted", lambda life: 100 * life["preempted"] / came(life)),
            ("time of runs in vain", lambda life: life["stale"]["wasted"]))
    for place, (name, part) in enumerate(bars):
        axes.bar([at + 0.26 * (place - 1) for at in range(len(lives))], [part(life) for life in lives], 0.24, label=name, color=COLORS[place])
    axes.set_xticks(range(len(lives)), ["%d%s" % (life["coordinators"], whole(life, ", all")) for life in lives])
    finished(axes, title="What stale knowledge costs: %s tasks" % format(lives[0]["tasks"], ","),
             xlabel="coordinators; all: they carry out whole plans", ylabel="% of tasks that came, of all run time")


def all_plots(lives):
    """Each plot as a name and an SVG."""
    yield "latency", svg(latency, lives)
    yield "rounds", svg(rounds, lives)
    yield "memory", svg(memory, lives)
    largest, most = max(lives, key=lambda life: (life["tasks"], -life["coordinators"])), max(lives, key=lambda life: life["coordinators"])
    yield "bandwidth", svg(carried, largest)
    if most["coordinators"] > 1:
        same = [life for life in lives if life["tasks"] == most["tasks"]]
        same.sort(key=lambda life: (whole(life, "all"), life["coordinators"]))
        yield "beyond", svg(beyond, same)
        yield "stale", svg(stale, same)
    yield "refusals", svg(refusals, largest)
    if most["coordinators"] > 1:
        yield "refusals of many", svg(refusals, most)
