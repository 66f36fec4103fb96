#!/usr/bin/env python3
"""Makes the page of lives: python3 -m living.page FOLDER, of FOLDER/cluster.json. It needs no network to be looked at."""
import html
import json
import pathlib
import sys

from . import plots
from .causes import CAUSES
from .figures import COLUMNS, value_at

STYLE = """
body { font: 15px/1.5 system-ui, sans-serif; color: #1e293b; background: #fcfcfa; margin: 0 auto; max-width: 1280px; padding: 24px }
h1 { font-size: 26px; margin: 0 0 4px } h2 { font-size: 18px; margin: 28px 0 8px } .how { color: #475569; max-width: 860px }
.plots { display: grid; grid-template-columns: repeat(auto-fit, minmax(460px, 1fr)); gap: 18px; margin-top: 18px }
.plots div { background: #fff; border: 1px solid #e3e8ee; border-radius: 8px; padding: 10px }
.table { overflow-x: auto } table { border-collapse: collapse; font-size: 13px } th, td { padding: 5px 9px; border-bottom: 1px solid #e3e8ee; text-align: right }
th { font-weight: 600; color: #475569 } th:first-child { text-align: left } .broke { color: #b91c1c } code { font-size: 13px }
"""
SIMULATED = """Time, machines, jobs, tasks, their run times and the bandwidth that they use are simulated: jobs come by a Poisson process, their sizes
and run times are drawn from distributions with heavy tails, machines fail far more often than real ones, and reports lag. Nothing is sent over
a network: packets go from process to process, and each is on its way for a millisecond. The coordinators are real: each is a process of
<code>firmament follow</code>, and simulated time contains what each answer took. With several, each is taken to run on a machine of its own.
Parameters and their sources are in <code>bench/living/README.md</code>."""
NOTES = """If sharing is own, a coordinator carries out what its plans have for the tasks that were told to it; if it is all, it carries
out whole plans. A round plans and admits by what the coordinator knows when it begins; the next one begins when it ended, if something
was told or can still be placed. Latency is from a task's arrival to the end of the round that places it first, so it contains the rest
of the round before; tasks of the start are not counted. A turn is all that a coordinator does between two times when it is free: it
exchanges packets, is renewed, is told what came, and holds a round. LEMON solves the dump of the same network from scratch (the better
of network simplex and cost scaling, the median of the rounds that were checked), and costs are equal. Bandwidth is what the running
tasks ask for; beyond nics is what the tasks of a machine ask for together above its nic. A machine is beyond its nic as long as they
ask for more than it. A task is started twice if it is started while another run of it goes on, and started when over if it was done, or
its job withdrawn. Runs in vain were preempted, lost to another coordinator's proposal, or went on when their task was over."""

CLOCKS = {"wall": "Times are by the clock.", "processor": "Times of coordinators are those for which each process had a processor, since the "
          "machine had other work. LEMON's are by the clock, so they are not shown here: only its costs were compared."}


def shown(value):
    if value is None:
        return ""
    if isinstance(value, float):
        return format(round(value), ",") if abs(value) >= 100 else "%.3g" % value
    return format(value, ",") if isinstance(value, int) else html.escape(str(value))


def table(lives):
    """A column for each life, a row for each figure."""
    lines = []
    for head, path in COLUMNS:
        lines.append("<tr><th>%s</th>%s</tr>" % (html.escape(head), "".join("<td>%s</td>" % shown(value_at(life, path)) for life in lives)))
    return '<div class="table"><table>%s</table></div>' % "\n".join(lines)


def refused(lives):
    """Entries that admission refused, by the rule and by the coordinator."""
    lines = ["<tr><th>life</th><th>coordinator</th><th>entry</th><th>rule</th><th>count</th></tr>"]
    for life in lives:
        for row in life["refused"]:
            cells = (plots.named(life), row["coordinator"], row["entry"], row["rule"], row["count"])
            lines.append("<tr>%s</tr>" % "".join("<td>%s</td>" % shown(cell) for cell in cells))
    return '<div class="table"><table>%s</table></div>' % "\n".join(lines)


def causes(lives):
    """Why tasks were preempted, and started in vain. Older results do not say."""
    texts, lines = {(what, cause): text for what, those in CAUSES.items() for cause, text in those}, []
    for life in lives:
        for row in life.get("causes", ()):
            part = "%.2g %%" % (100 * row["count"] / plots.came(life))
            cells = (plots.named(life), row["what"], texts[row["what"], row["cause"]], row["count"], part)
            lines += ["<tr>%s</tr>" % "".join("<td>%s</td>" % shown(cell) for cell in cells)] if row["count"] else []
    head = "<tr><th>life</th><th>tasks</th><th>why</th><th>count</th><th>of the tasks that came</th></tr>"
    table = '<div class="table"><table>%s</table></div>' % "\n".join([head, *lines])
    return "<h2>What was done in vain, and why</h2>\n" + table if lines else ""


def page(results):
    # older results do not say how work was shared: coordinators carried out whole plans
    lives = [{"sharing": "all", **life} for life in results["lives"]]
    lives, broken = ([life for life in lives if ("broke" in life) is is_broken] for is_broken in (False, True))
    for life in lives if results["clock"] == "processor" else ():
        life["beside"] = {name: value for name, value in life["beside"].items() if name not in ("lemon", "whole")}
    broke = ["<p class=broke>%s: %s</p>" % (plots.named(life), html.escape(life["broke"])) for life in broken]
    drawn = "\n".join("<div>%s</div>" % svg for _, svg in plots.all_plots(lives)) if lives else ""
    how = "Date: %(date)s. Build: %(build)s. Machine: %(machine)s. Command: <code>%(command)s</code>. %(clock)s" % {
        **{name: html.escape(str(results[name])) for name in ("date", "build", "machine", "command")}, "clock": CLOCKS[results["clock"]]}
    return f"""<!DOCTYPE html>
<html lang="en"><head><meta charset="utf-8"><title>A cluster, lived through</title><style>{STYLE}</style></head><body>
<h1>A cluster, lived through</h1>
<p class="how">Coordinators of <code>firmament follow</code> schedule clusters through a simulated life. {how}</p>
<div class="plots">{drawn}</div>
<h2>Figures</h2>
{table(lives)}{"".join(broke)}
<p class="how">{NOTES}</p>
{causes(lives)}
<h2>What is simulated</h2>
<p class="how">{SIMULATED}</p>
<h2>Refused by admission</h2>
{refused(lives)}
</body></html>
"""


if __name__ == "__main__":
    given = pathlib.Path(sys.argv[1])
    (given / "cluster.html").write_text(page(json.loads((given / "cluster.json").read_text())))
