"""What the gate's work may be: budget.json, and how a run compares with it.

Machines differ, so work is counted in units: the minutes of a processor that one fixed piece takes, the proof of fm_records. The file has
what each crate's proof, tests and wrong bodies may take, what the groups of tests/run may, and two bounds: `work` for the sum, and
`chain` for the longest chain of proofs that wait for one another.
"""
import json
import pathlib

ROOT = pathlib.Path(__file__).resolve().parent.parent
FILE = ROOT / "budget.json"
UNIT = ("fm_records", "proof")
# the programs that the gate tries with checks and does not prove, unless tests are proved too
TRIED = ("fm_probe_solver",)
# the minutes of a unit where they do not matter, but which task is the longer one
USUAL = 2.6
# a crate is named if a kind of its work takes so much more than its share, and a unit's part at least
SLACK, SMALL = 1.25, 0.25
# how much more than a run took its bounds are, since a processor's minutes vary with what else runs on it
ROOM = 1.3


def read():
    return json.loads(FILE.read_text())


def minutes():
    """The minutes that each task is likely to take of a processor."""
    return {(name, kind): units * USUAL for name, kinds in read()["tasks"].items() for kind, units in kinds.items()}


def stands_on():
    """The crates by name, each with those that it stands on."""
    found = {}
    for line in (ROOT / "crates.txt").read_text().splitlines():
        head, colon, low = line.partition(":")
        if colon and not head.startswith("#"):
            found[head.split()[0]] = low.split()
    return found


def proved_in_each_run():
    """The crates that every run of the gate proves."""
    return set(stands_on()) - set(TRIED)


def longest(low, units):
    """The longest chain of proofs, in units, and its crates."""
    known = {}

    def chain(name):
        if name not in known:
            behind = max((chain(it) for it in low[name] if it in low), default=(0, []), key=lambda it: it[0])
            known[name] = behind[0] + units.get(name, 0), [*behind[1], name]
        return known[name]

    return max(map(chain, low), key=lambda it: it[0])


def compared(work):
    """Lines on the work, minutes by crate and kind, beside the budget, and whether it keeps within the two bounds."""
    low, allowed = stands_on(), read()
    proofs = {name: kinds["proof"] for name, kinds in work.items() if "proof" in kinds}
    if proved_in_each_run() - set(proofs):
        return ["budget: not compared, since not every crate was proved in this run"], True
    unit = proofs[UNIT[0]]
    units = {name: {kind: spent / unit for kind, spent in kinds.items()} for name, kinds in work.items()}
    lines = []
    for name, kinds in sorted(units.items()):
        for kind, spent in kinds.items():
            share = allowed["tasks"].get(name, {}).get(kind, 0)
            if spent > SLACK * share + SMALL:
                lines.append(f"budget: {name}, {kind}: {spent:.2f} units, and {share:.2f} are allowed (tools/slow {name})")
    found = {"work": sum(sum(kinds.values()) for kinds in units.values())}
    found["chain"], chain = longest(low, {name: kinds["proof"] for name, kinds in units.items() if "proof" in kinds})
    for bound, spent in found.items():
        lines.append(f"budget: {bound}: {spent:.1f} of {allowed[bound]:.1f} units{' EXCEEDED' if spent > allowed[bound] else ''}")
    lines.append(f"budget: the longest chain: {' '.join(chain)}; a unit is {unit:.2f} minutes of a processor")
    return lines, all(spent <= allowed[bound] for bound, spent in found.items())


def write(work):
    """Makes the budget what this run took, with room in the two bounds, if it proved every crate. Says what was done."""
    if not proved_in_each_run() <= {name for name, kinds in work.items() if "proof" in kinds}:
        return "budget: not written, since not every crate was proved in this run: add --anew"
    unit = work[UNIT[0]][UNIT[1]]
    units = {name: {kind: round(spent / unit, 2) for kind, spent in sorted(kinds.items())} for name, kinds in sorted(work.items())}
    total = sum(sum(kinds.values()) for kinds in units.values())
    chain, _ = longest(stands_on(), {name: kinds["proof"] for name, kinds in units.items() if "proof" in kinds})
    made = {"work": round(ROOM * total, 1), "chain": round(ROOM * chain, 1), "tasks": units}
    FILE.write_text(json.dumps(made, indent=1) + "\n")
    return f"budget: written to {FILE.name}"
