#!/usr/bin/env python3
"""Tests of bin/slurm on a real Slurm, by name, for tests/run: four nodes on this machine, as any user, and jobs that write down
themselves where they start.

    tests/slurmed.py [--program FILE] [GROUP..]

Runs the groups that are named, or all, which --help lists. Each has a Slurm of its own. Ends in a line 'N passed, M failed'. If a Debian
package is missing, says which, and runs none but the group `skipped`. SLURM_ADAPTER names another adapter to test.
"""
import argparse
import contextlib
import os
import pathlib
import random
import signal
import subprocess
import sys
import time

ROOT = pathlib.Path(__file__).resolve().parent.parent
sys.path[:0] = [str(ROOT / "tests")]
import slurm_lab
from slurm_cluster import OVER, QUEUE, RUN, Cluster
from slurm_lab import NODES, PATIENCE, until

PROGRAM = ROOT / "crates/fm_cli/out/fm_cli"
# a request that two thirds of the lab's nodes have room for once
WIDE = 60
# seconds that no test takes
LONG = 100000


def all_over(cluster):
    """Whether all jobs are over in time."""
    return bool(until(cluster.are_over, pause=0.2))


def held(cluster):
    """What held at any time, by name."""
    wrong = cluster.wrong()
    yield "starts, notes, loads and attempts: %s" % ("; ".join(wrong[:4]) or "as they must be"), not wrong
    unnamed = cluster.unnamed()
    yield "each job ran where winners named it: %s" % (", ".join(unnamed[:4]) or "all"), not unnamed
    ran = len({it.job for it in cluster.starts()})
    yield "what was looked at: %d samples, %d jobs that ran" % (len(cluster.samples), ran), len(cluster.samples) > 10 and ran > 0


def on(cluster, jobs):
    """The nodes on which jobs started, by job; nothing for one that did not."""
    return {job: [it.node for it in cluster.starts(job)] for job in jobs}


# placing

def placed(program):
    """Jobs go where there is bandwidth: to no node that is busy with what Slurm does not know of, or that was never measured. What fits
    nowhere waits, says why, and runs once there is room."""
    with Cluster(program) as cluster:
        cluster.exporters.silent.add("n4")
        cluster.exporters.others["n1"] = 70
        adapter = cluster.acting()
        wide = [cluster.submit("wide", WIDE) for _ in range(3)]
        narrow, free = [cluster.submit("small", 10) for _ in range(2)], [cluster.submit("small") for _ in range(2)]
        until(lambda: len(cluster.starts()) == 6)
        # more jobs wait to be let go than there are nodes for them
        most = until(lambda: (found := cluster.most_at_once()) > 1 and found)
        yield "a node runs several jobs at the same time: %s" % most, most
        fine = cluster.goes_on(adapter) and len(cluster.starts()) == 6
        yield "a job for which there is no room does not run: %s" % on(cluster, wide), fine
        for name in "wide", "small":
            cluster.let_go(name)
        fine = until(lambda: len(cluster.lines("end")) == 7)
        yield "all ran: %s" % on(cluster, wide + narrow + free), fine
        found = on(cluster, wide)
        yield "none goes to a node that is busy or not measured: %s" % found, {node for nodes in found.values() for node in nodes} == {"n2", "n3"}
        yield "a small one to none that was not measured: %s" % on(cluster, narrow), all(it and it[0] != "n4" for it in on(cluster, narrow).values())
        cluster.exporters.others.update(n2=70, n3=70)
        seen = until(lambda: all(cluster.uses(adapter).get(node, 0) >= 70 for node in ("n2", "n3")))
        yield "the adapter learns that two links are busy now: %s" % cluster.uses(adapter), seen
        waits = cluster.submit(1, WIDE)
        said = until(lambda: "waits" in cluster.job(waits).comment)
        yield "why a job waits: %r" % cluster.job(waits).comment, said
        yield "and it does not start", cluster.goes_on(adapter) and not cluster.starts(waits)
        cluster.exporters.silent.clear()
        until(lambda: cluster.starts(waits))
        yield "a node that is measured gets it: %s" % on(cluster, [waits]), on(cluster, [waits])[waits] == ["n4"]
        yield "all end", all_over(cluster)
        yield from held(cluster)


# what users and administrators do

def used(program):
    """Arrays with a throttle, holds, cancels, requeues, a drained node, and jobs that wait for others."""
    with Cluster(program) as cluster:
        cluster.control("update", "NodeName=n2", "State=DRAIN", "Reason=test")
        # the one node that a request for 103 fits on carries other traffic, so this waits
        cluster.exporters.others["n4"] = 50
        adapter = cluster.acting(without=["n2"])
        array = cluster.submit("array", 10, "--array=0-4%2")
        withheld, longest = cluster.submit(1, 10, "--hold"), cluster.submit(LONG, WIDE)
        again = [cluster.submit(LONG, 6, later=1) for _ in range(5)]
        later = cluster.submit(1, 10, f"--dependency=afterok:{array}")
        until(lambda: all(cluster.starts(it) for it in [longest, *again]))
        for job in again:
            # at different parts of a second: slurmd takes a start for one before the requeue if it is in the same second
            cluster.lab.run("scontrol", "requeue", job)
            time.sleep(0.2)
        cancelled = cluster.submit(1, 103)
        held_later = cluster.submit(1, 103)
        cluster.control("hold", held_later)
        yield from arrayed(cluster, adapter, array, later)
        yield "a job that its user holds stays in its queue", cluster.partitions(withheld) == {QUEUE} and not cluster.starts(withheld)
        yield "a job that waits for room stays in its queue", cluster.partitions(cancelled) == {QUEUE} and not cluster.starts(cancelled)
        cluster.lab.did("scancel", cancelled, longest)
        cluster.control("release", withheld)
        yield "a job that is released runs", until(lambda: cluster.starts(withheld))
        yield "a job that is cancelled does not run, and one that ran ends", until(
            lambda: {cluster.job(it).state for it in (cancelled, longest)} == {"CANCELLED"}) and not cluster.starts(cancelled)
        until(lambda: all(len(cluster.starts(it)) == 2 for it in again))
        found = [[it.restarts for it in cluster.starts(job)] for job in again]
        yield "jobs that their users requeue start again: %s" % found, found == [[0, 1]] * len(again)
        sent = {it.job for _, jobs in cluster.samples for it in jobs if "n2" in (it.node, it.asked)}
        yield "nothing is sent to the drained node: %s" % sent, not sent
        yield "none is preempted", not cluster.adapters[0].events("preempting")
        yield "a held job still waits, though there is room", not cluster.starts(held_later) and cluster.partitions(held_later) == {QUEUE}
        cluster.exporters.others["n4"] = 0
        cluster.control("update", "NodeName=n2", "State=RESUME")
        # each takes a whole link until all have one
        wide = [cluster.submit("links", 100) for _ in range(4)]
        until(lambda: all(cluster.starts(it) for it in wide))
        cluster.let_go("links")
        yield "a node that is resumed gets jobs: %s" % on(cluster, wide), ["n2"] in on(cluster, wide).values()
        cluster.control("release", held_later)
        yield "all end", all_over(cluster)
        yield from held(cluster)


def arrayed(cluster, adapter, array, later):
    """An array of five with a throttle of two, and a job that waits for it."""
    names = [f"{array}_{index}" for index in range(5)]
    started = lambda: [it.job for it in cluster.starts() if it.job in names]
    placed = lambda: [it.job for it in max(([it for it in jobs if it.is_placed and it.job in names] for _, jobs in cluster.samples), key=len)]
    fine = until(lambda: len(started()) == len(placed()) == 2) and cluster.goes_on(adapter)
    yield "two elements start and go on, and no third is placed: %s %s" % (started(), placed()), fine and len(started()) == len(placed()) == 2
    cluster.let_go("array")
    until(lambda: cluster.starts(later))
    lines = [it for it in cluster.lines() if it.job in names]
    most = now = 0
    for it in lines:
        now += 1 if it.what == "start" else -1
        most = max(most, now)
    yield "each element of an array ran once: %s" % [it.job for it in lines if it.what == "start"], sorted(
        it.job for it in lines if it.what == "start") == names
    yield "at most two at the same time: %d" % most, most == 2
    yield "nor more than two that are placed: %s" % placed(), len(placed()) == 2
    first = cluster.starts(later)
    yield "a job that waits for an array starts after it", bool(first) and len(lines) == 10 and first[0].at > max(it.at for it in lines)


# what fails

def killed(program):
    """The adapter is killed before, during and after commands, and at drawn moments, and jobs are cancelled and requeued while none is
    there. In the end each job has started once, and once more for each restart."""
    chance = random.Random(73)
    with Cluster(program) as cluster:
        adapter = cluster.acting()
        steady, longest = cluster.submit(LONG, 5), cluster.submit(LONG, 5)
        until(lambda: cluster.starts(steady) and cluster.starts(longest))
        jobs, requeues = [], 0
        for turn, when in enumerate(("before", "during", "after", "drawn") * 3):
            jobs += [cluster.submit(round(chance.uniform(0.3, 2.5), 1), chance.choice((0, 5, 10, 30, 30, WIDE))) for _ in range(3)]
            if when == "drawn":
                time.sleep(chance.uniform(0, 1.5))
                adapter.kill()
            else:
                cluster.crash(when)
                if not until(lambda: not adapter.is_there(), pause=0.02):
                    break
            if turn in (3, 7):
                requeues += disturb(cluster, jobs, longest)
            adapter = cluster.adapter()
        yield "each kill was one: %d adapters" % len(cluster.adapters), [it.process.status() for it in cluster.adapters[:-1]] == [-9] * 12
        crashes = (cluster.folder / "crashes").read_text().split("\n")[:-1]
        yield "commands that an adapter was killed by: %s" % crashes, len(crashes) == 9 and any("Partition=netrun" in it for it in crashes)
        yield "the last one's coordinator knows all that runs: %s" % cluster.unknown(adapter), until(
            lambda: {steady, longest} <= set(cluster.running()) and not cluster.unknown(adapter))
        # Slurm shows a job as running before the job writes that it starts
        fine = until(lambda: len(cluster.starts(longest)) == 1 + requeues)
        yield "the job that was requeued starts again: %s" % on(cluster, [longest]), fine
        cluster.lab.did("scancel", steady, longest)
        yield "all end", all_over(cluster)
        yield from held(cluster)
        restarts = sum(it.restarts for it in cluster.shown())
        preempted = [it for one in cluster.adapters for it in one.events("preempting")]
        # all jobs cost the same, so none is preempted for another
        yield "no restart without a cause: %d, %d requeues, %s" % (restarts, requeues, preempted), restarts == requeues > 0 and not preempted
        yield "the last one ends well: %s" % adapter.said()[-200:], adapter.end() == 0
        yield "no fault was said: %s" % [it for one in cluster.adapters for it in one.events("fault")][:3], not any(
            it.events("fault", "refused") for it in cluster.adapters)


def disturb(cluster, jobs, longest):
    """Cancels a job that waits or runs, and requeues one that runs. How many were requeued."""
    live = [it.job for it in cluster.shown() if it.job in jobs and it.state not in OVER]
    if live:
        cluster.lab.run("scancel", live[-1])
    return int(cluster.lab.run("scontrol", "requeue", longest).returncode == 0)


def replaced(program):
    """A second adapter stands by while the first one acts, and acts once that is killed. slurmctld is ended and started again twice."""
    with Cluster(program) as cluster:
        first = cluster.acting()
        second = cluster.adapter()
        yield "the second one stands by", until(lambda: second.events("standby"))
        third = cluster.adapter("--no-wait")
        yield "one that does not stand by ends with status 14: %s %s" % (third.process.wait(), third.said()), third.process.status() == 14
        jobs = [cluster.submit(2, WIDE) for _ in range(3)]
        yield "the first one places", until(lambda: all(cluster.starts(it) for it in jobs))
        yield "and the second one does not", not second.acts() and not second.events("placed")
        jobs += [cluster.submit(1, WIDE) for _ in range(6)]
        first.kill()
        yield "the second one acts once the first is killed", until(second.acts)
        cluster.lab.restart("controller")
        jobs += [cluster.submit(1, WIDE) for _ in range(3)]
        yield "slurmctld ended, and all jobs run", until(lambda: all(cluster.starts(it) for it in jobs))
        longer = [cluster.submit(LONG, WIDE) for _ in range(3)]
        until(lambda: all(cluster.starts(it) for it in longer) and set(longer) <= set(cluster.running()))
        yield "what slurmctld knows of them is on the disk", kept_on_disk(cluster, longer)
        cluster.lab.restart("controller", signal.SIGKILL)
        until(lambda: cluster.shown() is not None)
        jobs += [cluster.submit(1, 30) for _ in range(3)]
        yield "slurmctld was killed, and jobs run", until(lambda: all(cluster.starts(it) for it in jobs))
        yield "jobs that ran when it was killed go on: %s" % on(cluster, longer), set(longer) <= set(cluster.running()) and all(
            len(it) == 1 for it in on(cluster, longer).values())
        yield from failed(cluster, longer)
        cluster.lab.did("scancel", *longer)
        yield "all end", all_over(cluster)
        yield "the second one is there", second.is_there() and second.end() == 0
        yield from held(cluster)


def kept_on_disk(cluster, jobs):
    """Waits until slurmctld wrote down that the jobs run: it does so some seconds after a change, as here of their names."""
    marks = [f"mark-of-{job}" for job in jobs]
    for job, mark in zip(jobs, marks):
        cluster.control("update", f"JobId={job}", f"JobName={mark}")
    return until(lambda: all(mark.encode() in (cluster.lab.folder / "state/job_state").read_bytes() for mark in marks))


def failed(cluster, jobs):
    """A node goes down on which a job runs: Slurm requeues it, and it goes to the one node that has room for it."""
    before = on(cluster, jobs)
    free, = set(NODES) - {node for nodes in before.values() for node in nodes}
    node, = before[jobs[0]]
    cluster.control("update", f"NodeName={node}", "State=DOWN", "Reason=test")
    until(lambda: len(cluster.starts(jobs[0])) == 2)
    yield "a job whose node goes down starts elsewhere: %s" % on(cluster, jobs), on(cluster, jobs) == {**before, jobs[0]: [node, free]}


# users, and what happens without packages

def kept_out(program):
    """job_submit.lua: nobody submits to the run partition, and only an administrator moves jobs there."""
    if not slurm_lab.has_lua():
        print("slurmed: job_submit.lua is not tested, since this Slurm cannot load it")
        return
    with slurm_lab.Lab() as lab:
        sbatch = ["sbatch", "--parsable", "-o", "/dev/null", "--wrap", "sleep 1"]
        for name, words, text in (("the run partition", ["-p", RUN], "for placed jobs"), ("both partitions", ["-p", f"net,{RUN}"], "for placed jobs"),
                                  ("two processors", ["-n", "2"], "one processor"), ("a node", ["-w", "n2"], "--nodelist"),
                                  ("a request without a number", ["--gres=bandwidth"], "--gres=bandwidth:MBITS"),
                                  ("a request of none", ["--gres=bandwidth:x"], "--gres=bandwidth:MBITS")):
            done = lab.run(*sbatch, *words)
            yield "%s is refused: %s" % (name, done.stderr.strip()), done.returncode != 0 and text in done.stderr
        if os.getuid() != 0:
            print("slurmed: other users than the lab's are not tested, since only root can run jobs of others")
            return
        job = lab.did(*sbatch, "--gres=bandwidth:40", user="nobody")
        moved = lab.run("scontrol", "update", f"JobId={job}", f"Partition={RUN}", user="nobody")
        yield "a user does not move a job: %s" % moved.stderr.strip(), moved.returncode != 0
        lab.did("scontrol", "update", f"JobId={job}", f"Partition={RUN}", "ReqNodeList=n2")
        other = lab.run("scontrol", "update", f"JobId={job}", "ReqNodeList=n3", user="nobody")
        shown = lab.did("squeue", "-h", "-j", job, "-O", "Partition:20,ReqNodes:20").split()
        yield "nor a job that was placed: %s" % shown, other.returncode != 0 and shown == [RUN, "n2"]


def checked(program):
    """What --check says of a Slurm that is as it must be, and of one that is not."""
    with Cluster(program) as cluster:
        check = lambda: check_of(cluster)
        status, said = check()
        yield "a Slurm that is as it must be: %d %s" % (status, said), status == 0
        cluster.control("update", "PartitionName=net", "State=UP")
        status, said = check()
        yield "a queue that starts jobs: %d %s" % (status, said), status == 13 and "net" in said and said.count("\n") == 1
        cluster.control("update", "PartitionName=net", "State=DOWN")
        cluster.stop_watch()
        cluster.lab.daemons["controller"].kill()
        # Slurm's commands try to reach it for as long as a message may take
        cluster.configuration.write_text(cluster.configuration.read_text().replace("command-wait = 300", "command-wait = 5"))
        status, said = check()
        yield "no slurmctld: %d %s" % (status, said), status == 13 and said.count("\n") == 1


def check_of(cluster):
    words = [sys.executable, "-B", os.environ.get("SLURM_ADAPTER", ROOT / "bin/slurm"), "--check", cluster.configuration]
    done = subprocess.run(words, env={**os.environ, **cluster.lab.environment}, stdin=subprocess.DEVNULL, capture_output=True, text=True,
                          timeout=3 * PATIENCE)
    return done.returncode, done.stderr


def example(program):
    """The example runs with one command, and ends in what was checked."""
    done = subprocess.run([ROOT / "examples/slurm/run", "--program", program], stdin=subprocess.DEVNULL, capture_output=True, text=True,
                          timeout=6 * PATIENCE)
    yield "the example: %s" % (done.stdout + done.stderr)[-400:], done.returncode == 0 and "each job started once" in done.stdout


# a lab with a job, of which one slurmd is killed, and then the process that started it
KILLED = """\
import os, sys
sys.path.insert(0, sys.argv[1])
import slurm_lab
lab = slurm_lab.Lab().__enter__()
job = lab.did("sbatch", "--parsable", "-o", "/dev/null", "--export=NONE", "--wrap", "setsid sleep 1000")
lab.did("scontrol", "update", f"JobId={job}", "Partition=netrun", "ReqNodeList=n1", "StartTime=now")
slurm_lab.until(lambda: lab.did("squeue", "-h", "-t", "R"))
lab.daemons["n1"].kill()
print(lab.folder, flush=True)
os.kill(os.getpid(), 9)
"""


def ended(_program):
    """A lab ends with the process that started it, also if that is killed, and with it all that it runs."""
    command = [sys.executable, "-B", "-c", KILLED, str(ROOT / "tests")]
    done = subprocess.run(command, stdin=subprocess.DEVNULL, capture_output=True, text=True, timeout=6 * PATIENCE)
    folder = pathlib.Path(done.stdout.strip() or "/nowhere")
    yield "a lab that is killed: %s" % done.stderr[-200:], done.returncode == -9 and folder.name.startswith("fetohamu-slurm-")
    yield "its folder goes", until(lambda: not folder.exists())
    yield "and all its processes", until(lambda: not of_folder(folder))


def of_folder(folder):
    """The processes that name the folder in their words or variables."""
    found = []
    for process in pathlib.Path("/proc").glob("[0-9]*"):
        with contextlib.suppress(OSError):
            if str(folder).encode() in (process / "cmdline").read_bytes() + (process / "environ").read_bytes():
                found.append(process.name)
    return found


def skipped(_program):
    """If a package is missing, it is named, and nothing fails but what cannot run."""
    env = {**os.environ, "SLURM_COMMANDS": "/nowhere"}
    for command, status in ([ROOT / "examples/slurm/run"], 10), ([ROOT / "tests/slurmed.py", "placed"], 0):
        done = subprocess.run(command, env=env, stdin=subprocess.DEVNULL, capture_output=True, text=True, timeout=PATIENCE)
        said = done.stdout + done.stderr
        yield "%s without Slurm: %d %s" % (command[0].name, done.returncode, said), done.returncode == status and "slurmctld" in said


GROUPS = {"placed": placed, "used": used, "killed": killed, "replaced": replaced, "kept_out": kept_out, "checked": checked, "example": example,
          "ended": ended, "skipped": skipped}


def all_tests(program, names=tuple(GROUPS)):
    """Each test of the groups, by name; none, with a word, if a package is not installed."""
    for name in runnable(names):
        for told, fine in GROUPS[name](program):
            yield "slurmed: %s: %s" % (name, told), bool(fine)


def runnable(names):
    """The groups that can run here. Says so if a package is missing."""
    lacks = slurm_lab.missing()
    if lacks:
        print("slurmed: skipped, since there is no %s (Debian's packages)" % " and no ".join(lacks))
    return [name for name in names if not lacks or name == "skipped"]


def main():
    words = argparse.ArgumentParser(description=__doc__, formatter_class=argparse.RawDescriptionHelpFormatter)
    words.add_argument("--program", default=str(PROGRAM))
    words.add_argument("groups", nargs="*", metavar="GROUP", help=", ".join(GROUPS))
    words = words.parse_args()
    if set(words.groups) - GROUPS.keys():
        sys.exit("tests/slurmed.py: the groups are %s" % ", ".join(GROUPS))
    passed = failed = 0
    for group in runnable(words.groups or GROUPS):
        began, before = time.monotonic(), passed + failed
        for name, fine in all_tests(words.program, [group]):
            passed, failed = passed + fine, failed + (not fine)
            if not fine:
                print("FAILED: " + name, flush=True)
        print("%-16s%6d tests in %.0f s" % (group, passed + failed - before, time.monotonic() - began), flush=True)
    print("%d passed, %d failed" % (passed, failed))
    sys.exit(failed != 0)


if __name__ == "__main__":
    main()
