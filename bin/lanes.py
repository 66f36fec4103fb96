"""How the gate's tasks are laid out over processors and memory.

Proofs come first, and of these the one with the most minutes of others behind it. Each further job of a proof costs a fifth more work. So the
first proof gets a second one only if its chain, with one job for each proof, takes longer than the processors take for all that is left, and
all processors if the chain takes longer even so. It gets more, too, if fewer other proofs could run than there are processors. The other
proofs share what is left, at a lower priority, so they do not hold the first one up. Wrong bodies and tests run at a still lower one in what
the proofs leave free. What mostly waits runs beside these, and takes no processor's place. A task without work ends at once. Minutes are those
of budget.json, or estimated by lines.
"""
import contextlib
import os
import threading
from concurrent.futures import FIRST_COMPLETED, ThreadPoolExecutor, wait

# how much lower the priority is of a proof that others have more to wait for, and of what no proof waits for
LATER, CALM = 5, 10
# minutes of a line that budget.json does not know, and the share of its minutes that a proof takes with all processors
OF_A_LINE, WITH_ALL = 0.0025, 0.6
# what a further job takes of the memory of the first, and what tasks take at most of the memory that the toolchain reckons, as measured: half
# of it and less over libraries of statements
OF_A_JOB, OF_RECKONED = 0.25, 0.6
# the jobs of the first proof if its chain would take longest with one, while other proofs keep the processors busy
FIRST = 2
# the tasks that mostly wait: the tests with a broker take a minute and a half of a processor in four, and those on Slurm 20 s in two
IDLE = {("tests/run", group) for group in ("brokered", "brokered_lasting", "brokered_rounds", "security", "slurm", "slurm_standby", "slurm_parted")}


def at_priority(lower, call, *given):
    """The call at a priority so much lower than that of this process, which the processes that it starts have too."""
    own = os.getpriority(os.PRIO_PROCESS, os.getpid())
    os.setpriority(os.PRIO_PROCESS, threading.get_native_id(), own + lower)
    return call(*given)


class Lanes:
    """Tasks by key, each with what it waits for, its lines, its memory and its call, as the toolchain has them; those that run; and
    what the others gave."""

    def __init__(self, tasks, processors, memory, minutes):
        self.tasks, self.processors, self.memory = tasks, processors, memory / OF_RECKONED
        self.running, self.given = {}, {}
        self.own = {key: minutes.get(key[:2], lines * OF_A_LINE) for key, (_, lines, *_) in tasks.items()}
        self.behind = self.chains()
        self.left = sorted(tasks, key=lambda key: (not is_proof(key), -self.behind[key]))

    def chains(self):
        """The minutes of each task with those of the longest chain of others that waits for it. A task comes after those it waits for."""
        behind = dict.fromkeys(self.tasks, 0.0)
        for key in reversed([*self.tasks]):
            behind[key] += self.own[key] * WITH_ALL if is_proof(key) else self.own[key]
            for low in self.tasks[key][0]:
                behind[low] = max(behind[low], behind[key])
        return behind

    def ready(self):
        return [key for key in self.left if all(low in self.given for low in self.tasks[key][0])]

    def is_first(self, key, ready):
        """Whether a proof has a longer chain behind it than all others that run or are ready."""
        return all(self.behind[key] > self.behind[it] for it in (*self.running, *ready) if is_proof(it) and it != key)

    def is_last(self, key, times=1.0):
        """Whether the chain of a proof, if it took so many times its minutes, would take longer than the processors take for all that is
        left."""
        return self.behind[key] * times * self.processors >= sum(self.own[it] for it in (*self.left, *self.running))

    def jobs(self, key, ready, room):
        """How many jobs a proof gets: as above if it is the first, and else its share. Proofs without work end at once, and take none."""
        others = [it for it in (*self.running, *ready) if is_proof(it) and it != key and self.tasks[it][1]]
        wanted = self.processors // (1 + len(others))
        if self.is_first(key, ready):
            least = FIRST if self.is_last(key, 1 / WITH_ALL) else 1
            wanted = self.processors if self.is_last(key) else max(least, self.processors - len(others))
        most = 1 + int((room / self.tasks[key][2] - 1) / OF_A_JOB)
        return max(1, min(wanted, most, 4))

    def is_free(self, key):
        """Whether one more task may run by the processors: a proof if there are fewer proofs, and another task if there are fewer tasks."""
        same = [it for it in self.running if is_proof(it)] if is_proof(key) else self.running.keys() - IDLE
        return key in IDLE or len(same) < self.processors

    def begin(self, pools):
        """Starts all tasks that there is room for. A proof that lacks memory keeps the others from taking it."""
        lacks = False
        for key in self.ready():
            _, lines, needs, call = self.tasks[key]
            if not lines:
                self.left.remove(key)
                self.given[key] = call(self.given, 1)
                return True
            room = self.memory - sum(held for _, held in self.running.values())
            if lacks or not self.is_free(key):
                continue
            if self.running and needs > room:
                lacks = is_proof(key)
                continue
            ready = self.ready()
            jobs = self.jobs(key, ready, room) if is_proof(key) else 1
            lower = (0 if self.is_first(key, ready) else LATER) if is_proof(key) else CALM
            self.left.remove(key)
            started = pools[lower].submit(at_priority, lower, call, self.given, jobs)
            self.running[key] = started, needs * (1 + OF_A_JOB * (jobs - 1))
        return False

    def run(self):
        # a thread cannot raise its priority again, so each has threads of its own
        with contextlib.ExitStack() as stack:
            pools = {lower: stack.enter_context(ThreadPoolExecutor(self.processors + len(IDLE))) for lower in (0, LATER, CALM)}
            while self.left or self.running:
                if self.begin(pools):
                    continue
                ended = wait([it for it, _ in self.running.values()], return_when=FIRST_COMPLETED).done
                for key in [key for key, (it, _) in self.running.items() if it in ended]:
                    self.given[key] = self.running.pop(key)[0].result()
        return self.given


def is_proof(key):
    return key[1] == "proof"
