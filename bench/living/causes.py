"""Why a coordinator preempted a task, or started one in vain, as far as a simulation can know: the causes that it counts."""

# what is counted, with its causes: the names of counts, and what the page says of them
CAUSES = {
    "preempted": (
        ("overfull", "several coordinators gave its machine more tasks than it has slots, before they heard of each other"),
        ("outbid", "its slot goes to a task that it costs more to leave waiting"),
    ),
    "started twice": (
        ("same attempt", "another coordinator started the same attempt"),
        ("earlier attempt", "an earlier attempt still ran, since its coordinator had not heard that it is to stop"),
    ),
    "started when over": (
        ("done", "it was done, and its coordinator had not heard so"),
        ("withdrawn", "its job was withdrawn, and its coordinator had not heard so"),
    ),
}


class Preempts:
    """Tells why a coordinator preempts tasks in a round, by what it knows."""

    def __init__(self, known, hosts):
        self.known, self.hosts, self.held = known, hosts, None

    def cause(self, task):
        """Why it preempts a task, before it takes note of that."""
        if self.held is None:
            self.held = self.known.held()
        _, spot = self.known.winner(task)
        is_overfull = self.held[spot] > self.hosts[spot[0]].slots
        self.held[spot] -= 1
        return "overfull" if is_overfull else "outbid"


def of_start(key, runs, end):
    """What is started in vain, with its cause, if runs of its task go on and if the task ended: pairs."""
    if runs:
        yield "started twice", "same attempt" if any(run[1] == key[1] for run in runs) else "earlier attempt"
    if end is not None:
        yield "started when over", end
