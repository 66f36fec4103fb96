"""What really runs on the machines of a cluster, whoever placed it there, and what bandwidth it asks for."""
import collections

Run = collections.namedtuple("Run", "machine task request since")
# at a time: bandwidth that runs ask for and nics carry, that they ask for beyond their nics, all that is up, machines with
# too much bandwidth and with too many runs, runs, and tasks that are to run and do not
Sample = collections.namedtuple("Sample", "time carried beyond offered crowded overfull runs waiting")


class Host:
    """A machine: what it has, whether it is up, and the runs on it by key."""

    def __init__(self, slots, nic):
        self.slots, self.nic, self.is_up = slots, nic, True
        self.incarnation, self.version, self.asked, self.runs = 1, 1, 0, {}

    def has_slot(self):
        return self.is_up and len(self.runs) < self.slots


class Ground:
    """Machines and runs. Sums over time are kept: bandwidth that is carried, and that is asked for beyond nics, times seconds; and seconds
    of machines that are up, that have too much bandwidth, and too many runs. `most_beyond` is the most that was asked for beyond a nic for
    any time, as a part of that nic."""

    def __init__(self):
        self.hosts, self.runs, self.of_task = {}, {}, {}
        self.time = 0.0
        self.carried = self.beyond = self.offered = self.up = self.crowded = self.overfull = 0
        self.sums = collections.Counter()
        # machines to which too much came since time went on: what is there only between two changes at one time does not count
        self.most_beyond, self.raised = 0.0, []

    def advance(self, time):
        """Time goes on to then."""
        if time == self.time:
            return
        for name in "carried", "beyond", "offered", "up", "crowded", "overfull":
            self.sums[name] += getattr(self, name) * (time - self.time)
        self.most_beyond = max([self.most_beyond, *(host.asked / host.nic - 1 for host in self.raised)])
        self.raised.clear()
        self.time = time

    def add_host(self, name, slots, nic):
        self.hosts[name] = Host(slots, nic)
        self.offered += nic
        self.up += 1

    def changed(self, host, requests, offered=0):
        """Bandwidth more or less is asked for at a machine, before its runs change."""
        self.carried -= min(host.asked, host.nic)
        self.beyond -= max(0, host.asked - host.nic)
        self.crowded -= host.asked > host.nic
        host.asked += requests
        self.carried += min(host.asked, host.nic)
        self.beyond += max(0, host.asked - host.nic)
        self.crowded += host.asked > host.nic
        self.offered += offered
        if host.asked > host.nic > 0:
            self.raised.append(host)

    def start(self, key, machine, task, request):
        host = self.hosts[machine]
        self.overfull -= len(host.runs) > host.slots
        self.changed(host, request)
        self.runs[key] = host.runs[key] = Run(machine, task, request, self.time)
        self.of_task.setdefault(task, []).append(key)
        self.overfull += len(host.runs) > host.slots

    def stop(self, key):
        """The run of the key, which stops, or None if there is none."""
        run = self.runs.pop(key, None)
        if run is not None:
            host = self.hosts[run.machine]
            self.overfull -= len(host.runs) > host.slots
            self.changed(host, -run.request)
            del host.runs[key]
            self.of_task[run.task].remove(key)
            if not self.of_task[run.task]:
                del self.of_task[run.task]
            self.overfull += len(host.runs) > host.slots
        return run

    def fail(self, machine):
        """A machine goes away; the runs that were on it."""
        host = self.hosts[machine]
        lost = [(key, self.stop(key)) for key in list(host.runs)]
        host.is_up = False
        self.up -= 1
        self.changed(host, 0, -host.nic)
        return lost

    def recover(self, machine):
        host = self.hosts[machine]
        host.is_up = True
        host.incarnation += 1
        host.version += 1
        self.up += 1
        self.changed(host, 0, host.nic)

    def runs_of(self, task):
        return self.of_task.get(task, ())

    def sample(self, waiting):
        return Sample(self.time, self.carried, self.beyond, self.offered, self.crowded, self.overfull, len(self.runs), waiting)
