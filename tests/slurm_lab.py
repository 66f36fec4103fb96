"""A Slurm cluster of four nodes on this machine, for tests and examples: one controller, four `slurmd`, on the loopback address.

    with Lab() as lab:
        lab.run("sbatch", "-p", "net", "--gres=bandwidth:40", "job.sh")

Any user may start one; it needs no root, namespaces or systemd. Several run side by side, each in a temporary folder of its own. Root
starts it as root, and then jobs of other users run too. All its processes end with the process that started it (supervisor.py).

Users are known by a munged of its own: with AuthType=auth/none anyone who reaches a port could run jobs as the user of the lab.
"""
import os
import pathlib
import pwd
import random
import secrets
import shutil
import signal
import socket
import subprocess
import tempfile
import time

from supervisor import Supervisor

ROOT = pathlib.Path(__file__).resolve().parent.parent
NODES = ("n1", "n2", "n3", "n4")
SLOTS, BANDWIDTHS = 4, (100, 100, 100, 100)
# what is looked for, and the Debian package that has it
NEEDS = {"slurmctld": "slurmctld", "slurmd": "slurmd", "sbatch": "slurm-client", "munged": "munge"}
PLUGINS = "slurm-wlm-basic-plugins"
RELEASE = "22.05"
# below the ports that systems give to clients
PORTS = range(15000, 30000)
# the longest that anything here is waited for: most of it takes less than a second if processors are free
PATIENCE = float(os.environ.get("PATIENCE", 300))


def found(name):
    """A program of Debian's packages: of the folder that SLURM_COMMANDS names, of PATH, or where Debian has daemons."""
    return shutil.which(name, path=os.environ.get("SLURM_COMMANDS") or f"{os.environ.get('PATH', '')}:/usr/sbin:/sbin")


def missing():
    """The Debian packages that are not installed, of those that a lab needs."""
    lacks = [package for name, package in NEEDS.items() if found(name) is None]
    plugins = list(pathlib.Path("/usr/lib").glob("*/slurm*/select_cons_tres.so"))
    return lacks + ([] if plugins else [PLUGINS])


def has_lua():
    """Whether this Slurm can load job_submit.lua."""
    return bool(list(pathlib.Path("/usr/lib").glob("*/slurm*/job_submit_lua.so")))


def until(holds, patience=PATIENCE, pause=0.1):
    """Whether something holds within so many seconds, and what it came to last."""
    end = time.monotonic() + patience
    while not (come := holds()) and time.monotonic() < end:
        time.sleep(pause)
    return come


def free_ports(count):
    """Ports at which nothing listens now."""
    ports = []
    while len(ports) < count:
        port = random.choice(PORTS)
        with socket.socket() as some:
            some.setsockopt(socket.SOL_SOCKET, socket.SO_REUSEADDR, 1)
            if port not in ports and some.connect_ex(("127.0.0.1", port)) != 0:
                ports.append(port)
    return ports


def own_address():
    """The address of this machine's name, if it has one."""
    try:
        return socket.gethostbyname(socket.gethostname())
    except OSError:
        return ""


class NotStarted(Exception):
    """The lab does not start; the text says what the daemons said."""


class Lab:
    """The cluster, its folder, and its daemons by name: `controller`, and the nodes."""

    # where the controller is
    host = "127.0.0.1"

    def __init__(self, slots=SLOTS, bandwidths=BANDWIDTHS):
        self.slots, self.bandwidths, self.user = slots, dict(zip(NODES, bandwidths)), pwd.getpwuid(os.getuid()).pw_name
        self.folder = pathlib.Path(tempfile.mkdtemp(prefix="fetohamu-slurm-"))
        # users other than the lab's read the configuration
        self.folder.chmod(0o755)
        self.supervisor, self.daemons, self.configuration = Supervisor(self.folder), {}, self.folder / "slurm.conf"
        self.environment = {"SLURM_CONF": str(self.configuration)}

    def __enter__(self):
        try:
            for name in "state", "log", "munge", "jobs", *(f"spool/{node}" for node in NODES):
                (self.folder / name).mkdir(parents=True)
            self.start_munge()
            self.start()
        except BaseException:
            self.close()
            raise
        return self

    def __exit__(self, *_):
        self.close()

    def close(self):
        self.supervisor.close()

    # daemons

    def start(self, attempts=3):
        """Starts Slurm. If a port was taken meanwhile, it starts again with others."""
        for _ in range(attempts):
            self.write_configuration()
            for name in "controller", *NODES:
                self.start_daemon(name)
            if until(lambda: self.ended() or self.idle() == len(NODES), pause=0.05) and not self.ended():
                return
            for daemon in self.daemons.values():
                daemon.kill()
        raise NotStarted("Slurm does not start on this machine: " + self.last_words())

    def start_munge(self):
        """Starts munged, and waits for its socket."""
        folder = self.folder / "munge"
        key = folder / "key"
        key.write_bytes(secrets.token_bytes(128))
        key.chmod(0o600)
        # other users reach the socket, and munged wants it so
        folder.chmod(0o755)
        words = ["--foreground", "--force", f"--key-file={key}", f"--socket={folder}/socket", f"--pid-file={folder}/pid",
                 f"--seed-file={folder}/seed", f"--log-file={self.folder}/log/munged", "--num-threads=1"]
        munged = self.supervisor.start([found("munged"), *words], self.folder / "log/munged.said")
        if not until((folder / "socket").exists, pause=0.01) or munged.status() is not None:
            raise NotStarted("munged does not start on this machine: " + (self.folder / "log/munged.said").read_text().strip()[-300:])

    def start_daemon(self, name):
        """Starts the controller, or the slurmd of a node."""
        words = [found("slurmctld"), "-D"] if name == "controller" else [*self.inside(name), found("slurmd"), "-D", "-N", name]
        self.daemons[name] = self.supervisor.start(words, self.folder / f"log/{name}.said", **self.environment)

    def inside(self, node):
        """The words that run a command where a node is."""
        return []

    def address(self, node):
        return "127.0.0.1"

    def restart(self, name, by=signal.SIGTERM):
        """Ends a daemon by a signal, and starts it again. Jobs go on."""
        self.daemons[name].signal(by)
        status = self.daemons[name].wait()
        self.start_daemon(name)
        return status

    def ended(self):
        """The daemons that ended."""
        return [name for name, daemon in self.daemons.items() if daemon.status() is not None]

    def last_words(self):
        """What the daemons said last that is an error."""
        lines = [f"{name}: {line}" for name in ("controller", *NODES) for line in self.said(name) if "error" in line or "fatal" in line]
        return "; ".join(lines[-3:]) or "no node is idle"

    def said(self, name):
        file = self.folder / f"log/{name}.said"
        return file.read_text(errors="replace").splitlines() if file.exists() else []

    def idle(self):
        """How many nodes are idle."""
        return len(set(self.run("sinfo", "-h", "-N", "-t", "idle", "-o", "%N").stdout.split()))

    # commands

    def run(self, *words, user=None, **environment):
        """Runs a command of Slurm, as a user if one is named, which only root may."""
        how = {"user": user, "group": pwd.getpwnam(user).pw_gid, "extra_groups": [], "cwd": "/"} if user else {}
        return subprocess.run([found(words[0]), *words[1:]], env={**os.environ, **self.environment, **environment}, stdin=subprocess.DEVNULL,
                              capture_output=True, text=True, timeout=PATIENCE, **how)

    def did(self, *words, **how):
        """What a command of Slurm prints; it has to succeed."""
        done = self.run(*words, **how)
        if done.returncode:
            raise RuntimeError(f"{' '.join(words)}: {(done.stderr or done.stdout).strip()}")
        return done.stdout.strip()

    # configuration

    def write_configuration(self):
        """Writes slurm.conf, and job_submit.lua if this Slurm can load it."""
        controller, *ports = free_ports(1 + len(NODES))
        # daemons listen on all addresses, or on that which the name of this machine has: if that is a loopback address, on this alone
        is_local = self.host.startswith("127.") and own_address().startswith("127.")
        if has_lua():
            # the lab's user is an administrator
            text = (ROOT / "examples/slurm/job_submit.lua").read_text()
            (self.folder / "job_submit.lua").write_text(text.replace("[0] = true", f"[{os.getuid()}] = true"))
        nodes = [f"NodeName={name} NodeHostname=localhost NodeAddr={self.address(name)} Port={port} CPUs={self.slots} "
                 f"Gres={self.gres(name)} State=UNKNOWN" for name, port in zip(NODES, ports)]
        text = self.lines() + COMMON.format(
            host=f"{socket.gethostname().partition('.')[0]}({self.host})", user=self.user, folder=self.folder, port=controller,
            local="NoInAddrAny,NoCtldInAddrAny" if is_local else "", nodes="\n".join(nodes))
        # Slurm reads no option that has no value
        self.configuration.write_text("".join(line for line in text.splitlines(True) if not line.endswith("=\n")))

    def gres(self, node):
        return f"bandwidth:{self.bandwidths[node]}"

    def lines(self):
        """How jobs are placed: the lines that docs/slurm.md asks for."""
        return f"""\
SelectTypeParameters=CR_Core
JobSubmitPlugins={"lua" if has_lua() else ""}
PartitionName=net Nodes=ALL MaxNodes=1 Default=YES State=DOWN
PartitionName=netrun Nodes=ALL MaxNodes=1 State=UP
"""


# what is not the default is due to a cluster without systemd and cgroups on one machine, or shortens a test. A node that does not respond for
# a while returns to service; one that is set DOWN stays so. The last lines are times after which Slurm gives something up, or kills it: long
# ones, since daemons and jobs may wait for a processor
COMMON = """\
ClusterName=lab
SlurmctldHost={host}
CommunicationParameters={local}
SlurmUser={user}
SlurmdUser={user}
AuthType=auth/munge
CredType=cred/munge
AuthInfo=socket={folder}/munge/socket
StateSaveLocation={folder}/state
SlurmdSpoolDir={folder}/spool/%n
SlurmctldPidFile={folder}/controller.pid
SlurmdPidFile={folder}/%n.pid
SlurmctldPort={port}
ProctrackType=proctrack/linuxproc
TaskPlugin=task/none
JobAcctGatherType=jobacct_gather/none
MpiDefault=none
SwitchType=switch/none
SlurmdParameters=config_overrides
LaunchParameters=disable_send_gids
SelectType=select/cons_tres
SchedulerParameters=batch_sched_delay=0,sched_interval=5,bf_interval=5
GresTypes=bandwidth
ReturnToService=1
MinJobAge=3600
MessageTimeout=100
SlurmdTimeout=600
BatchStartTimeout=300
KillWait=60
UnkillableStepTimeout=600
{nodes}
"""
