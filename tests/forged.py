"""What a member of a cluster can forge, and how long it stays: cases for tests/secured.py, by the orders of registers in docs/model.md."""
import collections

import hostile
import lined
from outlived import packet_of

JOB, TASK, MACHINE = hostile.JOB, hostile.TASK, hostile.MACHINE
MOST, MOST_ATTEMPT, MOST_PRICE, MOST_WRITER, MOST_SLOTS, MOST_NIC = 2 ** 64 - 1, 2 ** 32 - 1, 10 ** 9, 64, 1000, 10 ** 6
OTHER = JOB[:-1] + "2"
JOBS, TASKS, MACHINES, WAITING = ({"ask": "list", "of": kind} for kind in ("jobs", "tasks", "machines", "waiting"))
NO_VERSION, NO_ATTEMPT = b"refusal 14\n", b"refusal 15\n"

# the operation, the strongest that an operator can tell against it, a question with its answer then, and what the next number is asked of
Lasting = collections.namedtuple("Lasting", "name forged against question answer of next")
# the operation, what ends it, a question, and its answer before that, and behind that and a round, which places the task
Passing = collections.namedtuple("Passing", "name forged against question before behind")


def op(kind, **other):
    return {kind: {**hostile.OPERATIONS[kind], **other}}


def greatest(kind, **other):
    """A register that no other version and writer beat."""
    return op(kind, **{"version": MOST, "writer": MOST_WRITER, **({"incarnation": MOST} if kind == "machine" else {}), **other})


def used(amount):
    """The last report of a machine that there can be."""
    return op("report", incarnation=MOST, number=MOST, used=amount)


AT_MOST = {"machine": MACHINE, "incarnation": MOST}
LASTING = (
    Lasting("a job that is withdrawn", greatest("job", withdrawn=True, wait=MOST_PRICE, preempt=MOST_PRICE),
            [greatest("job", wait=MOST_PRICE, preempt=MOST_PRICE)], JOBS, f"job {JOB} {MOST} 64 true {MOST_PRICE} {MOST_PRICE}\n",
            {"job": JOB}, NO_VERSION),
    Lasting("a task that is withdrawn", greatest("spec", withdrawn=True), [greatest("spec", request=MOST_NIC)], WAITING, "", {"task": TASK},
            b"next 1\nok\n"),
    Lasting("a task that is done", op("progress", attempt=MOST_ATTEMPT, phase="done"),
            [op("progress", attempt=MOST_ATTEMPT, phase="running"), op("spec", version=MOST)],
            TASKS, f"task {TASK} {MOST_ATTEMPT} done {MOST} 1 {JOB} 100 over\n", {"task": TASK}, NO_ATTEMPT),
    Lasting("a machine that is full", used(MOST_PRICE), [greatest("machine", slots=MOST_SLOTS, nic=MOST_NIC), used(0)], MACHINES,
            f"machine {MACHINE} {MOST} {MOST} 64 open {MOST_SLOTS} {MOST_NIC} 0 {MOST_PRICE} -\n", AT_MOST, NO_VERSION),
    Lasting("a machine of the greatest size", greatest("machine", slots=MOST_SLOTS, nic=MOST_NIC),
            [greatest("machine", up=False, slots=1, nic=0)], MACHINES,
            f"machine {MACHINE} {MOST} {MOST} 64 open {MOST_SLOTS} {MOST_NIC} 0 0 {MOST_NIC}\n", AT_MOST, NO_VERSION))
PASSING = (
    Passing("a job at a lesser version", op("job", version=MOST - 1, writer=MOST_WRITER, withdrawn=True), [op("job", version=MOST)], JOBS,
            f"job {JOB} {MOST - 1} 64 true 500 800\n", f"job {JOB} {MOST} 1 false 500 800\n"),
    Passing("a task at a lesser version", op("spec", version=MOST - 1, writer=MOST_WRITER, withdrawn=True), [op("spec", version=MOST)],
            TASKS, f"task {TASK} 0 pending {MOST - 1} 64 {JOB} 100 over\n", f"task {TASK} 0 pending {MOST} 1 {JOB} 100 held {MACHINE}\n"),
    Passing("a use that is reported", op("report", incarnation=1, number=MOST, used=MOST_PRICE), [op("machine", incarnation=2)],
            MACHINES, f"machine {MACHINE} 1 1 1 open 2 1000 0 {MOST_PRICE} -\n", f"machine {MACHINE} 2 1 1 open 2 1000 1 100 900\n"),
    Passing("a machine that is closed", greatest("machine", up=False), [greatest("machine", up=True)], MACHINES,
            f"machine {MACHINE} {MOST} {MOST} 64 closed 2 1000 0 0 -\n", f"machine {MACHINE} {MOST} {MOST} 64 open 2 1000 1 100 900\n"),
    Passing("a place on no machine", op("propose", machine="0" * 32, incarnation=0), [], TASKS,
            f"task {TASK} 0 pending 1 1 {JOB} 100 waiting\n", f"task {TASK} 1 pending 1 1 {JOB} 100 held {MACHINE}\n"))
ALIVE = op("job"), op("machine"), op("spec"), op("report", incarnation=1, used=10)


def asked(program, *values):
    """The answers of a stream whose coordinator 1 is told of what is alive, and then gets these lines; an operation is told."""
    lines = [value if value.keys() & {"ask", "take", "round", "renew"} else {"tell": value} for value in (*ALIVE, *values)]
    stream = [{"coordinators": [1]}, *(line if "renew" in line else {"at": 1, **line} for line in lines)]
    return lined.answers(program, lined.lines(*stream))[1 + len(ALIVE):]


def take(*told):
    return {"take": packet_of(told).hex()}


def lasting(program):
    """What a member forges with the greatest version, incarnation or attempt stays, whatever is told against it; other things end."""
    for case in LASTING:
        *accepted, answer, number = asked(program, take(case.forged), *case.against, case.question, {"ask": "next", **case.of})
        yield "%s stays: %r, %r" % (case.name, answer, number), (answer, number) == (case.answer.encode() + b"ok\n", case.next)
        yield "%s: nothing was refused" % case.name, set(accepted) == {b"ok\n"}
    for case in PASSING:
        _, before, *accepted, _, behind = asked(program, take(case.forged), case.question, *case.against, {"round": True}, case.question)
        yield "%s: %r" % (case.name, before), before == case.before.encode() + b"ok\n"
        yield "%s ends: %r" % (case.name, behind), behind == case.behind.encode() + b"ok\n" and set(accepted) <= {b"ok\n"}
    yield from told_elsewhere(program)
    many = [op("job", id="00000000-0000-0000-0000-%012x" % n) for n in range(1000, 2000)]
    answers = asked(program, take(*many), {"renew": True}, {"ask": "size"})
    yield "records of nothing stay, behind a renewal too", answers[-1].startswith(b"jobs 1001\n")


def told_elsewhere(program):
    """What runs is to be stopped once its job is forged, and is held again once its spec names another job."""
    stops = {"ask": "stops"}
    _, first, _, then, _, _, task = asked(program, {"round": True}, stops, take(greatest("job", withdrawn=True)), stops,
                                          op("job", id=OTHER), op("spec", version=2, job=OTHER), TASKS)
    yield "what runs is to be stopped: %r" % then, (first, then) == (b"ok\n", f"stop {TASK} 0 {MACHINE} 1\nok\n".encode())
    yield "a task of another job: %r" % task, task == f"task {TASK} 0 pending 2 1 {OTHER} 100 held {MACHINE}\nok\n".encode()
