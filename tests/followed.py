#!/usr/bin/env python3
"""What `firmament follow` answers to the lines of a stream, worked out by docs/formats.md alone, on the coordinators of
tests/reference.py.

    tests/followed.py [--renew-after N] < LINES

Which least flow is found is not said. So a solution, a plan and what a round placed are not foretold if an answer was seen:
they are judged. A solution is a flow of the least cost that tests/witness.py finds; a plan is one that such a flow comes to, of
which nothing needs to be listed; and of a round's plan, or of the part of it that the round is asked for, each answer is worked
out, and what was admitted is taken in. If nothing was seen, one answer that may come is made.
"""
import argparse
import json
import pathlib
import re
import sys

import reasons
import reference
import rounds
import strict
import witness

RENEW_AFTER = 100000
MOST_ENTRIES = 1000000
VERSION = (pathlib.Path(__file__).resolve().parent.parent / "VERSION").read_text().strip()
TOPICS = "graph", "solve", "plan", "winners", "list", "stops", "end", "size", "over"
# the members that say whose next version or attempt is asked for
SUBJECTS = {"job": {"job"}, "machine": {"machine", "incarnation"}, "task": {"task"}}
STRANGE = reference.Why(16, "the line is none that can be asked now, by its form or by a member")
VERSIONS_SPENT = reference.Why(14, "the known version is 18446744073709551615, the greatest")
ATTEMPTS_SPENT = reference.Why(15, "the known attempt is 4294967295, the greatest")
# what a line is checked by
CHECK = b'{"ask":"check","line":%s}'
END = re.compile(rb"ok\n|refusal [0-9]+\n")
PLACE = re.compile(r"place (\S{36}) (\S{36}) ([0-9]+)(?: \S+)?")
PREEMPT = re.compile(r"preempt (\S{36}) ([0-9]+)(?: \S+)?")


class Refused(Exception):
    """The line is refused, by that number and for that cause."""

    def __init__(self, why):
        super().__init__(why)
        self.why = why


def lines_of(text):
    """The lines of a stream, without their line feeds: what stands behind the last line feed is one, if it is not empty."""
    lines = text.split(b"\n")
    return lines if lines[-1] else lines[:-1]


def answers_in(out):
    """The answers one after another, each with its last line, and what stands behind them."""
    found, begin = [], 0
    answer = b""
    while (feed := out.find(b"\n", begin)) >= 0:
        line = out[begin:feed + 1]
        answer, begin = answer + line, feed + 1
        if END.fullmatch(line):
            found, answer = found + [answer], b""
    return found, answer + out[begin:]


# lines

def value_in(line):
    """The value that the line spells."""
    if len(line) > strict.LINE:
        raise Refused(STRANGE)
    try:
        return strict.read_json(line)
    except (strict.Strange, RecursionError):
        raise Refused(STRANGE)


def is_check(value):
    """Whether a line of the value asks to check another one."""
    return type(value) is dict and value.keys() == {"ask", "line"} and value["ask"] == "check" and type(value["line"]) is dict


def request_in(value, names):
    """What a line of the value asks for, as a kind and what belongs to it, given that packets of the names were cut before."""
    request = None
    if type(value) is dict and len(value) == 1:
        request = alone(*next(iter(value.items())))
    if type(value) is dict and len(value) == 2 and strict.fits(value.get("at"), strict.U8):
        (kind, asked), = ((key, given) for key, given in value.items() if key != "at")
        request = at_one(value["at"], kind, asked, names)
    if type(value) is dict and len(value) > 2 and strict.fits(value.get("at"), strict.U8):
        request = of_more(value["at"], value)
    if request is None:
        raise Refused(STRANGE)
    return request


def of_more(at, value):
    """What a line with the number of a coordinator and further members asks for, or None."""
    members = value.keys() - {"at"}
    if members == {"news", "mine"}:
        return ("own_news", at) if value["news"] is value["mine"] is True else None
    if members == {"ask", "of"} and value["ask"] == "list":
        return ("listing", at, value["of"]) if value["of"] in reference.LISTED else None
    if members == {"ask", "task"} and value["ask"] == "why":
        return ("why", at, id_of(value["task"])) if strict.fits(value["task"], "id") else None
    for kind, of in SUBJECTS.items():
        if members == {"ask"} | of and value["ask"] == "next":
            incarnation = value.get("incarnation", 0)
            fine = strict.fits(value[kind], "id") and strict.fits(incarnation, strict.U64)
            return ("next_one", at, kind, id_of(value[kind]), incarnation) if fine else None
    return None


def id_of(text):
    """The number that an id in any of its forms spells."""
    return reference.number(strict.canonical(text, "id"))


def alone(kind, asked):
    """What a line of one member asks for, or None."""
    if kind == "coordinators":
        return ("open", asked) if strict.are_numbers(asked) else None
    if kind == "renew":
        return ("renew",) if asked is True else None
    return (asked,) if kind == "ask" and asked in ("agree", "version") else None


def at_one(at, kind, asked, names):
    """What a line with the number of a coordinator asks for, or None."""
    if kind == "news":
        return ("news", at) if asked is True else None
    if kind == "take":
        return ("take", at, asked) if type(asked) is str else None
    if kind == "ask":
        return ("ask", at, asked) if type(asked) is str and asked in TOPICS else None
    if kind == "cut" and type(asked) is dict and "name" not in asked:
        read = strict.read_cut({**asked, "name": ""}, set())
        return read and ("act", {"at": at, "cut": {**read, "name": None}})
    step = strict.read_step({"at": at, kind: asked}, set(names))
    return step and ("act", step)


def packet_of(digits):
    """The packet that hexadecimal digits spell."""
    if not re.fullmatch("(?:[0-9a-fA-F]{2})*", digits):
        raise Refused(STRANGE)
    spelled = bytes.fromhex(digits)
    packet, fault = reference.packet_in(spelled), reference.fault_in(spelled)
    assert (packet is None) != (fault is None), "two readers of packets say something else of %s" % digits
    if packet is None:
        raise Refused(reference.Why(6, "the digits are no packet: see byte %d" % fault))
    return packet


# plans

def network_of(known):
    """The nodes in order, the arcs, and the least cost of a flow with the units of one, by the ends of arcs."""
    nodes, arcs = reference.network(known)
    numbers = {node: place for place, node in enumerate(nodes)}
    tasks = [node for node in nodes if node[0] == 4]
    balance = {numbers[task]: 1 for task in tasks}
    balance[0] = -len(tasks)
    listed = [(numbers[source], numbers[target], *of) for (source, target), of in sorted(arcs.items())]
    cost, units = witness.least_flow(balance, listed) if tasks else (0, {})
    return nodes, arcs, cost, {(nodes[source], nodes[target]): many for (source, target), many in units.items()}


def least_plan(known):
    """A plan that a least flow comes to: its places and its preempts."""
    _, _, _, units = network_of(known)
    chosen = {source: target for source, target in units if source[0] == 4}
    seats = {ends: many for ends, many in units.items() if ends[0][0] == 2}
    return rounds.plan_of(known, chosen, seats)


def is_least_plan(known, places, preempts):
    """Whether some least flow comes to the plan. A task goes straight to a machine that it prefers, if there is such an arc: that
    costs no more than by its request, if it would take a seat."""
    nodes, arcs, cost, _ = network_of(known)
    if not rounds.are_entries(known, places, preempts):
        return False
    waiting = {node[1] for node in nodes if node[0] == 4 and known.holder(node[1]) is None}
    held = {node[1]: known.holder(node[1]) for node in nodes if node[0] == 4 and node[1] not in waiting}
    units = flow_of(known, arcs, waiting, held, places, {task for task, _ in preempts})
    if units is None or any(many > arcs[ends][0] for ends, many in units.items()):
        return False
    return sum(arcs[ends][1] * many for ends, many in units.items()) == cost


def flow_of(known, arcs, waiting, held, places, preempted):
    """The units by which each placed task goes to its machine, and each other one waits, stays or is preempted; None if an arc
    is not there, or if tasks of one request and their machines do not rise together."""
    units, last = {}, {}
    hosts = {task: machine for task, machine, _ in places}
    for task in sorted(waiting | held.keys()):
        node, request, job = (4, task), (2, known.specs[task][4]), (1, known.specs[task][3])
        host = hosts.get(task, None if task in preempted else held.get(task))
        if host is None:
            path = [node, job, (0, 0)]
        elif (node, (3, host)) in arcs:
            path = [node, (3, host), (0, 0)]
        else:
            path = [node, request, (3, host), (0, 0)]
            if host < last.get(request, host):
                return None
            last[request] = host
        for ends in zip(path, path[1:]):
            if ends not in arcs:
                return None
            units[ends] = units.get(ends, 0) + 1
    return units


def plan_in(text):
    """The plan that the lines of a plan or of a round say, or None."""
    places, preempts = [], []
    for line in text.splitlines():
        place, preempt = PLACE.fullmatch(line), PREEMPT.fullmatch(line)
        try:
            if place and not preempts:
                places.append((reference.number(place[1]), reference.number(place[2]), int(place[3])))
            elif preempt:
                preempts.append((reference.number(preempt[1]), int(preempt[2])))
            else:
                return None
        except ValueError:
            return None
    return places, preempts


def plan_seen(known, seen):
    """The plan that the text says, if some least flow comes to it, else another one."""
    found = plan_in(seen)
    return found if found and is_least_plan(known, *found) else least_plan(known)


def part_seen(known, share, seen):
    """The part of a plan that the text says, if it is the share of what some least flow comes to, else another one."""
    if share in (True, {}):
        return plan_seen(known, seen)
    nodes, arcs, cost, _ = network_of(known)
    found = plan_in(seen)
    is_one = found and rounds.is_least_part(known, nodes, arcs, cost, share, found)
    return found if is_one else rounds.part_of(known, share, *least_plan(known))


def plan_lines(plan):
    """The lines of a plan, without line feeds."""
    places, preempts = plan
    return ["place %s %s %d" % (reference.name(task), reference.name(machine), incarnation) for task, machine, incarnation in places] \
        + ["preempt %s %d" % (reference.name(task), attempt) for task, attempt in preempts]


def solution(known, seen):
    """The text of a least flow: the one that was seen, if it is one."""
    dump = "".join(reference.graph(known))
    try:
        if witness.check(dump, seen) is None:
            return seen
    except (ValueError, IndexError, AssertionError):
        pass
    nodes, _, cost, units = network_of(known)
    numbers = {node: place for place, node in enumerate(nodes, 1)}
    flows = sorted((numbers[source], numbers[target], many) for (source, target), many in units.items())
    return "s %d\n" % cost + "".join("f %d %d %d\n" % flow for flow in flows)


def stops(known, coordinator):
    """The lines of the entries of a coordinator that are no present holding."""
    for task, attempt, proposer in sorted(known.spots):
        machine, incarnation = known.spots[task, attempt, proposer]
        is_now = known.attempt(task) == attempt and known.holder(task) == machine and known.incarnations[machine] == incarnation
        if proposer == coordinator and not is_now:
            yield "stop %s %d %s %d\n" % (reference.name(task), attempt, reference.name(machine), incarnation)


# streams

class Stream:
    """The coordinators of a stream, and what its lines answer."""

    def __init__(self, renew_after=RENEW_AFTER):
        self.renew_after, self.world, self.entries, self.ends = renew_after, None, {}, {}
        # of each delta of a coordinator, whether it is its own, and how many of them were looked at for its own news
        self.are_own, self.own_ends = {}, {}
        # of each coordinator that was asked, how many sets it had taken in then, and what it knew
        self.views = {}

    def answer(self, line, seen=b""):
        """What is answered to the line: if several answers may come, the one that was seen, if it is one of them."""
        try:
            value = value_in(line)
            if is_check(value):
                # nothing changes, and nothing is renewed
                return self.checked(value["line"]).encode() + b"ok\n"
            text = self.text(value, seen.rpartition(b"ok\n")[0].decode("utf-8", "replace"))
        except Refused as refused:
            return b"refusal %d\n" % refused.why.number
        if any(count >= self.renew_after for count in self.entries.values()):
            self.renew()
        return text.encode() + b"ok\n"

    def text(self, value, seen):
        kind, *asked = self.request(value)
        return getattr(self, kind)(*asked, *[seen] * (kind in ("ask", "why", "act"))) or ""

    def checked(self, value):
        """What is said of a line of the value: whether it would be answered now by a refusal, and why."""
        try:
            if not is_check(value):
                self.request(value)
        except Refused as refused:
            return "refused %d\n%s\n" % refused.why
        return "accepted\n"

    def request(self, value):
        """What a line of the value asks for, if it is not refused now. Nothing happens."""
        kind, *asked = request_in(value, self.world.packets if self.world else ())
        if (kind == "open") != (self.world is None):
            raise Refused(STRANGE)
        if kind == "take":
            # the digits are read before anybody is looked for
            asked[1] = packet_of(asked[1])
        if kind in ("news", "own_news", "take", "ask", "why", "listing", "next_one") and asked[0] not in self.world.coordinators:
            raise Refused(reference.nobody(asked[0]))
        why = self.world.why_not(**asked[0]) if kind == "act" else None
        if why:
            raise Refused(why)
        if kind == "next_one":
            self.next_one(*asked)
        return kind, *asked

    def open(self, numbers):
        self.world = reference.World({"coordinators": numbers, "steps": []})
        self.entries, self.ends, self.own_ends = (dict.fromkeys(numbers, 0) for _ in range(3))
        self.views = {}
        self.are_own = {number: [] for number in numbers}

    def renew(self):
        """Each coordinator took in all that it knew, at once, and nothing else happened."""
        known = {number: of.taken for number, of in self.world.coordinators.items()}
        self.open(list(known))
        for number, operations in known.items():
            self.world.coordinators[number].take(operations)
            self.entries[number] = 1
            self.are_own[number] = [True]

    def act(self, step, seen):
        """What happens as in a script."""
        at = step["at"]
        if "round" in step:
            return self.committed(at, part_seen(self.known(at), step["round"], seen))
        if "relieve" in step:
            return self.committed(at, ([], reference.relief_preempts(self.known(at))))
        refused = self.world.act(**step)
        assert refused is None, "what is not refused is refused by %s" % refused
        self.entries[at] += 1
        self.are_own[at] += [True] * ("tell" in step) + [False] * ("deliver" in step)
        return self.digits(step["cut"]["name"]) if "cut" in step else ""

    def digits(self, name):
        """The digits of the packet of the name, which nobody delivers if it has none."""
        packet = self.world.packets[name] if name is not None else self.world.packets.pop(None)
        return reference.packed(packet)[1]

    def news(self, at):
        sender, end = self.world.coordinators[at], self.ends[at]
        self.ends[at] = len(sender.sets)
        since = {"from": end, "to": len(sender.sets)} if sender.floor <= end else {}
        return self.act({"at": at, "cut": {"name": None, **since}}, "")

    def own_news(self, at):
        sender, mark, are_own = self.world.coordinators[at], self.own_ends[at], self.are_own[at]
        if sender.floor > mark:
            self.own_ends[at] = len(are_own)
            return self.act({"at": at, "cut": {"name": None}}, "")
        # a sentinel of each kind behind the last
        first = (are_own + [True]).index(True, mark)
        behind = (are_own + [False]).index(False, first)
        self.own_ends[at] = behind
        return self.act({"at": at, "cut": {"name": None, "from": first, "to": behind}}, "") if first < behind else ""

    def take(self, at, packet):
        self.world.coordinators[at].take(packet.operations)
        self.entries[at] += 1
        # a packet of a renewal has the number 0, and no other
        self.are_own[at].append(packet.number == 0)

    def committed(self, at, plan):
        """The lines of a plan that is committed, with what is admitted of it."""
        coordinator = self.world.coordinators[at]
        admission = rounds.Admission(reference.Known, reference.name, frozenset(coordinator.taken), at)
        answers = sum(admission.plan(*plan), [])
        coordinator.take(admission.added)
        self.entries[at] += 1
        self.are_own[at].append(True)
        return "".join("%s %s\n" % line for line in zip(plan_lines(plan), answers))

    def known(self, at):
        """What the coordinator knows: worked out when it is asked first after it took something in."""
        coordinator = self.world.coordinators[at]
        if at not in self.views or self.views[at][0] < len(coordinator.sets):
            self.views[at] = len(coordinator.sets), reference.Known(coordinator.taken)
        return self.views[at][1]

    def ask(self, at, topic, seen):
        known = self.known(at)
        if topic == "solve":
            return solution(known, seen)
        if topic == "plan":
            return "".join(line + "\n" for line in plan_lines(plan_seen(known, seen)))
        if topic == "stops":
            return "".join(stops(known, at))
        if topic == "end":
            return "end %d %d\n" % (self.world.coordinators[at].floor, len(self.world.coordinators[at].sets))
        if topic == "size":
            return self.size(at, known)
        return "".join({"graph": reference.graph, "winners": reference.winners, "list": reference.listing, "over": reference.over}[topic](known))

    def size(self, at, known):
        """How much the coordinator knows, what it keeps of how it came to know it, and how large a packet of all of it is."""
        coordinator = self.world.coordinators[at]
        whole = reference.packed(reference.Packet(at, coordinator.cuts + 1, coordinator.taken))[1]
        kept = {"entries": self.entries[at], "limit": MOST_ENTRIES, "first": coordinator.floor, "next": len(coordinator.sets),
                "packet": len(whole) // 2}
        return "".join("%s %d\n" % line for line in {**reference.sizes(known), **kept}.items())

    def why(self, at, task, seen):
        """Why the task waits or runs: the text that was seen, if it may be said."""
        found = reasons.texts_by_flows(self.known(at), task)
        return seen if any(reasons.is_said(seen, said) for said in found) else found[0].text

    def listing(self, at, of):
        """The lines of the records of a kind that the coordinator knows."""
        return "".join(reference.listing(self.known(at), of))

    def next_one(self, at, kind, of, incarnation):
        """The next version or attempt of what is named, if there is a greater one."""
        number = reference.next_number(self.known(at), kind, of, incarnation)
        if number > (strict.U32 if kind == "task" else strict.U64):
            raise Refused(ATTEMPTS_SPENT if kind == "task" else VERSIONS_SPENT)
        return "next %d\n" % number

    def agree(self):
        return reference.agree(self.world)[1]

    def version(self):
        return "firmament %s FDG1 FDG2\n" % VERSION


def foretold(text, renew_after=RENEW_AFTER):
    """Answers that may come to the lines of a text."""
    stream = Stream(renew_after)
    return [stream.answer(line) for line in lines_of(text)]


def with_checks(text, is_chosen=lambda line: True):
    """The stream in which each line that is chosen is checked before it is sent. What is no JSON object cannot be part of a line."""
    found = []
    for line in lines_of(text):
        if is_object(line) and is_chosen(line):
            found.append(CHECK % line)
        found.append(line)
    return b"".join(line + b"\n" for line in found)


def is_object(line):
    """Whether the line spells an object, as far as it is to be put into another line."""
    try:
        return type(json.loads(line)) is dict
    except (ValueError, RecursionError):
        return False


def foretold_of(line, following, said, answer):
    """What a check that was answered had said of the line behind it, and something else came; or None."""
    if line != CHECK % following or not is_object(following) or not said.endswith(b"ok\n") or answer in (b"", b"refusal 1\n"):
        return None
    refused = re.fullmatch(rb"refused ([0-9]+)\n[^\n]+\nok\n", said)
    came = answer == b"refusal %s\n" % refused[1] if refused else said == b"accepted\nok\n" and answer.endswith(b"ok\n")
    return None if came else "%r was checked: %r, and then %r came" % (following[:300], said, answer[-300:])


def wrong(text, out, renew_after=RENEW_AFTER, passed_over=None):
    """What is wrong with the answers to the lines of a text, or None. A line with the answer that is passed over changed nothing. What a
    check of the next line said is what came."""
    stream, (given, rest) = Stream(renew_after), answers_in(out)
    lines = lines_of(text)
    said = map(foretold_of, lines, lines[1:], given, given[1:])
    broken = next(filter(None, said), None)
    if broken:
        return broken
    for place, line in enumerate(lines):
        seen = given[place] if place < len(given) else b""
        wanted = seen if seen and seen == passed_over else stream.answer(line, seen)
        if seen != wanted:
            return "line %d, %r: %r, and not %r" % (place + 1, line[:300], seen[-300:], wanted[-300:])
    return "%d answers to %d lines, and %r" % (len(given), len(lines), rest[:100]) if rest or len(given) > len(lines) else None


def main():
    words = argparse.ArgumentParser(description=__doc__, formatter_class=argparse.RawDescriptionHelpFormatter)
    words.add_argument("--renew-after", type=int, default=RENEW_AFTER)
    words = words.parse_args()
    stream, rest = Stream(words.renew_after), b""
    while True:
        piece = sys.stdin.buffer.read1(1 << 16)
        *lines, rest = (rest + piece).split(b"\n")
        for line in lines + ([rest] if rest and not piece else []):
            sys.stdout.buffer.write(stream.answer(line))
            sys.stdout.buffer.flush()
        if not piece:
            return


if __name__ == "__main__":
    main()
