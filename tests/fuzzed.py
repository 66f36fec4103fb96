"""Draws the cases of tests/fuzz: the words of a run, and its input. All of a case comes from one source of chance."""
import json
import uuid

import followed
import reference
import strict

PHASES = ("pending", "running", "done")
NAMES = ("a", "b", "news", "", "W\u00f6rter \u2192", 'a "quote"', "tab\tand \\", "\U0001f600", "-x", "--", "at")
LARGE = (2 ** 31, 2 ** 32 - 1, 2 ** 63 - 1, 2 ** 63, 2 ** 64 - 1)
TOKENS = ("null", "true", "false", "0", "1", "-1", "-0", "0.0", "1.0", "1e0", "1E+2", "-1.5e-3", "255", "256", "64", "65", "1000",
          "1001", "1000000", "1000001", "1000000000", "1000000001", "4294967295", "4294967296", "18446744073709551615",
          "18446744073709551616", "-9223372036854775808", "-9223372036854775809", "123456789012345678901234567890", "1e308",
          "1e309", "1e-400", "9" * 400, "\"\"", "\"x\"", "\"done\"", "\"Done\"", "[]", "{}", "[0]", "{\"id\":1}", "[[[]]]",
          "\"\\ud83d\\ude00\"", "\"\\u0000\"", "\"\\/\"")
BROKEN = ("NaN", "Infinity", "-", "+1", "01", "1.", ".5", "1e", "0x1", "tru", "nul", "TRUE", "'a'", "\"", "\"\\x\"", "\"\\u12\"",
          "\"\\ud800\"", "\"\\udc00x\"", "\"\\ud800\\u0041\"", "\"\t\"", "\"\n\"", "[,]", "[1,]", "{,}", "{\"a\"}", "{\"a\":}",
          "{1:2}", "{\"a\":1,}", "]", "}", "", "// x", "/* x */ 1", "\ufeff1", "\u00a01")
BYTES = (b"\x00", b"\x0b", b"\x0c", b"\x1f", b"\x7f", b"\x80", b"\xff", b"\xc3", b"\xc0\x80", b"\xed\xa0\x80", b"\xf4\x90\x80\x80",
         b"\xef\xbb\xbf", b"\xe2\x80\xa8", b" ", b"\t", b"\r", b"\n", b",", b":", b"\"", b"\\", b"[", b"]", b"{", b"}", b"-", b"0",
         b"e", b".", b"\\u", b"null")


class Raw(str):
    """A piece of JSON as it is to stand."""


class Draw:
    def __init__(self, chance):
        self.chance = chance
        self.odds = chance.random

    def one_of(self, choices):
        return self.chance.choice(choices)

    def number(self, least, most):
        """A number within limits, mostly near one of them, and seldom beyond."""
        draw = self.odds()
        if draw < 0.5:
            return self.chance.randint(least, min(most, least + 3))
        if draw < 0.7:
            return self.chance.randint(max(least, most - 3), most)
        return self.chance.randint(least, most) if draw < 0.985 else self.one_of((most + 1, max(0, least - 1)))

    def whole(self, bits):
        draw = self.odds()
        if draw < 0.75:
            return self.chance.randint(0, 3)
        return self.one_of([n for n in LARGE if n < 2 ** bits]) if draw < 0.85 else self.chance.getrandbits(bits)

    def id(self, kind):
        """One of few ids, so that operations meet, in a form that UUIDs have; seldom any other."""
        number = self.chance.getrandbits(128) if self.odds() < 0.03 else self.chance.choice((1, 2, 3, 2 ** 128 - kind)) + 16 * kind
        text = str(uuid.UUID(int=number % 2 ** 128))
        draw = self.odds()
        if draw < 0.85:
            return text
        return self.one_of((text.upper(), text.replace("-", ""), "{%s}" % text, "urn:uuid:" + text, text.replace("-", "").upper(),
                            "{%s}" % text.upper()))

    def operation(self):
        register = {"version": self.whole(64), "writer": self.number(1, 64)}
        gone = self.odds() < 0.15
        job, machine, task = self.id(1), self.id(2), self.id(3)
        incarnation = self.one_of((1, 1, 1, self.whole(64)))
        attempt = self.one_of((0, 0, 1, self.whole(32)))
        return self.one_of((
            {"job": {"id": job, **register, "withdrawn": gone, "wait": self.number(0, 10 ** 9), "preempt": self.number(0, 10 ** 9)}},
            {"spec": {"id": task, **register, "withdrawn": gone, "job": job, "request": self.number(0, 10 ** 6)}},
            {"spec": {"id": task, **register, "withdrawn": gone, "job": job, "request": self.chance.randint(0, 500),
                      "prefer": self.prefer()}},
            {"progress": {"id": task, "attempt": attempt, "phase": self.one_of(PHASES)}},
            {"machine": {"id": machine, "incarnation": incarnation, **register, "up": not gone, "slots": self.number(1, 1000),
                         "nic": self.number(0, 10 ** 6)}},
            {"machine": {"id": machine, "incarnation": incarnation, **register, "up": True, "slots": 2, "nic": 10 ** 6}},
            {"report": {"id": machine, "incarnation": incarnation, "number": self.whole(64), "used": self.number(0, 10 ** 9)}},
            {"propose": {"id": task, "attempt": attempt, "coordinator": self.number(1, 64), "machine": machine,
                         "incarnation": incarnation}}))

    def prefer(self):
        """Machines that are preferred, mostly rising and four at most."""
        listed = [{"machine": self.id(2), "credit": self.number(0, 10 ** 9)} for _ in range(self.one_of((0, 1, 1, 2, 3, 4, 5)))]
        return sorted(listed, key=lambda entry: str(entry["machine"])) if self.odds() < 0.8 else listed

    def cluster(self):
        """Operations by which tasks are live and machines open, of the ids that others have too."""
        register, (job, *machines) = {"version": 1, "writer": 1}, (str(uuid.UUID(int=n)) for n in (17, 33, 34))
        yield {"job": {"id": job, **register, "withdrawn": False, "wait": self.number(0, 900), "preempt": self.number(0, 900)}}
        for machine in machines:
            yield {"machine": {"id": machine, "incarnation": 1, **register, "up": True, "slots": self.chance.randint(1, 3),
                               "nic": self.chance.randint(0, 1500)}}
        for task in range(49, 49 + self.one_of((1, 2, 3, 6))):
            task = str(uuid.UUID(int=task))
            yield {"spec": {"id": task, **register, "withdrawn": False, "job": job, "request": 100 * self.chance.randint(0, 5),
                            "prefer": [{"machine": machine, "credit": self.number(0, 900)} for machine in machines if self.odds() < 0.3]}}
            if self.odds() < 0.3:
                yield {"propose": {"id": task, "attempt": 0, "coordinator": 1, "machine": self.one_of(machines), "incarnation": 1}}

    def record(self, at):
        """A line that asks for a list of a kind, or for what is next."""
        return self.one_of(({"at": at, "ask": "list", "of": self.one_of(reference.LISTED)}, {"at": at, "ask": "next", "job": self.id(1)},
                            {"at": at, "ask": "next", "machine": self.id(2), "incarnation": self.one_of((1, 1, 1, self.whole(64)))},
                            {"at": at, "ask": "next", "task": self.id(3)}))

    # scripts

    def script(self):
        """A script as a tree, mostly one that is not refused."""
        coordinators = self.chance.sample(range(1, 65), self.one_of((1, 1, 2, 3, 5)))
        ends, names, steps = dict.fromkeys(coordinators, 0), [], []
        for op in self.cluster() if self.odds() < 0.5 else ():
            steps.append({"at": coordinators[0], "tell": op})
            ends[coordinators[0]] += 1
        if self.odds() < 0.95:
            steps += self.rounds_at(coordinators[0])
            ends[coordinators[0]] += len(steps)
        for _ in range(self.one_of((0, 2, 6, 12, 25))):
            at = self.one_of(coordinators) if self.odds() < 0.99 else self.chance.randint(0, 255)
            steps.append({"at": at, **self.act(ends.get(at, 0), names)})
            ends[at] = ends.get(at, 0) + (not {"tell", "deliver", "round", "relieve"}.isdisjoint(steps[-1]))
        return {"coordinators": coordinators, "steps": steps}, names

    def rounds_at(self, at):
        """Rounds at a coordinator with few operations between them."""
        for _ in range(self.one_of((2, 3, 3))):
            for _ in range(self.one_of((1, 1, 1, 2))):
                yield {"at": at, "tell": self.operation()}
            yield {"at": at, "relieve": True} if self.odds() < 0.1 else {"at": at, "round": self.share()}

    def share(self):
        """What a round is asked for by: mostly all of a plan, and seldom what is none."""
        if self.odds() < 0.65:
            return True
        asked = {}
        if self.odds() < 0.6:
            asked["writers"] = self.chance.sample(range(1, 65 if self.odds() < 0.3 else 4), self.one_of((1, 1, 2, 3)))
        if self.odds() < 0.5:
            asked["each"] = self.one_of((1, 1, 1, 2, 3, 2 ** 32 - 1))
        if self.odds() < 0.03:
            asked[self.one_of(("writers", "each", "more"))] = self.one_of(([], [1, 1], [0], [65], 0, 2 ** 32, True, None, {}))
        return asked

    def act(self, end, names):
        draw = self.odds()
        if draw < 0.6 or draw < 0.85 and not names:
            return {"tell": self.operation()}
        if draw < 0.72:
            return {"deliver": self.one_of(names)} if self.odds() < 0.97 else {"deliver": self.one_of(NAMES)}
        if draw < 0.9:
            left = [name for name in NAMES if name not in names] or NAMES
            cut = {"name": self.one_of(left if self.odds() < 0.97 else NAMES)}
            if self.odds() < 0.6:
                cut["from"], cut["to"] = sorted(self.chance.randint(0, end + (self.odds() < 0.03)) for _ in range(2))
            names.append(cut["name"])
            return {"cut": cut}
        if draw < 0.95:
            return {"trim": self.chance.randint(0, end // 2 + (self.odds() < 0.1))}
        return {"relieve": True} if self.odds() < 0.3 else {"round": self.share()}

    def spoiled(self, tree):
        """The tree with a change at some place."""
        places = list(walk(tree))
        if not places:
            return tree
        holder, key = self.one_of(places)
        draw = self.odds()
        if draw < 0.45:
            holder[key] = Raw(self.one_of(TOKENS))
        elif draw < 0.55:
            other, place = self.one_of(places)
            holder[key] = json.loads(json.dumps(other[place], default=str))
        elif draw < 0.7:
            holder.pop(key) if isinstance(holder, dict) else holder.insert(key, holder[key])
        elif draw < 0.85 and isinstance(holder, dict):
            holder[self.one_of(("at", "name", "from", "to", "extra", "tell", "id", "steps", "job", "each", "writers"))] = self.leaf()
        elif isinstance(holder[key], str):
            holder[key] = self.bent(holder[key])
        else:
            holder[key] = self.leaf()
        return tree

    def leaf(self):
        return self.one_of((None, True, False, 0, 1, 64, 65, 2 ** 32, 2 ** 64 - 1, "", "a", "done", [], {}, Raw("1.0"), Raw("-0")))

    def bent(self, text):
        """A text with a small change, as another form of an id."""
        return self.one_of((text[:-1], text + "0", text.replace("-", ""), "{%s}" % text, "{%s" % text, "urn:uuid:" + text, "URN:UUID:" + text,
                            text.upper(), text.replace("-", "_"), " " + text, text + "\n", text[:8] + text[9:], "{%s}" % text.replace("-", ""),
                            text.replace("0", "g", 1), text.replace("0", "\u0660", 1), text.swapcase()))

    def spelled(self, value, twice=0.0):
        """JSON of the value, with spaces, escapes and the order of members as they come; some members stand twice."""
        space = self.one_of(("", "", "", " ", "\n", "\t\r ")) if self.odds() < 0.2 else ""
        if isinstance(value, Raw):
            return value
        if isinstance(value, dict):
            members = list(value.items())
            if self.odds() < 0.1:
                self.chance.shuffle(members)
            said = [(key, self.spelled(item, twice)) for key, item in members]
            for place in reversed(range(len(said))):
                if self.odds() < twice:
                    said.insert(self.chance.randint(0, place), (said[place][0], self.one_of(TOKENS)))
            return "{%s%s}" % (space, ("," + space).join("%s%s:%s%s" % (self.text(key), space, space, item) for key, item in said))
        if isinstance(value, list):
            return "[%s%s]" % (space, ("," + space).join(self.spelled(item, twice) for item in value))
        return self.text(value) if isinstance(value, str) else json.dumps(value)

    def text(self, text):
        """A text with escapes here and there."""
        if self.odds() < 0.93:
            return json.dumps(text, ensure_ascii=self.odds() < 0.3)
        units = [text.encode("utf-16-be", "surrogatepass")[at:at + 2] for at in range(0, 2 * len(text.encode("utf-16-be")) // 2, 2)]
        return '"%s"' % "".join("\\u%04x" % int.from_bytes(unit, "big") for unit in units)

    def broken(self, text):
        """The bytes with some changes that mostly leave no JSON."""
        for _ in range(self.one_of((1, 1, 2, 5))):
            place, draw = self.chance.randint(0, len(text)), self.odds()
            if draw < 0.2:
                text = text[:place]
            elif draw < 0.4:
                text = text[:place] + self.one_of(BYTES) + text[place:]
            elif draw < 0.6:
                text = text[:place] + text[place + self.one_of((1, 1, 2, 20)):]
            elif draw < 0.7:
                text = text[:place] + bytes([self.chance.randint(0, 255)]) + text[place + 1:]
            elif draw < 0.8:
                other = self.chance.randint(0, len(text))
                text = text[:place] + text[other:]
            elif draw < 0.9:
                text = self.one_of((text + self.one_of(BYTES), text + text, self.one_of(BYTES) + text))
            else:
                deep = self.one_of((3, 120, 121, 122, 123, 124, 125, 126, 127, 128, 200, 5000))
                nest = self.one_of((b"[" * deep + b"]" * deep, b'{"a":' * deep + b"1" + b"}" * deep, b"[" * deep))
                text = self.one_of((nest, text[:-1] + b',"x":' + nest + b"}", text[:1] + b'"x":' + nest + b"," + text[1:]))
        return text

    def script_text(self):
        tree, names = self.script()
        draw = self.odds()
        if draw < 0.6:
            return self.spelled(tree).encode(), names
        if draw < 0.85:
            for _ in range(self.one_of((1, 1, 2, 4))):
                tree = self.spoiled(tree)
            twice = self.one_of((0.0, 0.0, 0.02))
            return self.spelled(tree, twice).encode("utf-8", "surrogatepass"), names
        if draw < 0.92:
            holder, key = self.one_of(list(walk(tree)))
            holder[key] = Raw(self.one_of(BROKEN))
            return self.spelled(tree).encode(), names
        return self.broken(self.spelled(tree).encode()), names

    def script_case(self):
        text, names = self.script_text()
        at = [] if self.odds() < 0.6 else ["--at", str(self.one_of((0, 1, 2, 64, 65, 255) if self.odds() < 0.1 else self.listed(text)))]
        draw = self.odds()
        if draw < 0.3:
            return ["graph"] + at, text
        if draw < 0.5:
            return ["solve"] + at, text
        if draw < 0.6:
            return ["winners"] + at, text
        if draw < 0.7:
            return ["list"] + at, text
        if draw < 0.8:
            return ["agree"], text
        return ["pack", "--", self.one_of(names if names and self.odds() < 0.9 else NAMES)], text

    # streams

    def stream(self):
        """The lines of a stream, mostly ones that are not refused. Its first coordinator is asked for its network after few
        operations, so that the network is edited."""
        script, _ = self.script()
        first = script["coordinators"][0]
        yield {"coordinators": script["coordinators"]}
        for step in script["steps"]:
            is_look = step["at"] == first and "round" in step and self.odds() < 0.8
            if self.odds() < 0.1:
                yield {"ask": "check", "line": json.loads(json.dumps(step))}
            yield {"at": first, "ask": "graph"} if is_look else step
            if self.odds() < 0.1:
                yield {"at": self.one_of(script["coordinators"]), "ask": self.one_of(followed.TOPICS)}
            if self.odds() < 0.1:
                yield self.record(self.one_of(script["coordinators"]))

    def stream_case(self):
        lines = list(self.stream())
        draw = self.odds()
        if draw < 0.2:
            lines[1:] = [self.spoiled(line) if self.odds() < 0.2 else line for line in lines[1:]]
        said = [self.spelled(line).replace("\n", " ").encode("utf-8", "surrogatepass") for line in lines]
        if draw > 0.9:
            said[1:] = [self.broken(line) if self.odds() < 0.2 else line for line in said[1:]]
        return ["follow"], b"\n".join(said) + b"\n"

    def listed(self, text):
        """Coordinators of the script, if it is one."""
        try:
            return strict.read_script(text)["coordinators"]
        except (strict.Strange, RecursionError):
            return [1]

    # packets

    def packet(self):
        """A packet's bytes."""
        told = set()
        for _ in range(self.one_of((0, 1, 2, 5, 12))):
            read = strict.read_told(self.operation())
            op = read and reference.operation(*next(iter(read.items())))
            if op and not reference.out_of_range(dict(op[1])):
                told.add(op)
        packet = reference.Packet(self.number(1, 64) % 65 or 1, self.whole(64), told)
        return bytes.fromhex(reference.packed(packet, self.one_of((b"FDG1", b"FDG2", b"FDG2")))[1])

    def packet_case(self):
        packet = self.packet()
        draw = self.odds()
        if draw < 0.65:
            for _ in range(self.one_of((1, 1, 1, 2, 4))):
                packet = self.spliced(packet)
        text = packet.hex().encode()
        text += b"\n" if self.odds() < 0.7 else b""
        if self.odds() < 0.3:
            text = text.upper() if self.odds() < 0.5 else bytes(ord(chr(byte).upper()) if self.odds() < 0.5 else byte for byte in text)
        if draw > 0.9:
            text = self.broken(text) if self.odds() < 0.5 else text + self.one_of((b"\n", b"\r\n", b" ", b"0", b"00", b"\x00"))
        return ["unpack"], text

    def spliced(self, packet):
        """The bytes with a change in one of their fields, or of their records."""
        place, draw = self.chance.randint(0, len(packet)), self.odds()
        if draw < 0.3:
            return packet[:place] + bytes([self.one_of((0, 1, 2, 3, 4, 64, 65, 127, 128, 255))]) + packet[place + 1:]
        if draw < 0.45:
            return packet[:place] + bytes([self.chance.randint(0, 255)]) + packet[place + 1:]
        if draw < 0.55:
            return packet[:place]
        if draw < 0.65:
            return packet[:place] + packet[place + self.one_of((1, 8, 18, 20, 22, 25, 34, 45, 52, 53)):]
        if draw < 0.75:
            size = self.one_of((1, 8, 12, 18, 20, 22, 34, 45, 52, 53))
            return packet[:place] + packet[max(0, place - size):place] + packet[place:]
        if draw < 0.85:
            other = self.packet()
            return packet[:place] + other[min(place, len(other)):]
        if draw < 0.95:
            at = self.one_of((13, 21, len(packet) - 8, len(packet) - 16, len(packet) - 24))
            count = self.one_of((0, 1, 2, 3, 255, 2 ** 32, 2 ** 60, 2 ** 63, 2 ** 64 - 1)).to_bytes(8, "big")
            return packet[:max(0, at)] + count + packet[max(0, at) + 8:]
        return packet + self.one_of((b"\x00", b"FDG2", packet))


FEW, LONGEST = 8, 64


class Keeper:
    """When a keeper that follows late edits, at least: see `Deferred` of fm_edit. A packet may bring many keys."""

    def __init__(self):
        self.pending, self.edits, self.calm, self.wait, self.has_editor, self.much, self.fresh = 0, 0, 0, 1, False, False, True

    def take(self, keys):
        self.pending, self.fresh = self.pending + keys, False
        if self.pending > FEW:
            self.wait = min(2 * self.wait, LONGEST) if self.has_editor else self.wait
            self.pending, self.has_editor, self.much, self.calm = 0, False, True, 0

    def look(self):
        if not self.fresh and self.has_editor:
            self.edits += 1
        elif not self.fresh:
            self.calm = 0 if self.much else self.calm + 1
            self.has_editor, self.much = self.calm >= self.wait, False
        self.pending, self.fresh = 0, True


def edits(text):
    """How many looks at coordinators of a stream are answered by an edit, at least. The first of each two coordinators that it lists
    has a keeper that edits. What a line with a packet or a round brings is counted as many keys."""
    keepers, names = {}, set()
    for line in followed.lines_of(text):
        try:
            kind, asked, *more = followed.request_in(followed.value_in(line), names)
        except (followed.Refused, IndexError):
            continue
        if kind == "open" and not keepers:
            keepers = {at: Keeper() for at in asked[::2]}
        elif kind == "act" and asked["at"] in keepers:
            keepers[asked["at"]].take(1 if "tell" in asked else FEW + 1)
        elif kind == "ask" and asked in keepers and more == ["graph"]:
            keepers[asked].look()
    return sum(keeper.edits for keeper in keepers.values())


def walk(tree):
    """Each place within a tree, as what holds it and its key."""
    pairs = tree.items() if isinstance(tree, dict) else enumerate(tree) if isinstance(tree, list) else ()
    for key, value in list(pairs):
        yield tree, key
        yield from walk(value)


KINDS = {"scripts": lambda chance: Draw(chance).script_case(), "packets": lambda chance: Draw(chance).packet_case(),
         "streams": lambda chance: Draw(chance).stream_case()}
