"""What the words of a command line ask for, worked out by docs/formats.md alone, and command lines for tests/run."""
import itertools
import json
import re

BARE = ("agree", "check", "unpack")
QUESTIONS = ("graph", "solve", "plan", "winners", "list")
# the option of a command with its least and its most number, and the number of one that is left out
NUMBERED = {"fleet": ("rounds", 0, 1000), **dict.fromkeys(QUESTIONS, ("at", 0, 255))}
LEFT_OUT = {"fleet": 0, **dict.fromkeys(QUESTIONS)}
# the options of a stream, and how often its coordinators are renewed if that is left out
STREAMED, RENEWED, MOST_LABEL = ("renew-after", "store", "store-label"), 100000, 200
OPTIONS = tuple(dict.fromkeys(["--renew-after", *("--" + option for option, _, _ in NUMBERED.values())]))
FILED = ("records", "recover")
NAMED = ("pack", "why", *FILED)
TOPICS = (*BARE, *NUMBERED, *NAMED, "follow", "help")
# the task of coordinator 3, of which 7 does not know (`tells`)
TASK = "00000000-0000-0000-0000-%012x" % 3003
AT = "at", 0, 255
HELP, PAGE, VERSION, WRONG = ("help",), ("refusals",), ("version",), ("wrong",)
# words of which there are all command lines of up to two
WORDS = (*TOPICS, "refusals", "grapf", "--", "-", "", "--help", "--help=x", "-h", "-hx", "-x", "-é", "--version", "--version=1", "-V", "-Vx", "--at", "--at=7", "--rounds",
         "--rounds=3", "--renew-after=3", "--store", "--store=/", "--store-label=x", "--name", "7", "-7", "a", "a=b", "é")
# and what may stand behind a command, and behind that
NUMBERS = ("0", "1", "7", "007", "+7", "-0", "-7", "-+7", "255", "256", "1000", "1001", "1000000", "1000001", "1.0", "x", "", "-")
GIVEN = ([], ["a"], [TASK], ["-"], [""], ["-x"], ["--", "a"], ["--", "-x"], ["--", "--"])
BEHIND = ([], ["--"], ["--", "a"], ["a"], ["-h"], ["--help", "a"], ["--at", "7"], ["--rounds=3"], ["--renew-after=3"])
# what may stand behind `follow`, several in any order; the store is a folder, which cannot be used
BEHIND_FOLLOW = (["--renew-after=3"], ["--renew-after", "007"], ["--renew-after=0"], ["--store=/"], ["--store", "/"], ["--store="], ["--store"],
                 ["--store-label=x"], ["--store-label", "x"], ["--store-label="], ["--store-label", "-x"], ["--store-label=" + "x" * MOST_LABEL],
                 ["--store-label=" + "é" * 101], ["--help"], ["-hx"], ["--"], ["a"], ["--at=7"])


def is_flag(word):
    return word.startswith("-") and word not in ("-", "--")


def number(word, least, most):
    """The number that the word spells, or None."""
    found = re.fullmatch(r"([+-]?)([0-9]+)", word, re.ASCII)
    value = int(found[2]) if found else most + 1
    return value if least <= value <= most and (value == 0 or found[1] != "-") else None


def flag(word):
    """A word that no command takes."""
    return HELP if word == "--help" or word.startswith("-h") else WRONG


def last(asked, rest):
    """What is asked for if the words behind the last argument are these."""
    if rest and rest[0] != "--":
        return flag(rest[0])
    return asked if len(rest) < 2 else WRONG


def named(asked, rest):
    """What a command with a name asks for by the words behind it, if it asks so for a name."""
    if rest[:1] == ["--"]:
        return asked(rest[1]) if len(rest) == 2 else WRONG
    if not rest:
        return WRONG
    return flag(rest[0]) if is_flag(rest[0]) else last(asked(rest[0]), rest[1:])


def numbered(option, least, most, rest):
    """Whether the first word is the option; then the number that it is given, or None, and the words behind it."""
    if not rest or rest[0].partition("=")[0] != "--" + option:
        return False, None, rest
    _, equals, spelled = rest[0].partition("=")
    rest = rest[1:]
    if not equals:
        if not rest or is_flag(rest[0]):
            return True, None, rest
        spelled, *rest = rest
    return True, number(spelled, least, most), rest


def counted(command, rest):
    """What a command with a number asks for by the words behind it."""
    is_given, value, rest = numbered(*NUMBERED[command], rest)
    if not is_given:
        return last((command, LEFT_OUT[command]), rest)
    return WRONG if value is None else last((command, value), rest)


def streamed(rest):
    """What `follow` asks for by the words behind it: its options may come in any order, each once."""
    given = {}
    while rest and rest[0].startswith("--") and rest[0][2:].partition("=")[0] in STREAMED:
        name, equals, value = rest[0][2:].partition("=")
        rest = rest[1:]
        if not equals:
            if not rest or is_flag(rest[0]) or rest[0] == "--":
                return WRONG
            value, *rest = rest
        value = number(value, 1, 1000000) if name == "renew-after" else value
        if name in given or value is None:
            return WRONG
        given[name] = value
    asked = "follow", given.get("renew-after", RENEWED)
    if "store" in given:
        label = given.get("store-label", "")
        return last(asked + (given["store"], label) if len(label.encode()) <= MOST_LABEL else WRONG, rest)
    return last(WRONG if "store-label" in given else asked, rest)


def reasons(rest):
    """What `why` asks for, with its option before or behind the id of a task, of which the command lines have one form."""
    is_before, at, rest = numbered(*AT, rest)
    if is_before or not rest or rest[0] == "--" or is_flag(rest[0]):
        return WRONG if is_before and at is None else named(lambda name: ("why", name, at) if name == TASK else WRONG, rest)
    name, *rest = rest
    is_behind, at, rest = numbered(*AT, rest)
    return WRONG if is_behind and at is None else last(("why", name, at) if name == TASK else WRONG, rest)


def told(words):
    """What the words behind the program's name ask for."""
    if not words:
        return WRONG
    if words in (["--version"], ["-V"]):
        return VERSION
    first, *rest = words
    if first == "help":
        if rest == ["refusals"]:
            return PAGE
        return HELP if not rest or (len(rest) == 1 and rest[0] in TOPICS) else WRONG
    if first in BARE:
        return last((first,), rest)
    if first in ("pack", *FILED):
        return named(lambda name: (first, name), rest)
    if first == "follow":
        return streamed(rest)
    if first == "why":
        return reasons(rest)
    return counted(first, rest) if first in NUMBERED else flag(first)


def shortest(asked):
    """The shortest words that ask for it."""
    command, *given = asked
    if command == "refusals":
        return ["help", "refusals"]
    if command == "version":
        return ["--version"]
    if command in NAMED:
        name, *at = given
        return [command, *("--at=%d" % number for number in at if number is not None), "--", name]
    if command == "follow":
        spelled = ["--%s=%s" % option for option in zip(STREAMED, given)]
        return [command, *(spelled if given[0] != RENEWED else spelled[1:])]
    if given and given[0] != LEFT_OUT[command]:
        return [command, "--" + NUMBERED[command][0], str(given[0])]
    return [command]


def options(own):
    """An option with a number: a command's own with each, and any other with two."""
    for option in OPTIONS:
        for spelled in NUMBERS if option == own else ("7", "x"):
            yield from ([option, spelled], [option + "=" + spelled])


def command_lines():
    """Command lines that ask for much and for little."""
    for count in range(3):
        yield from map(list, itertools.product(WORDS, repeat=count))
    for command in ("agree", *NAMED, *NUMBERED):
        own = "--" + NUMBERED[command][0] if command in NUMBERED else "--at" if command == "why" else None
        for given, behind in itertools.product((*GIVEN, *options(own)), BEHIND):
            yield [command, *given, *behind]
    for count in range(3):
        for given in itertools.product(BEHIND_FOLLOW, repeat=count):
            yield ["follow", *itertools.chain(*given)]
    for given in itertools.permutations((["--renew-after=3"], ["--store", "/"], ["--store-label=x"])):
        for behind in BEHIND_FOLLOW:
            yield ["follow", *itertools.chain(*given), *behind]
    for spelled in NUMBERS:
        yield from (["follow", "--renew-after", spelled], ["follow", "--renew-after=" + spelled])
    for given, behind in itertools.product(options("--at"), BEHIND):
        yield from (["why", *given, TASK, *behind], ["why", TASK, *given, *behind], ["why", *given, "--", TASK, *behind])


def tells(number):
    """Steps after which the coordinator knows of tasks of its own, as many as no other listed one, the first of which is placed."""
    job, machine, *tasks = ("00000000-0000-0000-0000-%012x" % (1000 * kind + number) for kind in range(1, 3 + number // 3))
    facts = [{"job": {"id": job, "version": 1, "writer": 1, "withdrawn": False, "wait": 500, "preempt": 800}},
             {"machine": {"id": machine, "incarnation": 1, "version": 1, "writer": 1, "up": True, "slots": 2, "nic": 1000}},
             *({"spec": {"id": task, "version": 1, "writer": 1, "withdrawn": False, "job": job, "request": 100}} for task in tasks),
             {"propose": {"id": tasks[0], "attempt": 0, "coordinator": number, "machine": machine, "incarnation": 1}}]
    return [{"at": number, "tell": fact} for fact in facts]


# coordinators that know different things, and packets of names that are asked for, each of facts of its own
LISTED = (3, 7)
CUTS = [{"at": 7, "cut": {"name": name, "from": at % 4, "to": at % 4 + at // 4 + 1}}
        for at, name in enumerate(("", "-", "a", "7", "-x", "--"))]


DELIVERIES = 1200


def script_for(words):
    """A script on which each command, each number that is listed and each name that is cut has another answer. Of
    `follow` a stream, in which a packet has a name until the coordinators are renewed."""
    if words[:1] == ["follow"]:
        return b"\n".join([b'{"coordinators":[3,7]}', b'{"at":7,"cut":{"name":"a"}}'] + [b'{"at":3,"deliver":"a"}'] * DELIVERIES)
    if words[:1] == ["fleet"]:
        return json.dumps({"coordinators": [3], "steps": tells(3)}).encode()
    return json.dumps({"coordinators": LISTED, "steps": [step for at in LISTED for step in tells(at)] + CUTS}).encode()


def shows(asked):
    """Whether what is asked for has an answer of its own on its script: a stream must be longer than the number of entries, and the files that
    are named here cannot be read."""
    return asked[0] not in FILED and (asked[0] != "follow" or (len(asked) == 2 and asked[1] < DELIVERIES))
