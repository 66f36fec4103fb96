"""Reads scripts as docs/formats.md says, and JSON as RFC 8259 and `serde_json` have it: UTF-8 without lone surrogates, nesting
of at most 127, integers of 64 bits, other numbers as floats, which are finite, and of equal members the last."""
import json
import re

# the most bytes of a script, and of a line of a stream
LIMIT, LINE = 16777216, 67108864
DEEPEST = 127
TOKEN = re.compile(r"""[ \t\n\r]*([\[\]{}:,]|"(?:[^"\\\x00-\x1f]|\\(?:["\\/bfnrt]|u[0-9a-fA-F]{4}))*"|"""
                   r"""-?(?:0|[1-9][0-9]*)(?:\.[0-9]+)?(?:[eE][+-]?[0-9]+)?|true|false|null)""")
SPACE = re.compile(r"[ \t\n\r]*")
CONSTANTS = {"true": True, "false": False, "null": None}
HYPHENATED = "([0-9a-fA-F]{8}(?:-[0-9a-fA-F]{4}){3}-[0-9a-fA-F]{12})"
UUID = re.compile(r"([0-9a-fA-F]{32})|%s|\{%s\}|[uU][rR][nN]:[uU][uU][iI][dD]:%s" % ((HYPHENATED,) * 3))

U8, U32, U64 = (2 ** bits - 1 for bits in (8, 32, 64))
FIELDS = {
    "job": {"id": "id", "version": U64, "writer": U8, "withdrawn": bool, "wait": U32, "preempt": U32},
    "spec": {"id": "id", "version": U64, "writer": U8, "withdrawn": bool, "job": "id", "request": U32},
    "progress": {"id": "id", "attempt": U32, "phase": ("pending", "running", "done")},
    "machine": {"id": "id", "incarnation": U64, "version": U64, "writer": U8, "up": bool, "slots": U32, "nic": U32},
    "report": {"id": "id", "incarnation": U64, "number": U64, "used": U32},
    "propose": {"id": "id", "attempt": U32, "coordinator": U8, "machine": "id", "incarnation": U64}}


class Strange(Exception):
    """A text is no script: for its step of that number, or as a whole."""

    def __init__(self, step=None):
        super().__init__(step)
        self.step = step


def read_json(text):
    """The value of a text of bytes."""
    try:
        text = text.decode("utf-8")
    except UnicodeDecodeError:
        raise Strange
    value, place = value_at(text, *token_at(text, 0), DEEPEST)
    if SPACE.fullmatch(text, place) is None:
        raise Strange
    return value


def token_at(text, place):
    """The next token, and the place behind it."""
    found = TOKEN.match(text, place)
    if not found:
        raise Strange
    return found[1], found.end()


def value_at(text, token, place, deeper):
    """The value that begins with the token, and the place behind it."""
    if token in "[{":
        if deeper == 0:
            raise Strange
        return (items_at if token == "[" else members_at)(text, place, deeper - 1)
    if token[0] == '"':
        return string_of(token), place
    if token in CONSTANTS:
        return CONSTANTS[token], place
    if token in "]},:":
        raise Strange
    return number_of(token), place


def items_at(text, place, deeper):
    items = []
    token, place = token_at(text, place)
    while token != "]":
        value, place = value_at(text, token, place, deeper)
        items.append(value)
        token, place = token_at(text, place)
        if token == ",":
            token, place = token_at(text, place)
            if token == "]":
                raise Strange
        elif token != "]":
            raise Strange
    return items, place


def members_at(text, place, deeper):
    members = {}
    token, place = token_at(text, place)
    while token != "}":
        colon, place = token_at(text, place)
        if token[0] != '"' or colon != ":":
            raise Strange
        members[string_of(token)], place = value_at(text, *token_at(text, place), deeper)
        token, place = token_at(text, place)
        if token == ",":
            token, place = token_at(text, place)
            if token == "}":
                raise Strange
        elif token != "}":
            raise Strange
    return members, place


def string_of(token):
    if "\\" not in token:
        return token[1:-1]
    text = json.loads(token)
    try:
        text.encode()
    except UnicodeEncodeError:
        raise Strange
    return text


def number_of(token):
    """An integer of 64 bits, of which -0 is none, else a finite float."""
    if re.fullmatch("-?[0-9]{1,20}", token) and token != "-0" and -2 ** 63 <= int(token) <= U64:
        return int(token)
    number = float(token)
    if number in (float("inf"), float("-inf")):
        raise Strange
    return number


def read_script(text):
    """The script that a text of bytes is: its coordinators, and its steps with the fields of their kinds alone."""
    if len(text) > LIMIT:
        raise Strange
    value = read_json(text)
    if type(value) is not dict or type(value.get("coordinators")) is not list or type(value.get("steps")) is not list:
        raise Strange
    numbers = value["coordinators"]
    if not are_numbers(numbers):
        raise Strange
    names, steps = set(), []
    for place, step in enumerate(value["steps"], 1):
        read = read_step(step, names)
        if read is None:
            raise Strange(place)
        steps.append(read)
    return {"coordinators": numbers, "steps": steps}


def are_numbers(listed):
    """Whether a value lists coordinators, or writers: at least one number, each from 1 to 64, none twice."""
    return type(listed) is list and bool(listed) and all(type(n) is int and 1 <= n <= 64 for n in listed) and len(set(listed)) == len(listed)


def is_share(asked):
    """Whether a value is what a round may be asked for by: true, or an object of writers, of a greatest number on each machine, of both
    or of neither."""
    if type(asked) is not dict:
        return asked is True
    each = asked.get("each", 1)
    return not asked.keys() - {"writers", "each"} and are_numbers(asked.get("writers", [1])) and fits(each, U32) and each > 0


def read_step(step, names):
    """The step, or None if it is of no form; its name is added to those of earlier cuts."""
    if type(step) is not dict or len(step) != 2 or not fits(step.get("at"), U8):
        return None
    (kind, asked), = ((key, value) for key, value in step.items() if key != "at")
    if kind == "tell":
        asked = read_told(asked)
    elif kind == "cut":
        asked = read_cut(asked, names)
    elif not {"deliver": type(asked) is str, "trim": fits(asked, U64), "round": is_share(asked), "relieve": asked is True}.get(kind):
        return None
    return None if asked is None else {"at": step["at"], kind: asked}


def read_told(told):
    if type(told) is not dict or len(told) != 1:
        return None
    (kind, given), = told.items()
    if kind not in FIELDS or type(given) is not dict or not all(fits(given.get(field), FIELDS[kind][field]) for field in FIELDS[kind]):
        return None
    fields = {field: canonical(given[field], form) for field, form in FIELDS[kind].items()}
    if kind == "spec":
        fields["prefer"] = read_prefer(given.get("prefer", []))
        if fields["prefer"] is None:
            return None
    return {kind: fields}


def read_prefer(listed):
    """The machines that a spec prefers, each with its credit: four at most."""
    if type(listed) is not list or len(listed) > 4:
        return None
    if any(type(entry) is not dict or not fits(entry.get("machine"), "id") or not fits(entry.get("credit"), U32) for entry in listed):
        return None
    return [{"machine": canonical(entry["machine"], "id"), "credit": entry["credit"]} for entry in listed]


def read_cut(cut, names):
    if type(cut) is not dict or type(cut.get("name")) is not str or cut["name"] in names or ("from" in cut) != ("to" in cut):
        return None
    names.add(cut["name"])
    if "from" not in cut:
        return {"name": cut["name"]}
    if not fits(cut["from"], U64) or not fits(cut["to"], U64):
        return None
    return {name: cut[name] for name in ("name", "from", "to")}


def fits(value, form):
    """Whether a value is of a form: a type, the greatest of whole numbers, a choice of texts, or an id."""
    if form is bool:
        return type(value) is bool
    if form == "id":
        return type(value) is str and id_in(value) is not None
    return type(value) is str and value in form if type(form) is tuple else type(value) is int and 0 <= value <= form


def id_in(text):
    """The digits of a UUID: 32, or with hyphens, these also within braces or after `urn:uuid:` in either case."""
    found = UUID.fullmatch(text)
    return next(digits for digits in found.groups() if digits).replace("-", "") if found else None


def canonical(value, form):
    if form != "id":
        return value
    digits = id_in(value).lower()
    return "-".join((digits[:8], digits[8:12], digits[12:16], digits[16:20], digits[20:]))
