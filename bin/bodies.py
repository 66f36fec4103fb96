"""Wrong bodies: the edits of must-fail/ and wrong-bodies/, read, laid side by side and found again in what a check says."""
import re


class Edit:
    """A wrong body: texts to be replaced, each by a file of the crate."""

    def __init__(self, path):
        self.path, self.name, self.pairs = path, path.stem, []
        file = old = None
        for line in path.read_text().split("\n"):
            if line.startswith("file: "):
                file = line[len("file: ") :].strip()
            elif line.startswith("old: "):
                old = line[len("old: ") :]
            elif line.startswith("new:") and file and old:
                self.pairs.append((file, old, line[len("new:") :].removeprefix(" ")))
                old = None

    def applied(self, texts):
        """The texts by their files, with this edit in them; None if it does not fit."""
        changed = dict(texts)
        for file, old, new in self.pairs:
            if file not in changed or changed[file].count(old) != 1:
                return None
            changed[file] = changed[file].replace(old, new)
        return changed if self.pairs else None

    def places(self, texts):
        """The functions that it changes, as (file, first line, last line); None if one of its places is in none."""
        found = set()
        for file, old, _ in self.pairs:
            if file not in texts or texts[file].count(old) != 1:
                return None
            text = texts[file]
            at = text[: text.index(old)].count("\n")
            place = function_around(text.split("\n"), at)
            if place is None or at + old.count("\n") > place[1]:
                return None
            found.add((file, *place))
        return found


def function_around(lines, at):
    """The first and the last line of the function that the line stands in, counted from 0."""
    for first in range(at, -1, -1):
        head = re.match(r"( *)(pub(\([a-z]+\))? )?(const )?fn ", lines[first])
        if head:
            end = head[1] + "}"
            last = next((i for i in range(first, len(lines)) if lines[i] == end), None)
            return (first, last) if last is not None and at <= last else None
    return None


def name_of(place, texts):
    """The name by which a check knows the function of a place: its path, as `module::name`, or of a method the end of it, as
    `Type::name` or `TypeTrait::name`, since the path is that of the type."""
    file, first, _ = place
    lines = texts[file].split("\n")
    name = re.search(r"\bfn (\w+)", lines[first])[1]
    if not lines[first].startswith(" "):
        return "::".join([part for part in file[len("src/") : -len(".rt")].split("/") if part not in ("lib", "main")] + [name])
    head = next((line for line in reversed(lines[:first]) if re.match(r"(pub )?(impl|trait)\b", line)), "")
    return owner_of(head) + "::" + name


def owner_of(head):
    """The name that a check gives to the block of this head: its type and then its trait, each with the types that stand for its parameters,
    as `VecPacketPacketSink` for `impl PacketSink for Vec<Packet> {`."""
    block = re.sub(r"\b(where|\{).*", "", re.sub(r"^(pub )?(impl|trait)\b", "", head)).strip()
    parameters = set()
    if head.startswith("impl<"):
        end = next(at for at in range(len(block)) if block[: at + 1].count("<") == block[: at + 1].count(">"))
        parameters, block = set(re.findall(r"[<,]\s*(\w+)", block[: end + 1])), block[end + 1 :]
    elif not head.startswith("impl"):
        block = re.split(r"[<:]", block)[0]
    return "".join(type_name(words, parameters) for words in reversed(block.split(" for ")))


def type_name(text, parameters):
    """The names in a type one after another, but for parameters and lifetimes. `Tuple2` stands before those in a pair."""
    flat = re.sub(r"\(([^()]*)\)", lambda found: f" Tuple{found[1].count(',') + 1} {found[1]} ", text)
    names = [path.split("::")[-1] for path in re.findall(r"(?<!')\b[A-Za-z_][\w:]*", flat)]
    return "".join(name[0].upper() + name[1:] for name in names if name not in parameters)


def texts_of(folder):
    """The texts of a crate's folder that an edit can name, by their files."""
    files = [file for part in ("src", "specs", "proofs") for file in (folder / part).rglob("*") if file.is_file()]
    return {str(file.relative_to(folder)): file.read_text() for file in files}


def rounds(edits, texts):
    """Edits that can stand side by side, round by round, each with its places, and those that have to be tried alone."""
    alone, made = [], []
    for edit in edits:
        places = edit.places(texts)
        if places is None or edit.applied(texts) is None:
            alone.append(edit)
            continue
        for group in made:
            if not any(places & taken for _, taken in group):
                group.append((edit, places))
                break
        else:
            made.append([(edit, places)])
    return made, alone


def laid(group, texts):
    """The texts with every edit of the group in them."""
    for edit, _ in group:
        texts = edit.applied(texts) or texts
    return texts


def complaints(said):
    """The places of the sources of which a check says that something there is not proved, with what it says."""
    found = re.findall(r"^(?:note: )?(?:\./)?(src/\S+?):(\d+):(\d+): (?:error: )?(.*)", said, re.MULTILINE)
    return [(file, int(line) - 1, f"{file}:{line}:{column}: {text}") for file, line, column, text in found if re.search("not proved|found no proof", text)]


def answers_refused(said):
    """The functions, by name, of whose own answers a check refuses one, with what it says. An answer that names what an edit
    took away says nothing of the contract."""
    found = re.findall(r"^(?:\./)?proofs/(\S+)/(\w+\.antt:\d+:\d+: error: .*)", said, re.MULTILINE)
    names = re.compile(r"has no field|is not in scope|has no `|was not admitted")
    return {re.sub(r"/\+?", "::", folder): f"proofs/{folder}/{text}" for folder, text in found if not names.search(text)}


def with_attributes(place, texts):
    """The place of a function with the attributes above it, which a check may name for it."""
    file, first, last = place
    lines = texts[file].split("\n")
    while first and lines[first - 1].lstrip().startswith("#["):
        first -= 1
    return file, first, last


def complaint_of(places, texts, said):
    """What a check says of one of these functions; None if it refuses none of them for itself."""
    where, answers = complaints(said), answers_refused(said)
    whole = [with_attributes(place, texts) for place in places]
    inside = (text for its, line, text in where if any(file == its and first <= line <= last for file, first, last in whole))
    names = [name_of(place, texts) for place in places]
    own = (text for path, text in answers.items() if any(("::" + path).endswith("::" + name) for name in names))
    return next(inside, None) or next(own, None)
