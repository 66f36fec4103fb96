"""Wrong bodies tried over what the proof of their crate checked.

Those that change different functions are laid into one copy of the crate, and one check is asked for these functions. An edit counts as
refused if the check says of a place inside the function that the edit changes that it is not proved, or refuses an answer of that
function's proof. Any other is tried as the toolchain does, alone: there any complaint counts. So it is tried over what was kept only if the
crate as it stands is proved over that, and from nothing if it is not refused there.
"""
import os
import pathlib
import re
import shutil
import subprocess
import tempfile

import bodies
import checked

# from how many seconds on a function is told of which a wrong body is tried
SLOW = 5
ALONE = ["--jobs", "1"]


def asked(rt, crate, names, texts, kept):
    """What a check of the functions named says with these texts in place of the crate's own; nothing if it is no answer. Functions that take
    long are told."""
    only = [word for name in sorted(names) for word in ("--only", name)]
    with tempfile.TemporaryDirectory(prefix=f"rt-edit-{os.getpid()}-") as room:
        for part in rt.rtlib.PARTS:
            if os.path.isdir(f"{crate.folder}/{part}"):
                shutil.copytree(f"{crate.folder}/{part}", f"{room}/{part}")
        for file, text in texts.items():
            pathlib.Path(room, file).write_text(text)
        words = [rt.rtlib.RATTLE, "check", *crate.words(["--jobs", "1", "--progress", *only], keeps=False), "--incremental", kept]
        how = {"cwd": room, "stdin": subprocess.DEVNULL, "stdout": subprocess.PIPE, "stderr": subprocess.STDOUT, "text": True, "errors": "replace"}
        with subprocess.Popen([*rt.rtlib.guarded(), *words], **how) as ran:
            said, slow = read_timed(ran)
    if slow:
        print(f"{crate.name}: seconds of its wrong bodies: {', '.join(slow)}", flush=True)
    ended = re.search(r"^only=\d+ proved=\d+\n*\Z", said, re.MULTILINE)
    is_answer = ended and ran.returncode in (0, 1) and not any(rt.unread(line, texts) for line in said.split("\n"))
    if not is_answer:
        print(f"{crate.name}: a check of {len(names)} of its functions was no answer: {cause_in(said)[:200]}", flush=True)
    return said if is_answer else ""


def cause_in(said):
    """The first line of what a check says that tells an error, or else its last line."""
    lines = [line.strip() for line in said.split("\n") if line.strip()]
    return next((line for line in lines if "error" in line), lines[-1] if lines else "it said nothing")


def read_timed(ran):
    """What a check says, and the functions that took it long, with how many seconds of a processor since it was done with the one before."""
    said, slow, last = [], [], None
    for line in ran.stdout:
        said.append(line)
        found = re.match(r"checked (\S+), \d+ of \d+", line)
        if not found:
            continue
        now = worked(ran.pid)
        if last is not None and now - last >= SLOW:
            slow.append("%.0f %s" % (now - last, found[1]))
        last = now
    return "".join(said), slow


def worked(process):
    """The seconds that processors worked for the process, and for those that it started and that ended."""
    try:
        fields = pathlib.Path(f"/proc/{process}/stat").read_text().rpartition(")")[2].split()
    except OSError:
        return 0.0
    return sum(map(int, fields[11:15])) / os.sysconf("SC_CLK_TCK")


def refused_together(rt, crate, edits):
    """Those of the edits that are seen to be refused beside others, each once it is, with what the check says of it."""
    texts = bodies.texts_of(pathlib.Path(crate.folder))
    groups, _ = bodies.rounds(edits, texts)
    with tempfile.TemporaryDirectory(prefix=f"rt-edits-{os.getpid()}-") as kept:
        checked.give(pathlib.Path(crate.folder), kept)
        for group in groups:
            yield from refused_of(rt, crate, group, texts, kept)


def refused_of(rt, crate, group, texts, kept):
    """The same of edits of different functions, in one check. If that is no answer, as if one of them cannot be read, each half is asked for
    alone."""
    names = {bodies.name_of(place, texts) for _, places in group for place in places}
    changed = {file: text for file, text in bodies.laid(group, texts).items() if text != texts[file]}
    # what a check proves is kept for the next one
    said = asked(rt, crate, names, changed, kept)
    if not said and len(group) > 1:
        middle = len(group) // 2
        yield from refused_of(rt, crate, group[:middle], texts, kept)
        yield from refused_of(rt, crate, group[middle:], texts, kept)
        return
    for edit, places in group:
        if text := bodies.complaint_of(places, texts, said):
            yield edit, text


def is_refused(rt, kind):
    return kind == getattr(rt, "REFUSED", True)


def outcomes(rt, crate, edits, tell=lambda edit, outcome: None):
    """What the try of each edit comes to and what to say of it, as the toolchain's own function answers. Each is told once it is known."""
    found, of_paths = {}, {pathlib.Path(it): it for it in edits}

    def settle(edit, outcome):
        found[edit] = outcome
        tell(edit, outcome)

    for made, text in refused_together(rt, crate, [bodies.Edit(it) for it in of_paths]) if edits else ():
        settle(of_paths[made.path], (getattr(rt, "REFUSED", True), f"must-fail {crate.name}/{made.path.name}: refused, as it must be: {text[:160]}"))
    left = [it for it in edits if it not in found]
    for edit, outcome in tried_alone(rt, crate, left) if left else ():
        settle(edit, outcome)
    return [found[it] for it in edits]


def tried_alone(rt, crate, edits):
    """The edits, each with what its try alone comes to."""
    with tempfile.TemporaryDirectory(prefix=f"rt-edits-{os.getpid()}-") as room:
        seed = pathlib.Path(room, "seed")
        seed.mkdir()
        checked.give(pathlib.Path(crate.folder), seed)
        is_sound = any(seed.iterdir()) and rt.checked(crate, {}, ALONE, str(seed)).returncode == 0
        for edit in edits:
            outcome = over_seed(rt, crate, edit, seed) if is_sound else None
            yield edit, outcome if outcome and is_refused(rt, outcome[0]) else rt.must_fail(crate, edit, ALONE)


def over_seed(rt, crate, edit, seed):
    """What the try of an edit over the seed comes to. The check gets a copy, since it adds to it."""
    with tempfile.TemporaryDirectory(prefix=f"rt-edits-{os.getpid()}-") as over:
        shutil.copytree(seed, over, copy_function=checked.same, dirs_exist_ok=True)
        return rt.must_fail(crate, edit, ALONE, over)
