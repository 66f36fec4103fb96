#!/usr/bin/env python3
"""The unproved build of the program, with checks: it is made once, and kept in out/unproved/ until a source or the toolchain changes.

    bin/kept.py NAME    for the script NAME: prints how its checks are set and where it is, and makes it first if there is none

Its name is a sum of all that it was built from, and it gets that name when it is complete. So a file with the sum of the sources as they
are is a build of them. How it is made stands in building.py, which is imported only then: each call of bin/firmament waits for this file.
"""
import hashlib
import os
import sys

ROOT = os.path.dirname(os.path.dirname(os.path.realpath(__file__)))
PROVED = ROOT + "/crates/fm_cli/out/fm_cli"
FOLDER = ROOT + "/out/unproved"
# What is set beside the environment of each run: one in which a check fails ends with a status that is none of the program's own.
CHECKS = {"ASAN_OPTIONS": "abort_on_error=0:exitcode=70"}
FAULT = NO_BUILD = 70
NOT_CAUGHT = 3


class NoBuild(Exception):
    """There is no build; the text says why."""


class NotCaught(NoBuild):
    """The toolchain made a build that cannot be kept."""


def is_proved():
    """Whether there is a proved program, and no source is newer."""
    if not os.path.isfile(PROVED):
        return False
    return max(os.stat(it).st_mtime for it in [*sources(), *(folder for folder, _ in folders())]) <= os.stat(PROVED).st_mtime


def best():
    """Where the proved program is if no source is newer, else the kept build."""
    return PROVED if is_proved() else program()


def program():
    """Where the build of the sources as they are is kept. It is made first if there is none, by one call at a time."""
    try:
        while not os.path.isfile(kept := FOLDER + "/" + name()):
            import building
            building.make(kept)
    except OSError as why:
        raise NoBuild("no unproved build can be kept: %s" % why) from None
    return kept


def name():
    """The name of a build of the sources as they are: a sum of the toolchain's name, and of the names and bytes of all sources."""
    found = hashlib.sha256(toolchain())
    for file in sources():
        with open(file, "rb") as it:
            text = it.read()
        found.update(b"%s %d\n" % (os.fsencode(file[len(ROOT):]), len(text)))
        found.update(text)
    return "firmament-" + found.hexdigest()


def sources():
    """The files that a build reads, in order."""
    return [ROOT + "/crates.txt", *sorted(folder + "/" + name for folder, names in folders() for name in names)]


def folders():
    """The folders of crates in which sources are, each with the names of the files in it."""
    tops = (ROOT + "/crates/" + crate + "/" + part for crate in os.listdir(ROOT + "/crates") for part in ("src", "specs"))
    return [(folder, names) for top in tops for folder, _, names in os.walk(top)]


def toolchain():
    """The line that names the toolchain: from the file beside its commands, or as `rt version` prints it, which takes longer."""
    rt = next((it for it in (folder + "/rt" for folder in os.get_exec_path()) if os.access(it, os.X_OK)), None)
    if rt is None:
        raise NoBuild("there is no proved program without newer sources, and no rt to make an unproved one")
    try:
        with open(os.path.dirname(os.path.dirname(os.path.realpath(rt))) + "/KIT-ID", "rb") as line:
            return line.read()
    except OSError:
        with os.popen("rt version") as said:
            return said.read().encode()


def say(text):
    write("%s: %s\n" % (os.path.relpath(os.path.realpath(sys.argv[0]), ROOT), text))


def write(text):
    """Writes to standard error; if that is closed or full, nothing else changes."""
    try:
        if sys.stderr is not None:
            sys.stderr.write(text)
            sys.stderr.flush()
    except OSError:
        pass


def main():
    """Prints the checks and the place of the kept build for a script, which becomes it."""
    sys.argv[0] = sys.argv[1]
    try:
        if not os.path.isfile(FOLDER + "/" + name()):
            import building
            building.end_with_parent()
        print(*CHECKS.values(), program())
        return 0
    except NotCaught as why:
        say(why)
        return NOT_CAUGHT
    except NoBuild as why:
        say(why)
        return NO_BUILD
    except KeyboardInterrupt:
        # ends as one that was not caught does, so that the shell that waits for it ends too
        import signal
        signal.signal(signal.SIGINT, signal.SIG_DFL)
        os.kill(os.getpid(), signal.SIGINT)


if __name__ == "__main__":
    # building.py imports it by its name
    sys.modules["kept"] = sys.modules["__main__"]
    sys.exit(main())
