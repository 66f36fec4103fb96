"""What the proofs of libraries checked, kept in each crate's out/incremental, where later checks of the same crate begin.

The gate builds libraries of statements: they are small and quickly loaded, and hold no checked module. But while such a build runs, each
module that it checked is a file of its own among its temporary files. That file gets a second name (a hard link) in the crate's folder, or
is copied there if that is on another disk. Where it lies is a detail of the toolchain: a module that is not found is checked again by who
needs it.
"""
import contextlib
import errno
import os
import pathlib
import re
import shutil
import tempfile
import threading
import time

# the temporary files of a build, by its process, and how a checked module begins
FOLDERS, FOLDER = "rattle-logic-built-locked-*", re.compile(r"rattle-logic-built-locked-(\d+)-\d+")
HEAD = re.compile(rb"--@ antt-checked \d+\n--@ kernel (\S+)\n")
# the word of a command that builds a library of statements
STATEMENTS = b"--statements"
# how long a build is left alone between two looks, and after how long a file is taken for written, in seconds
PAUSE, WRITTEN = 0.2, 1.0


@contextlib.contextmanager
def kept(crate):
    """Keeps what a build in the crate's folder checks until the end of the block."""
    ended, to = threading.Event(), crate / "out/incremental"
    thread = threading.Thread(target=gather, args=(crate, to, ended), daemon=True)
    thread.start()
    try:
        yield
    finally:
        ended.set()
        thread.join()


def gather(crate, to, ended):
    """Links the modules that are there, again and again until the build ended."""
    folders, known = {}, set()
    while not ended.is_set():
        for folder in pathlib.Path(tempfile.gettempdir()).glob(FOLDERS):
            if folder not in folders:
                folders[folder] = is_of(folder, crate)
            if folders[folder]:
                link(folder, to, known)
        ended.wait(PAUSE)


def is_of(folder, crate):
    """Whether the folder has the temporary files of a process that builds the crate's library of statements."""
    found = FOLDER.fullmatch(folder.name)
    process = pathlib.Path("/proc", found[1]) if found else None
    try:
        return found is not None and os.readlink(process / "cwd") == str(crate) and STATEMENTS in (process / "cmdline").read_bytes().split(b"\0")
    except OSError:
        return False


def link(folder, to, known):
    """Links the checked modules of the folder that are not known yet, each below a folder that is named after the prover that wrote it."""
    with contextlib.suppress(OSError):
        for name in [it.name for it in os.scandir(folder) if it.name.endswith(".oantt") and it.name not in known]:
            with open(folder / name, "rb") as module:
                head = HEAD.match(module.read(1000))
            if not head:
                continue
            place = to / head[1].decode().replace("/", "_")
            place.mkdir(parents=True, exist_ok=True)
            if keep(folder / name, place / name):
                known.add(name)


def keep(file, to):
    """Gives a file a second name, or copies it to another disk once nothing was written to it for a while. Whether it is there then."""
    try:
        os.link(file, to)
    except FileExistsError:
        pass
    except OSError as why:
        if why.errno != errno.EXDEV:
            raise
        if time.time() - file.stat().st_mtime < WRITTEN:
            return False
        part = to.with_name(to.name + ".part")
        shutil.copyfile(file, part)
        part.rename(to)
    return True


def give(crate, to):
    """Puts what was kept of a crate where another check of it begins. A check replaces files as wholes, so both may have the same."""
    if (crate / "out/incremental").is_dir():
        shutil.copytree(crate / "out/incremental", to, copy_function=same, dirs_exist_ok=True)


def same(file, to):
    """Gives a file a second name, or copies it to another disk."""
    try:
        os.link(file, to)
    except OSError:
        shutil.copyfile(file, to)


def libraries(root):
    """The crates of the repository of which a library was built."""
    return sorted(path.parent.parent.parent.name for path in root.glob("crates/*/out/rlib/stamp"))
