"""Runs programs on an allocator that refuses memory if it is told to, and counts: tests/refusing.c, which a C compiler makes."""
import mmap
import os
import pathlib
import shutil
import struct
import subprocess
import tempfile

HERE = pathlib.Path(__file__).resolve().parent
FIELDS = "first many count refused greatest held most asked".split()


class Refusing:
    """Runs programs on an allocator that refuses what is said, and counts."""

    def __init__(self):
        self.folder = tempfile.TemporaryDirectory()
        self.library = library(self.folder.name, "refusing")
        self.file = open(os.path.join(self.folder.name, "numbers"), "wb+")
        self.file.truncate(4096)
        self.numbers = mmap.mmap(self.file.fileno(), 4096)

    def run(self, program, words, text, first=0, many=1, **how):
        """The status and the texts of a run, and what was counted. The input is a file, which is read alike each time."""
        how.setdefault("timeout", 120)
        self.numbers[:64] = struct.pack("8Q", first, many, 0, 0, 0, 0, 0, 0)
        env = {"LD_PRELOAD": self.library, "REFUSING": self.file.name}
        with tempfile.TemporaryFile(dir=self.folder.name) as given:
            given.write(text)
            given.seek(0)
            done = subprocess.run([program, *words], stdin=given, stdout=subprocess.PIPE, stderr=subprocess.PIPE, env=env, **how)
        counted = dict(zip(FIELDS, struct.unpack("8Q", self.numbers[:64])))
        return (done.returncode, done.stdout, done.stderr), counted


def library(folder, name):
    """The library of a C file beside this one, made in the folder."""
    made = os.path.join(folder, name + ".so")
    source = HERE / (name + ".c")
    subprocess.run([compiler(), "-O1", "-shared", "-fPIC", "-nostdlib", *linker(), "-o", made, source], check=True)
    return made


def compiler():
    return shutil.which("cc") or str(toolchain() / "clang")


def linker():
    return [] if shutil.which("cc") else ["-fuse-ld=" + str(toolchain() / "ld.lld")]


def toolchain():
    """Where the toolchain's own compiler is."""
    return pathlib.Path(os.path.realpath(shutil.which("rt"))).parent.parent / "toolchain/bin"
