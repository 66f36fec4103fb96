"""The toolchain's command `rt` as a module, for what is done with its functions in another order or form than it does itself."""
import importlib.machinery
import importlib.util
import pathlib
import shutil
import threading


def load():
    """The toolchain's command as a module."""
    path = pathlib.Path(shutil.which("rt") or "rt").resolve()
    loader = importlib.machinery.SourceFileLoader("rt", str(path))
    made = importlib.util.module_from_spec(importlib.util.spec_from_loader("rt", loader))
    loader.exec_module(made)
    return made


def with_sums_once(rt):
    """Has the toolchain sum up a crate's sources once for each sum that they are a part of, and not once for each way down to the crate.
    For the highest crates that takes a minute, and a command asks for the sums of all crates below, three times."""
    plain, of_thread = rt.rtlib.Crate.stamp, threading.local()

    def stamp(crate):
        outer = getattr(of_thread, "known", None)
        known = {} if outer is None else outer
        if crate.folder not in known:
            of_thread.known = known
            try:
                known[crate.folder] = plain(crate)
            finally:
                of_thread.known = outer
        return known[crate.folder]

    rt.rtlib.Crate.stamp = stamp
