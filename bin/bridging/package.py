"""The package paho-mqtt, which speaks with brokers: found, or named if it is missing."""
import importlib.util
import os
import sys

from bridging.endings import NO_PACKAGE, Failure

DEBIANS = "/usr/bin/python3"
TRIED = "FETOHAMU_BRIDGE_TRIED"


def with_paho() -> None:
    """Returns if this interpreter has paho-mqtt; else runs the same command in Debian's own, or fails with a line that names the package."""
    if importlib.util.find_spec("paho") is not None:
        return
    if TRIED not in os.environ and os.access(DEBIANS, os.X_OK):
        os.environ[TRIED] = "yes"
        os.execv(DEBIANS, [DEBIANS, os.path.abspath(sys.argv[0]), *sys.argv[1:]])
    raise Failure(NO_PACKAGE, "Python's paho-mqtt is not installed (Debian's package: python3-paho-mqtt)")
