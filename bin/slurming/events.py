"""What an adapter says on standard error, for people or for machines."""
import json
import sys
import time
from typing import TextIO


class Events:
    """Says events: as a line behind the adapter's name, or as a JSON object with `event`, `time` and what belongs to it.
    A fault is said once, and once more when it is mended."""

    def __init__(self, is_json: bool, sink: TextIO = sys.stderr) -> None:
        self._is_json, self._sink = is_json, sink
        self._faults: dict[str, str] = {}

    def say(self, event: str, text: str, **more: object) -> None:
        if self._is_json:
            line = json.dumps({"time": round(time.time(), 6), "event": event, "text": text, **more})
        else:
            line = f"slurm: {text}".replace("\n", " ")
        try:
            self._sink.write(line + "\n")
            self._sink.flush()
        except OSError:
            pass  # nobody reads it, which is no reason to place no jobs

    def detail(self, event: str, text: str, **more: object) -> None:
        """Says what only machines want to know."""
        if self._is_json:
            self.say(event, text, **more)

    def fault(self, about: str, text: str) -> None:
        """Something does not work. It is said if it was not said of the same thing, in the same words, before."""
        text = " ".join(text.split())
        if self._faults.get(about) != text:
            self._faults[about] = text
            self.say("fault", text, about=about)

    def mend(self, about: str) -> None:
        """The thing works."""
        if self._faults.pop(about, None) is not None:
            self.say("mended", f"{about} works again", about=about)
