"""Tests that the commands of pages print what they show: each line that begins with `$ ` in a block of code, with the lines behind it.
A command for which a page shows no output is not run."""
import pathlib
import subprocess

ROOT = pathlib.Path(__file__).resolve().parent.parent
# pages, each with how many commands it shows at least
PAGES = {"README.md": 5, "docs/why.md": 1}


def shown(text):
    """Each command of the page with the output that is shown for it."""
    command, lines = None, []
    for line in text.splitlines():
        if not line.startswith("    ") and line.strip():
            if command:
                yield command, "\n".join(lines).rstrip("\n") + "\n"
            command, lines = None, []
        elif line.startswith("    $ "):
            if command:
                yield command, "\n".join(lines).rstrip("\n") + "\n"
            command, lines = line[len("    $ "):], []
        elif command:
            lines.append(line[4:])
    if command:
        yield command, "\n".join(lines).rstrip("\n") + "\n"


def all_tests():
    """Each test with whether it holds."""
    for page, least in PAGES.items():
        found = [(command, output) for command, output in shown((ROOT / page).read_text()) if output.strip()]
        yield "%s shows what commands print" % page, len(found) >= least
        for command, output in found:
            done = subprocess.run(["bash", "-o", "pipefail", "-c", command], cwd=ROOT, stdout=subprocess.PIPE, stderr=subprocess.DEVNULL,
                                  timeout=300)
            yield "%s: %s" % (page, command), done.stdout.decode() == output
