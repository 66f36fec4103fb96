"""Runs a follower, and writes down what it was asked and what it answered: tests/recording.py FILE PROGRAM WORD..

A line of the file is a JSON object: `line`, what was asked, and `answer`, the lines before `ok` or the refusal, with that at the end.
"""
import json
import subprocess
import sys


def answered(source):
    """The lines of an answer."""
    lines = []
    for line in source:
        lines.append(line)
        if line == b"ok\n" or line.startswith(b"refusal "):
            break
    return lines


def main(file, command):
    run = subprocess.Popen(command, stdin=subprocess.PIPE, stdout=subprocess.PIPE, bufsize=0)
    with open(file, "a") as record, open(run.stdout.fileno(), "rb", closefd=False) as source:
        for line in sys.stdin.buffer:
            run.stdin.write(line)
            answer = answered(source)
            if not answer:
                break
            print(json.dumps({"line": line.decode(errors="replace").rstrip("\n"), "answer": b"".join(answer).decode().splitlines()}),
                  file=record, flush=True)
            sys.stdout.buffer.write(b"".join(answer))
            sys.stdout.buffer.flush()
    run.stdin.close()
    return run.wait()


if __name__ == "__main__":
    try:
        sys.exit(main(sys.argv[1], sys.argv[2:]))
    except BrokenPipeError:
        sys.exit(1)
