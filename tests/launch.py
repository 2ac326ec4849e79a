#!/usr/bin/env python3
"""Runs programs one after another, and tells of each what it wrote, how it ended, and what time and memory it took.

The programs are started by a small process of its own, which this file is when it is run: the peak of a process counts that of
the one that started it, so that the starter has to be small.
"""
import json
import os
import resource
import subprocess
import sys
import tempfile


class Ran:
    """How a program ended: its status, or less than 0 the signal that ended it; what it wrote; the processor time in seconds, and
    the peak of its memory in bytes."""

    def __init__(self, status, output, error, seconds, peak):
        self.status, self.output, self.error, self.seconds, self.peak = status, output, error, seconds, peak


class Launcher:
    """Starts programs, each with an input, and no more than so many seconds of processor time and bytes of address space."""

    def __init__(self):
        self.folder = tempfile.TemporaryDirectory()
        self.paths = [os.path.join(self.folder.name, name) for name in ("input", "output", "error")]
        self.starter = subprocess.Popen([sys.executable, "-I", "-S", os.path.abspath(__file__)], stdin=subprocess.PIPE, stdout=subprocess.PIPE)

    def __enter__(self):
        return self

    def __exit__(self, *_):
        self.starter.stdin.close()
        self.starter.wait()
        self.folder.cleanup()

    def run(self, words, text, seconds=60, space=4 << 30):
        with open(self.paths[0], "wb") as file:
            file.write(text)
        asked = {"words": words, "paths": self.paths, "seconds": seconds, "space": space}
        self.starter.stdin.write(json.dumps(asked).encode() + b"\n")
        self.starter.stdin.flush()
        status, took, peak = json.loads(self.starter.stdout.readline())
        output, error = [read(path) for path in self.paths[1:]]
        return Ran(status, output, error, took, peak)


def read(path):
    with open(path, "rb") as file:
        return file.read()


def started(words, paths, seconds, space):
    """Starts a program, waits for its end, and gives its status, time and peak."""
    child = os.fork()
    if child == 0:
        try:
            resource.setrlimit(resource.RLIMIT_CORE, (0, 0))
            resource.setrlimit(resource.RLIMIT_CPU, (seconds, seconds))
            resource.setrlimit(resource.RLIMIT_AS, (space, space))
            for number, flags in enumerate((os.O_RDONLY, os.O_WRONLY | os.O_CREAT | os.O_TRUNC, os.O_WRONLY | os.O_CREAT | os.O_TRUNC)):
                os.dup2(os.open(paths[number], flags, 0o600), number)
            os.execv(words[0], [os.fsencode(word) for word in words])
        finally:
            os._exit(127)
    _, status, used = os.wait4(child, 0)
    return os.waitstatus_to_exitcode(status), used.ru_utime + used.ru_stime, used.ru_maxrss * 1024


def main():
    for line in sys.stdin.buffer:
        asked = json.loads(line)
        told = started(asked["words"], asked["paths"], asked["seconds"], asked["space"])
        sys.stdout.write(json.dumps(told) + "\n")
        sys.stdout.flush()


if __name__ == "__main__":
    main()
