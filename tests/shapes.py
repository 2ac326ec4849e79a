#!/usr/bin/env python3
"""Plays shapes of stories, saves and command lines that are made to take long or much, beside plain ones of their size or number of steps.

    tests/shapes.py [--program PROGRAM] [--size MIB] [--seconds N] [--space GIB] [NAME..]
        ./inkplay, stories of 16 MiB, 20 seconds, 3 GiB and all shapes, unless others are named; names may be parts of names

The shapes stand in hostile.py. Each is one run of the program. Its row has the bytes that are read, the processor time, how often
that is what plain ones take (a plain story of as many bytes, a plain loop of as many steps, as many plain lines, plain text of as
many bytes written), the peak of memory, how often that is the bytes, and how the run ended. A row that takes more than 3 times a
plain one, or more than 26 times its bytes and 16 MiB at the peak, is marked. A machine's pace changes from minute to minute, so a
row that takes more than 3 times a plain one, and not many times as long, is played again beside plain runs that are measured anew,
twice at most, and the least counts. A run is ended at the limits of time and of address space; its times are then the least that it
takes. The status is 0 only where no row is marked.
"""
import argparse
import os
import sys

import launch
import toolchain
from hostile import LINES, LOADED, MIB, MOST_STEPS, READING, RUNNING, THROUGH, flat, knots, named

MOST_TIMES, MOST_BYTES, KEPT = 3, 26, 16 * MIB
FAR_TIMES, TRIES = 12, 3
ENDINGS = ("OutOfMemory", "TooDeep", "OutOfSteps", "NotJson", "BadPath", "Unsupported", "BadSave", "BadPointer", "StackEmpty", "Limit", "Shape", "NoSuchPath", "NoSuchVariable", "BadValue")


class Plain:
    """What plain runs take."""

    def __init__(self, run):
        def least(text):
            return min(run(text).seconds for _ in range(3))

        empty = named('"done"') + "\n"
        self.peak, self.start = run(empty).peak, least(empty)
        self.byte = (least(knots(16 * MIB) + "\n") - self.start) / (16 * MIB)
        self.step = (least(RUNNING["a loop of arithmetic (plain)"][0] + "\n" + THROUGH) - self.start) / MOST_STEPS
        self.line = (least(empty + "get x\n" * 100000) - self.start) / 100000
        story = flat(4 * MIB, '"^' + "word " * 40 + '",')
        self.written = max(0, least(story + "\n" + THROUGH) - least(story + "\n")) / (4 * MIB)

    def takes(self, text, steps, written):
        return self.start + len(text) * self.byte + steps * self.step + (text.count("\n") - 1) * self.line + written * self.written


def ending(ran):
    if ran.status < 0:
        return "ended: signal %d" % -ran.status
    said = ran.error.decode(errors="replace").strip() or ran.output[-80:].decode(errors="replace").strip()
    for name in ENDINGS:
        if name in said:
            return name
    return said[:30] if ran.status else "served"


class Measure:
    """Runs shapes beside plain runs, which are measured anew where a shape's time is near its limit."""

    def __init__(self, run):
        self.run, self.plain = run, Plain(run)

    def played(self, text, steps, words):
        """A run of a shape, and how often it takes what plain runs take: the least of the tries."""
        tried = []
        for _ in range(TRIES):
            ran = self.run(text, words)
            times = ran.seconds / self.plain.takes(text, steps, len(ran.output))
            tried.append((ran, times))
            if not MOST_TIMES < times < FAR_TIMES:
                break
            self.plain = Plain(self.run)
        return min(tried, key=lambda one: one[1])


def tell(name, text, ran, times, plain):
    """Prints a row, and answers whether it is marked."""
    more = max(0, ran.peak - plain.peak)
    marks = ["time"] * (times > MOST_TIMES) + ["memory"] * (more > MOST_BYTES * len(text) + KEPT)
    print("%-50s %10d %8.2f %7.1f %8.0f %7.1f  %-18s %s" % (name, len(text), ran.seconds, times, ran.peak / MIB, more / len(text), ending(ran), " ".join(marks)), flush=True)
    return bool(marks)


def is_asked(names, name):
    return not names or any(part in name for part in names)


def shapes(names, size):
    """The shapes that are asked for, with the text that is read, how many steps there are, and the program's words."""
    for name, make in READING.items():
        if is_asked(names, name):
            yield name, make(size) + "\n", 0, ()
    for name, (story, lines, steps, *words) in {**RUNNING, **LOADED, **LINES}.items():
        if is_asked(names, name):
            yield name, story + "\n" + lines, steps, words[0] if words else ()


def main():
    parser = argparse.ArgumentParser()
    parser.add_argument("--program")
    parser.add_argument("--size", type=float, default=16)
    parser.add_argument("--seconds", type=int, default=20)
    parser.add_argument("--space", type=float, default=3)
    parser.add_argument("names", nargs="*")
    words = parser.parse_args()
    program = os.path.realpath(words.program or toolchain.player())
    tried = marked = 0
    with launch.Launcher() as launcher:
        def run(text, program_words=()):
            return launcher.run([program, *program_words], text.encode(errors="surrogateescape"), words.seconds, int(words.space * 1024) * MIB)

        measure = Measure(run)
        plain = measure.plain
        print("plain: start %.1f ms, %.1f ns a byte read, %.1f ns a step, %.0f ns a line, %.1f ns a byte written"
              % (plain.start * 1e3, plain.byte * 1e9, plain.step * 1e9, plain.line * 1e9, plain.written * 1e9))
        print("%-50s %10s %8s %7s %8s %7s  %s" % ("", "bytes", "s", "/ plain", "MiB", "/ bytes", "ends"))
        for name, text, steps, program_words in shapes(words.names, int(words.size * MIB)):
            tried += 1
            ran, times = measure.played(text, steps, program_words)
            marked += tell(name, text, ran, times, plain)
    print("%d shapes, %d marked" % (tried, marked))
    return 1 if marked or not tried else 0


if __name__ == "__main__":
    sys.exit(main())
