#!/usr/bin/env python3
"""A session over a pipe whose client waits for each answer before it sends the next line.

    tests/pipe.py [PROGRAM]      the program is ./inkplay unless another is named

An answer that has not come after some seconds, or that is another one, fails. The story is the first line, and then a file;
answers are small, and larger than a pipe holds; lines come whole, and in pieces; stories are played to their stop, and line by
line, one that has no end among them. Last it prints how many sessions hold; the
status is 0 only where all do.
"""
import json
import os
import select
import subprocess
import sys
import tempfile
import time

import toolchain

SECONDS = 20
MIB = 1 << 20


class NoAnswer(Exception):
    pass


def line_of(pipe, held):
    """The next line that comes, and what came behind it."""
    end = time.monotonic() + SECONDS
    while b"\n" not in held:
        ready, _, _ = select.select([pipe], [], [], max(0, end - time.monotonic()))
        more = os.read(pipe.fileno(), 65536) if ready else b""
        if not more:
            raise NoAnswer("no answer after %d bytes" % len(held))
        held += more
    line, _, rest = held.partition(b"\n")
    return line, rest


def is_silent(pipe, held):
    """Whether nothing comes for a while."""
    return not held and not select.select([pipe], [], [], 0.1)[0]


def send(pipe, text, pieces):
    """Sends a text in so many pieces, some time apart."""
    size = max(1, -(-len(text) // pieces))
    for at in range(0, len(text), size):
        pipe.write(text[at:at + size])
        pipe.flush()
        if pieces > 1:
            time.sleep(0.02)


def talk(words, first, turns, pieces=1):
    """Sends what comes first, and then line after line, each once the answer to the one before has come."""
    with subprocess.Popen(words, stdin=subprocess.PIPE, stdout=subprocess.PIPE) as player:
        try:
            send(player.stdin, first, 1)
            held = b""
            for command, wanted in turns:
                if not is_silent(player.stdout, held):
                    return "spoke before it was asked"
                send(player.stdin, command.encode() + b"\n", pieces)
                line, held = line_of(player.stdout, held)
                if line != wanted.encode():
                    return "%s: %r" % (command, line[:200])
            player.stdin.close()
            if player.wait(SECONDS) != 0:
                return "status %d" % player.returncode
            return None
        except (NoAnswer, BrokenPipeError, subprocess.TimeoutExpired) as why:
            return str(why)
        finally:
            player.kill()


def passage(text, loose=False, more=False):
    return json.dumps({"choices": [], "events": [], "loose": loose, "more": more, "tags": [], "text": text}, separators=(",", ":"))


def save(text):
    """What a session is saved as that stands at its start, with this text in the global `x`."""
    frame = {"depth": 0, "eval": False, "fresh": False, "kind": "base", "place": [0], "temps": {}}
    flow = {"choices": [], "name": "DEFAULT_FLOW", "safe": False, "stack": [], "threads": [{"frames": [frame], "previous": None}]}
    return json.dumps({"current": "DEFAULT_FLOW", "flows": [flow], "format": 2, "globals": [["x", text]], "turn": 0, "turns": [], "visits": []},
                      separators=(",", ":"))


def story(*root):
    return json.dumps({"inkVersion": 21, "root": list(root) + [None]}, separators=(",", ":"))


DECLARED = story("ev", {"VAR?": "x"}, "out", "/ev", "done", ["ev", 1, {"VAR=": "x"}, "/ev", "end", {"#n": "global decl"}])
DONE = '{"events":[]}'
SMALL = (("get x", '{"value":1}'), ("bye", '{"refused":"BadCommand"}'), ("set x 7", DONE), ("through", passage("7")),
         ("through", '{"refused":"CannotContinue"}'), ("", '{"refused":"BadCommand"}'), ("restart", DONE), ("through", passage("1")))

# a story of lines: two lines, and then the value of `x`, which may be set between them
LINES = story("^A", "\n", "ev", 8, {"VAR=": "y"}, "/ev", "^B", "\n", "ev", {"VAR?": "x"}, "out", "/ev", "\n", "done", ["ev", 1, {"VAR=": "x"}, "/ev", "end", {"#n": "global decl"}])
BY_LINES = (("continue", passage("A\n", more=True)), ("get y", '{"refused":"NoSuchVariable"}'), ("continue", passage("B\n", more=True)), ("get y", '{"value":8}'),
            ("set x 7", DONE), ("continue", passage("7\n")), ("continue", '{"refused":"CannotContinue"}'), ("restart", DONE), ("continue", passage("A\n", more=True)),
            ("through", passage("B\n1\n")))
# one without an end
ENDLESS = story(["^again", "\n", {"->": "0"}, None])


def sessions(program, folder):
    """A name for each session, and what is wrong in it."""
    first = DECLARED.encode() + b"\n"
    yield "small answers", talk([program], first, SMALL)
    yield "small answers, lines in pieces", talk([program], first, SMALL, 3)
    file = os.path.join(folder, "story")
    with open(file, "w") as out:
        out.write(DECLARED)
    yield "small answers, the story in a file", talk([program, file], b"", SMALL)
    lines = LINES.encode() + b"\n"
    yield "line by line", talk([program], lines, BY_LINES)
    yield "line by line, commands in pieces", talk([program], lines, BY_LINES, 3)
    yield "lines without an end", talk([program], ENDLESS.encode() + b"\n", (("continue", passage("again\n", more=True)),) * 30)
    for size in (4000, 65536, MIB):
        long = story("^" + "x" * size, "\n", "^" + "y" * size, "\n", "^" + "z" * size, "end")
        turns = [("continue", passage(letter * size + "\n", more=True)) for letter in "xy"] + [("continue", passage("z" * size)), ("restart", DONE)]
        yield "lines of text of %d bytes" % size, talk([program], long.encode() + b"\n", turns * 2)
    for size in (4000, 4096, 65536, MIB, 8 * MIB):
        texts = ["^" + "x" * min(MIB, size - at) for at in range(0, size, MIB)]
        again = (("through", passage("x" * size)), ("restart", DONE))
        yield "answers of %d bytes" % size, talk([program], story(*texts, "end").encode() + b"\n", again * 3)
    for size in (4000, 4096, 65536, MIB - 8):
        turns = (('set x "%s"' % ("y" * size), DONE), ("get x", '{"value":"%s"}' % ("y" * size)))
        yield "lines of %d bytes" % size, talk([program], first, turns * 2)
    for size in (4000, 65536, MIB - 300):
        text = "y" * size
        turns = (('set x "%s"' % text, DONE), ("save", '{"saved":%s}' % save(text)), ("restart", DONE), ("load " + save(text), DONE), ("get x", '{"value":"%s"}' % text))
        yield "saves of %d bytes" % size, talk([program], first, turns * 2)


def main():
    program = sys.argv[1] if len(sys.argv) > 1 else os.path.join(toolchain.TOP, "inkplay")
    subprocess.run([program], input=story("done").encode() + b"\n", check=True)  # built
    good = count = 0
    with tempfile.TemporaryDirectory() as folder:
        for name, wrong in sessions(program, folder):
            count += 1
            good += wrong is None
            if wrong is not None:
                print("%s: %s" % (name, wrong))
    print("%d of %d sessions over a pipe hold" % (good, count))
    return 0 if good == count else 1


if __name__ == "__main__":
    sys.exit(main())
