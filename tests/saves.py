#!/usr/bin/env python3
"""Saves of all stories of the tables, and saves in which a byte is another.

    tests/saves.py [PROGRAM]      the program is ./inkplay unless another is named

Each story in the tables of inktest, twintest and playtest is played, a session by its own lines and any other
story by some lines, turns and jumps, and saved before each command and at the end. Then each save is loaded and saved again,
which has to give the same bytes, and played on by the command that came next, which has to be answered as it was. A save with one
flow is loaded in layout 1, too.

Of six saves, one with calls and temporaries, one with threads and choices, one with counts, one with texts on the stack and
an open evaluation, one with several flows, and one in layout 1, each beginning is loaded, and each save that has one bit flipped or
one byte doubled. What is no save has to be refused and to change nothing; what is loaded has to be saved as the very value that was
given, or as the same in layout 2. What is a save says the second model (tests/model.py).

Prints what is wrong, how much was tried, and last how many are wrong; the status is 0 only where none is.
"""
import json
import os
import subprocess
import sys

import model
import toolchain
from given_saves import choice, flow, frame, save, save_1, thread

MOST_INPUT = 48 << 20
# so many lines of a session have a save before each; of more lines every k-th has one
MOST_SAVES = 1000
TURNS = ("continue", "continue", "through", "choose 0", "continue", "through", "choose 1", "through", "choose 0", "continue", "through", "choose 2", "through")
MOST_JUMPS = 4
DONE, BAD_SAVE, BAD_COMMAND = b'{"events":[]}', b'{"refused":"BadSave"}', b'{"refused":"BadCommand"}'


def answers(program, lines):
    """What a program answers to lines, of which the first is the story."""
    done = subprocess.run([program], input=b"\n".join(lines) + b"\n", stdout=subprocess.PIPE, stderr=subprocess.PIPE)
    return done.stdout.split(b"\n")[:-1]


def saved(answer):
    """The save that an answer has, where it has one."""
    return answer[len(b'{"saved":'):-1] if answer.startswith(b'{"saved":') else None


# ---- stories of the tables

def expanded(text):
    """The bytes of a line of a table, with its forms in full."""
    pieces = text.split("⟦")
    line = pieces[0].encode()
    for piece in pieces[1:]:
        form, _, rest = piece.partition("⟧")
        count, space, repeated = form.partition(" ")
        line += "".join(repeated.replace("№", str(n)) for n in range(int(count))).encode() if space else bytes([int(form[1:], 16)])
        line += rest.encode()
    return line


def session_lines(text):
    """The lines that a session of a table reads."""
    lines = []
    for line in text.split("\n")[1:]:
        if line.startswith("<"):
            mark, _, rest = line.partition(" ")
            lines += [expanded(rest)] * (int(mark[1:]) if mark[1:].isdigit() else 1)
    return b"\n".join(lines).split(b"\n")


def turns_of(story):
    """Some turns of a story, and jumps to some of its knots."""
    try:
        names = [name for name, _ in model.named(json.loads(story)["root"])]
    except (ValueError, RecursionError, KeyError, IndexError, TypeError):
        names = []
    jumps = [("jump " + name).encode() for name in names[:MOST_JUMPS] if name and "\n" not in name and "." not in name]
    return [turn.encode() for turn in TURNS] + sum(([jump, b"continue", b"through", b"choose 0", b"continue", b"through"] for jump in jumps), [])


def table_sessions(path):
    """The sessions of a table: their stories and lines."""
    name = os.path.basename(path)
    with open(path, encoding="utf-8") as table:
        text = table.read()
    if name.startswith("sessions"):
        for part in text.split("\n= ")[1:]:
            lines = session_lines(part)
            yield lines[0], lines[1:]
    elif name.startswith(("stories", "players")):
        for line in text.split("\n"):
            if line.startswith("= "):
                yield expanded(line[2:]), None
    elif name.startswith("twins"):
        for line in text.split("\n"):
            if line.startswith("{"):
                yield expanded(line.rpartition(" => ")[0]), None


def sessions():
    """The sessions of all tables; a story without lines of its own once."""
    seen = set()
    for crate in ("inktest", "twintest", "playtest"):
        folder = os.path.join(toolchain.TOP, "crates", crate, "data")
        for name in sorted(os.listdir(folder)):
            for story, lines in table_sessions(os.path.join(folder, name)):
                if lines is None and story not in seen:
                    seen.add(story)
                    yield name, story, turns_of(story)
                elif lines is not None:
                    yield name, story, lines


def played(program, story, lines):
    """The saves of a session, each with the line that came next and its answer; with none at the end."""
    step = -(-len(lines) // MOST_SAVES) or 1
    asked = []
    for number, line in enumerate(lines):
        asked += [b"save", line] if number % step == 0 else [line]
    asked.append(b"save")
    told = answers(program, [story] + asked) + [b""] * (len(asked) + 1)
    rows = [(saved(told[at]), asked[at + 1:at + 2], told[at + 1:at + 2]) for at, line in enumerate(asked) if line == b"save"]
    return [(text, line[0], answer[0]) if line and answer[0] else (text, b"", b"") for text, line, answer in rows if text is not None]


def parts(rows, most):
    """Rows in parts whose lines are no more bytes than a program reads."""
    part, size = [], 0
    for row in rows:
        if part and size + len(row[0]) + len(row[1]) > most:
            yield part
            part, size = [], 0
        part.append(row)
        size += len(row[0]) + len(row[1]) + 20
    if part:
        yield part


def old(text):
    """A save with one flow in layout 1; none where it has several."""
    save = json.loads(text)
    return model.to_json(model.in_layout_1(save)).encode() if len(save["flows"]) == 1 else None


def reloaded(program, story, rows):
    """What is wrong with saves that are loaded, saved and played on."""
    for part in parts(rows, (MOST_INPUT - len(story)) // 2):
        asked, wanted = [], []
        for text, line, answer in part:
            saves = [text] + [one for one in (old(text),) if one]
            asked += sum(([b"load " + one, b"save"] for one in saves), []) + ([line] if line else [])
            wanted += [DONE, b'{"saved":' + text + b"}"] * len(saves) + ([answer] if line else [])
        told = answers(program, [story] + asked)
        for number, line in enumerate(wanted):
            came = told[number] if number < len(told) else b""
            if came != line:
                yield "%r: came %r, wanted %r" % (asked[number][:300], came[:300], line[:300])


def wrong_stories(program):
    """How many saves were loaded, and how many were wrong."""
    stories = saves = long = wrong = 0
    for table, story, lines in sessions():
        rows = list(dict.fromkeys(played(program, story, lines)))
        short = [row for row in rows if len(row[0]) + len(b"load ") <= model.MOST_LINE]
        stories, saves, long = stories + bool(rows), saves + len(short), long + len(rows) - len(short)
        for what in reloaded(program, story, short):
            wrong += 1
            print("%s: %r: %s" % (table, story[:200], what), flush=True)
    print("stories: %d played, %d saves loaded and saved again, %d too long for a line, %d wrong" % (stories, saves, long, wrong), flush=True)
    return saves, wrong


# ---- bytes

STORY = {"inkVersion": 21, "root": [["^a", "\n", ["^b", {"#n": "g", "#f": 3}], "done", {"#f": 5}], "done", {
    "f": ["^f", "nop", {"#f": 1, "in": ["^i", {"#f": 7}]}], "t": [["^t", {"#f": 2}], "ev", "void", "/ev", "->->", {"#f": 3}],
    "global decl": ["ev", 1, {"VAR=": "x"}, "/ev", "end", None]}]}


SAVES = {
    "calls and temporaries": save(threads=[thread(
        [0, 3], frame("base", [0, 1], 0, True, a=1, b=-2147483648, é="é\n"), frame("tunnel", ["t", 0, 0], 1, False, p={"ci": 1, "var": "a"}, v=None),
        frame("function", ["f", "in", 0], 0, True, True, q={"ci": 2, "var": "p"}, t={"->": "f.in"}, u=True))]),
    "threads and choices": save(
        threads=[thread(None, frame("base", [0, 2, 0])), thread(["t", 1], frame("base", [0, 3]), frame("tunnel", ["t", 2]))], safe=True, turn=3,
        choices=[choice("go", ["f", 0], thread([0, 2], frame("base", [0, 2, 1], a="z")), False, "one", "two"), choice("", [0], thread(None, frame("base", [1])), True)]),
    "counts": save(turn=2147483647, turns=[[[0, 2], 0], [["f", "in"], 2147483647], [["t"], 12], [["t", 0], 3]],
                   visits=[[[0], 1], [[0, 2], 20], [["f"], 3], [["f", "in"], 2147483647], [["t"], 1]], threads=[thread([0, 4], frame("base", None))]),
    "texts and an evaluation": save(
        globals=[["x", "a\"\\\u0001"], ["", {"tag": "t"}], ["y.z", {"->": "0.g"}]], stack=["", "word", {"tag": " é"}, None, -7, False, {"->": "f.2"}, {"ci": 0, "var": ""}],
        threads=[thread([], frame("base", [0, 4], 1000, True))]),
    "several flows": dict(save(turn=2, visits=[[["f"], 1]]), current="side", flows=[
        flow("DEFAULT_FLOW", safe=True, stack=["s"], threads=[thread([0, 3], frame("base", None))], choices=[choice("go", ["f", 0], thread([0, 2], frame("base", [0, 2, 1])))]),
        flow("é\t", threads=[thread(["t", 1], frame("base", [0, 3], 0, True, a=1), frame("tunnel", ["t", 2]))]), flow("side")]),
    "layout 1": save_1(
        globals=[["x", 1], ["y", {"ci": 0, "var": "x"}]], safe=True, stack=[True, {"tag": "t"}], threads=[thread([0, 3], frame("base", None))], turn=1,
        choices=[choice("go", ["f", 0], thread([0, 2], frame("base", [0, 2, 1], a="z"), frame("function", ["f", 1], 0, True, True)), True, "one")],
        turns=[[[0, 2], 1]], visits=[[["f"], 3]]),
}


def variants(text):
    """The beginnings of a text, it with each bit flipped, and with each byte doubled."""
    for at in range(len(text)):
        yield text[:at]
    for at in range(len(text)):
        for bit in range(8):
            yield text[:at] + bytes([text[at] ^ 1 << bit]) + text[at + 1:]
    for at in range(len(text)):
        yield text[:at + 1] + text[at:]


def verdict(root, line):
    """What a line that loads is answered, and the save that it loads, where it does."""
    try:
        text = line.decode()[len("load "):]
    except UnicodeDecodeError:
        return BAD_COMMAND, None
    if not text:
        return BAD_COMMAND, None
    try:
        machine = model.loaded(root, model.Host(), text)
    except model.BadSave:
        return BAD_SAVE, None
    return DONE, model.to_json(model.spelled(machine)).encode()


def wrong_bytes(program):
    """How many texts were loaded, and how many were answered wrongly."""
    story = json.dumps(STORY).encode()
    tried = loads = wrong = 0
    for name, value in SAVES.items():
        text = model.to_json(value).encode()
        lines = [b"load " + variant for variant in [text] + list(variants(text)) if b"\n" not in variant]
        told = answers(program, [story] + sum(([line, b"save"] for line in lines), []))
        stands = None
        for number, line in enumerate(lines):
            answer, other = verdict(STORY["root"], line)
            stands = other or stands
            wanted = [answer, b'{"saved":' + stands + b"}"]
            tried, loads = tried + 1, loads + (other is not None)
            if told[2 * number:2 * number + 2] != wanted:
                wrong += 1
                print("%s: %r: came %r, wanted %r" % (name, line, told[2 * number:2 * number + 2], wanted), flush=True)
    print("bytes: %d texts, %d of them saves, %d wrong" % (tried, loads, wrong), flush=True)
    return tried, wrong


def main():
    program = sys.argv[1] if len(sys.argv) > 1 else os.path.join(toolchain.TOP, "inkplay")
    answers(program, [json.dumps(STORY).encode()])  # built
    sys.setrecursionlimit(20000)
    counts = [wrong_bytes(program), wrong_stories(program)]
    tried, wrong = (sum(count) for count in zip(*counts))
    print("%d tried, %d wrong" % (tried, wrong))
    return 1 if wrong or not tried else 0


if __name__ == "__main__":
    sys.exit(main())
