#!/usr/bin/env python3
"""Feeds the program stories, saves and lines of the tables in which bytes and values are others, and looks for what no host may see.

    tests/mutate.py [--minutes N] [--seed N] [--program PROGRAM]      30 minutes, seed 1 and ./inkplay unless other ones are named

Each run takes a story of the tables of cases (docs/TABLES.md) with the lines of its session or some turns, and mostly changes it:
bytes are flipped, doubled, taken out, repeated many times, or replaced by what is
hard on parsers; or the JSON is read, and values of it are replaced, moved, repeated, wrapped or renamed. Saves are those that the
program gave for the story; they are changed likewise, and loaded.

A run is wrong where

- the program is ended by a signal, or by a status or a text on standard error that docs/PROTOCOL.md does not have;
- it is served to its end with more or fewer answers than lines, or what is written is no answer to its line: compact JSON in one
  of the forms of the page, with a name that this line may be refused or fault with;
- after a fault a line is not answered as of a broken player, or after a load that succeeded `save` gives another value than that
  in layout 2;
- it takes more than 3 times what plain ones take: the start, a plain story of as many bytes as are read and written, and a plain
  loop to the limit of steps for each line that runs (how many steps a line takes, nobody tells);
- it has more than 60 times its bytes at the peak, and more than what a run may keep: 64 MiB.

A run that takes too long is tried twice more, since machines have other work. Prints each run that is wrong, with the file that
keeps its input, and last what was tried and how many are wrong; the status is 0 only where none is.
"""
import argparse
import json
import os
import random
import re
import sys
import time

import launch
import model
import saves
import toolchain

MIB = 1 << 20
MOST_SOURCE, MOST_INPUT, MOST_LINES = 64 << 10, 4 * MIB, 400
MOST_TIMES, MOST_BYTES, KEPT, PLAIN_NOISE = 3, 60, 64 * MIB, 0.03
TABLES = ("inktest", "twintest", "playtest", "marktest")

FAULTS = {"StackEmpty", "BadOperands", "Divide", "BadMode", "BadPop", "BadTarget", "BadPointer", "NotCounted", "UnsafeInString", "Unbound",
          "HostRefused", "StopInString", "TooDeep", "OutOfSteps", "OutOfMemory", "NoTemp"}
# by which names a line may be refused, beside BadCommand, Broken and OutOfMemory
REFUSALS = {"continue": {"CannotContinue"}, "through": {"CannotContinue"}, "choose": {"NotAChoice"}, "set": {"BadValue", "NoSuchVariable"},
            "get": {"NoSuchVariable"}, "visits": {"NoSuchPath"}, "jump": {"NoSuchPath"}, "save": set(), "load": {"BadSave"}, "restart": set(),
            "flow": {"TooManyFlows"}, "drop": {"NoSuchFlow", "DefaultFlow"}}
# what a line may be answered with where it is done
DONE = {"continue": "passage", "through": "passage", "choose": "events", "set": "events", "get": "value", "visits": "visits", "jump": "events",
        "save": "saved", "load": "events", "restart": "events", "flow": "events", "drop": "events"}
# what may break a player
RUNNING = {"continue", "through", "restart", "set", "load"}
FORMS = {("choices", "events", "loose", "more", "tags", "text"): "passage", ("events",): "events", ("value",): "value", ("saved",): "saved",
         ("visits",): "visits", ("refused",): "refused", ("fault", "refused"): "broken", ("events", "fault"): "fault"}
STORY_ENDS = re.compile(rb"inkplay: (words refused|file not read|story refused: (NotJson|Version|OutOfMemory)"
                        rb"|story refused: (Shape|Unsupported|BadPath|Limit) at .*|story fault: ([A-Za-z]+))\n", re.S)
RUN_ENDS = re.compile(rb"inkplay: run fault: (TooLong|OutOfMemory)\n")

# what is hard on parsers, and values that are at edges
BYTES = [b"\0", b"\xff", b"\x80", b"\xc0\x80", b"\xed\xa0\x80", b"\xf4\x90\x80\x80", b"\xef\xbb\xbf", b"\x1f", b"\x7f", b"\n", b"\r", b"\t", b" ", b"\"", b"\\", b"[", b"]",
         b"{", b"}", b",", b":", b"\\u0000", b"\\ud800", b"\\udc00", b"\\ud83d\\ude00", b"\\u002d", b"\\x", b"1e400", b"1e-400", b"-0", b"01", b"0.0", b"2147483648", b"-2147483649",
         b"4294967296", b"4294967297", b"9223372036854775808", b"18446744073709551615", b"18446744073709551616", b"null", b"true", b"nul", b"NaN", b"/**/", b"//", b"[[[[", b"]]]]"]
VALUES = [0, 1, -1, 2147483647, -2147483648, 2147483648, 4294967297, 2 ** 63, 2 ** 64, 1.0, True, False, None, "", "^", "\n", "^ ", "^\0", "^" + "x" * 4000, "<>", "#", "/#", "str",
          "/str", "ev", "/ev", "out", "pop", "du", "nop", "void", "done", "end", "~ret", "->->", "thread", "choiceCnt", "turn", "turns", "readc", "visit", "+", "-", "*", "/", "%", "==",
          "<", ">", "!", "&&", "MIN", "_", [], [None], ["^a", None], {}, {"->": "0"}, {"->": ".^"}, {"->": ".^.^"}, {"->": "0.0"}, {"f()": "0"}, {"->t->": "0"}, {"x()": "f"},
          {"x()": "f", "exArgs": 2}, {"^->": "0"}, {"^var": "x", "ci": -1}, {"^var": "x", "ci": 0}, {"^var": "x", "ci": 1}, {"VAR=": "x"}, {"VAR=": "x", "re": True},
          {"temp=": "t"}, {"temp=": "t", "re": True}, {"VAR?": "x"}, {"CNT?": "0"}, {"*": "0", "flg": 0}, {"*": "0", "flg": 31}, {"#f": 5}, {"#f": 7}, {"#n": "n"}]
HEADS = ["->", "f()", "->t->", "x()", "*", "^->", "^var", "VAR?", "CNT?", "VAR=", "temp=", "var", "c", "re", "ci", "exArgs", "flg", "#f", "#n"]
LINES = [b"continue", b"through", b"choose 0", b"choose 1", b"choose 999999999", b"get x", b"set x 1", b"set x \"a\"", b"save", b"restart", b"visits 0", b"jump 0", b"load {}", b"flow a",
         b"flow \xc3\xa9", b"flow DEFAULT_FLOW", b"drop a", b"drop DEFAULT_FLOW", b"bye", b""]


# ---- what is changed

def sources():
    """Stories of the tables with lines to play them by, none of them long."""
    seen = {}
    for crate in TABLES:
        folder = os.path.join(toolchain.TOP, "crates", crate, "data")
        for name in sorted(os.listdir(folder)):
            for story, lines in stories_of(os.path.join(folder, name)):
                if len(story) <= MOST_SOURCE and (lines is None or sum(map(len, lines)) <= MOST_SOURCE):
                    seen.setdefault(story, []).append((lines or saves.turns_of(story))[:MOST_LINES])
    return [(story, lines) for story, sessions in seen.items() for lines in sessions]


def stories_of(path):
    """The stories of a table that are not long, with the lines of their sessions or none."""
    name = os.path.basename(path)
    with open(path, encoding="utf-8") as table:
        text = table.read()
    if name.startswith("sessions"):
        for part in text.split("\n= ")[1:]:
            if length(part) <= 2 * MOST_SOURCE:
                lines = saves.session_lines(part)
                yield lines[0], lines[1:]
        return
    for line in text.split("\n"):
        story = line[2:] if line.startswith("= ") else line.rpartition(" => ")[0] if name.startswith("twins") and line.startswith("{") else ""
        if story and length(story) <= MOST_SOURCE:
            yield saves.expanded(story), None


def length(text):
    """About how long a text of a table is with its forms in full."""
    return len(text) + sum(int(count) * len(form) for count, form in re.findall("[<>⟦]([0-9]+) ([^⟧\n]*)", text))


def with_other_bytes(chance, text, others):
    """A text in which some bytes are others."""
    for _ in range(chance.choice((1, 1, 1, 2, 3, 8))):
        at, end = chance.randrange(len(text) + 1), chance.randrange(len(text) + 1)
        piece = text[min(at, end):max(at, end)]
        kind = chance.randrange(11)
        if kind == 0 and text:
            at = min(at, len(text) - 1)
            text = text[:at] + bytes([text[at] ^ 1 << chance.randrange(8)]) + text[at + 1:]
        elif kind == 1:
            text = text[:at] + chance.choice(BYTES) + text[at:]
        elif kind == 2:
            text = text[:at] + chance.choice(BYTES) + text[at + 1:]
        elif kind == 3:
            text = text[:at] + text[at + chance.choice((1, 1, 2, 8)):]
        elif kind == 4:
            text = text[:at] + piece[:200] + text[at:]
        elif kind == 5 and chance.random() < 0.2:
            text = text[:at] + piece[:40] * min(chance.choice((10, 1000, 30000)), MOST_INPUT // (4 * len(piece[:40]) + 1)) + text[at:]
        elif kind == 6:
            text = text[:at]
        elif kind == 7:
            other = chance.choice(others)
            cut = chance.randrange(len(other) + 1)
            text = text[:at] + other[cut:cut + chance.choice((4, 40, 400))] + text[end:]
        else:
            numbers = list(re.finditer(rb"-?\d+|\"[^\"]*\"|true|false|null", text[:MOST_SOURCE]))
            if numbers:
                one = chance.choice(numbers)
                new = chance.choice([chance.choice(BYTES), chance.choice(numbers).group(), json.dumps(chance.choice(VALUES)).encode()])
                text = text[:one.start()] + new + text[one.end():]
    return text


def places_in(value, way=()):
    """The ways to all values in a value, not very many."""
    yield way
    items = value.items() if isinstance(value, dict) else enumerate(value) if isinstance(value, list) else ()
    for key, other in items:
        yield from places_in(other, way + (key,))


def at_way(value, way):
    for key in way:
        value = value[key]
    return value


def with_other_values(chance, text):
    """JSON in which some values are others; what is no JSON stays."""
    try:
        value = json.loads(text)
    except (ValueError, RecursionError):
        return text
    for _ in range(chance.choice((1, 1, 2, 3, 6))):
        ways = list(places_in(value))
        way = chance.choice(ways)
        if not way:
            continue
        holder, key, other = at_way(value, way[:-1]), way[-1], json.loads(json.dumps(at_way(value, chance.choice(ways))))
        kind = chance.randrange(9)
        if kind == 0:
            holder[key] = json.loads(json.dumps(chance.choice(VALUES)))
        elif kind == 1:
            holder[key] = other
        elif kind == 2:
            del holder[key]
        elif kind == 3 and isinstance(holder, list):
            holder.insert(key, json.loads(json.dumps(chance.choice(VALUES + [other]))))
        elif kind == 4 and isinstance(holder, list):
            one = json.dumps(holder[key])
            many = min(chance.choice((2, 10, 200, 5000, 60000)), MIB // (len(one) + 1))
            holder[key:key + 1] = json.loads("[" + ",".join([one] * many) + "]") if many else []
        elif kind == 5:
            for _ in range(chance.choice((1, 2, 30, 118, 130))):
                holder[key] = [holder[key], None]
        elif kind == 6 and isinstance(holder, dict):
            holder[chance.choice(HEADS + [str(key) + "x"])] = holder.pop(key)
        elif kind == 7 and isinstance(holder[key], str):
            holder[key] = chance.choice([str(p) for w in ways for p in [".".join(map(str, w[1:]))]] + [".^." + holder[key], holder[key] + ".0", holder[key] * 2])
        elif kind == 8 and isinstance(holder[key], int):
            holder[key] = chance.choice((holder[key] + 1, holder[key] - 1, -holder[key], holder[key] * 65536, holder[key] ^ 1))
    try:
        return json.dumps(value, ensure_ascii=False, separators=(",", ":")).encode()
    except (UnicodeEncodeError, RecursionError):
        return text


def changed(chance, text, others):
    kind = chance.random()
    if kind < 0.45:
        text = with_other_values(chance, text)
    if 0.4 < kind < 0.9:
        text = with_other_bytes(chance, text, others)
    return text[:MOST_INPUT]


def changed_lines(chance, lines, given):
    """Some lines of these, some of others, and saves that are changed, each with a save behind it."""
    made = []
    for line in lines:
        roll = chance.random()
        if roll < 0.08:
            made.append(with_other_bytes(chance, line, LINES))
        elif roll < 0.14:
            made.append(chance.choice(LINES))
        elif roll > 0.03 + 0.9:
            continue
        else:
            made.append(line)
        if given and chance.random() < 0.3:
            made += [b"load " + changed(chance, chance.choice(given), given), b"save"]
    return made


def words_for(chance, story):
    """Words that bind functions and watch globals of a story."""
    words = []
    functions, globals_ = [sorted(set(re.findall(form, story))) for form in (rb'"x\(\)":"([a-z_]{1,8})"', rb'"VAR=":"([a-z_]{1,8})"')]
    for name in functions[:4]:
        if chance.random() < 0.5:
            words += [("--answer", name.decode() + "=" + chance.choice(('[1,"a",null,true]', "[]", "[%s]" % ",".join(["7"] * 200)))),
                      ("--table", name.decode() + '={"[]":2,"[1]":"b"}')][chance.randrange(2)]
    for name in globals_[:4]:
        if chance.random() < 0.3:
            words += ("--watch", name.decode())
    return words


# ---- what may be seen

def word_of(line):
    """The command of a line, or none where it is none for sure. Whether its rest is one of it, the answer tells."""
    try:
        line.decode()
    except UnicodeDecodeError:
        return None
    word, space, rest = line.partition(b" ")
    word = word.decode()
    if word in ("continue", "through", "save", "restart"):
        return word if not space else None
    return word if word in DONE and rest else None


def parsed(line):
    """An answer as JSON, in the one way in which it is written; or none."""
    try:
        text = line.decode()
        value = json.loads(text)
        return value if isinstance(value, dict) and model.to_json(value) == text else None
    except (ValueError, RecursionError):
        return None


class Judge:
    """Goes along the answers of a session, and says of each what is wrong with it."""

    def __init__(self):
        self.fault = None
        self.stands = None

    def wrong(self, line, answer):
        word, value = word_of(line), parsed(answer)
        if value is None:
            return "no answer"
        form = FORMS.get(tuple(sorted(value)))
        if form is None:
            return "no form of an answer"
        stands, self.stands = self.stands, None
        if form == "refused":
            self.stands = stands
            return self.wrong_refusal(word, value["refused"])
        if form == "broken":
            return None if value == {"fault": self.fault, "refused": "Broken"} and word in DONE and word not in ("get", "load", "restart") else "not broken by this"
        if word is None:
            return "an answer to no command"
        if self.fault and word not in ("get", "load", "restart"):
            return "an answer of a broken player"
        if form == "fault":
            self.fault = value["fault"]
            return None if word in RUNNING and value["fault"] in FAULTS and (word in ("continue", "through", "restart") or value["fault"] == "OutOfMemory") else "no such fault"
        if form != DONE[word]:
            return "the answer of another command"
        if word == "save" and stands is not None and value["saved"] != stands:
            return "another save than was loaded"
        if word in ("load", "restart"):
            self.fault = None
        if word == "load":
            self.stands = model.in_layout_2(json.loads(line[len(b"load "):]))
        return None

    def wrong_refusal(self, word, name):
        if word is None:
            return None if name == "BadCommand" else "no BadCommand"
        if name == "BadCommand":
            return None if word in ("choose", "get", "set", "flow", "drop") else "a BadCommand"
        if self.fault and word not in ("get", "load", "restart") and not (word == "set" and name == "OutOfMemory"):
            return "a refusal of a broken player"
        return None if name in REFUSALS[word] | {"OutOfMemory"} else "no refusal of this command"


def wrong_answers(lines, ran):
    """What is wrong with what the program wrote, or none."""
    told = ran.output.split(b"\n")
    if told.pop() != b"":
        return "a line without an end"
    if ran.status == 2:
        ends = STORY_ENDS.fullmatch(ran.error)
        return None if ends and not told and (not ends[4] or ends[4].decode() in FAULTS) else "status 2 with other texts"
    if ran.status == 1 and not RUN_ENDS.fullmatch(ran.error) or ran.status == 0 and ran.error or ran.status not in (0, 1):
        return "a status that is none, or a text beside it"
    if len(told) > len(lines) or ran.status == 0 and len(told) != len(lines):
        return "%d answers to %d lines" % (len(told), len(lines))
    judge = Judge()
    for line, answer in zip(lines, told):
        what = judge.wrong(line, answer)
        if what:
            return "%s: %r to %r" % (what, answer[:200], line[:200])
    return None


# ---- runs

def knots(size):
    """A plain story of so many bytes: knots with text, evaluation, a choice and diverts."""
    knot = '"k%d":[["^You are at the crossing, and it rains.","\\n","ev",{"VAR?":"gold"},3,">","/ev",{"->":".^.^.g-0","c":true},{"->":"k%d"},"nop",null],{"g-0":["^Night.","\\n","done",null],"#f":1}]'
    many = max(1, size // len(knot % (10000, 10000)))
    return ('{"inkVersion":21,"root":["done",{' + ",".join(knot % (n, n * 7 % many) for n in range(many)) + "}]}").encode()


LOOP = b'{"inkVersion":21,"root":["ev",1,{"VAR=":"x","re":true},"/ev",{"->":"0"},{"global decl":["ev",1,{"VAR=":"x"},"/ev","end",null]}]}'


class Costs:
    """What plain runs of the program take."""

    def __init__(self, launcher, program):
        def least(text):
            return min(launcher.run([program], text).seconds for _ in range(5))

        self.start = least(b'{"inkVersion":21,"root":["done",null]}\n')
        self.byte = (least(knots(4 * MIB) + b"\n") - self.start) / (4 * MIB)
        self.run = least(LOOP + b"\nthrough\n") - self.start
        self.least_peak = launcher.run([program], b'{"inkVersion":21,"root":["done",null]}\n').peak

    def allowed(self, text, ran, runs):
        """The seconds that a run may take."""
        return MOST_TIMES * (self.start + (len(text) + len(ran.output)) * self.byte + runs * self.run) + PLAIN_NOISE

    def wrong_costs(self, text, ran, runs, again):
        if ran.peak - self.least_peak > MOST_BYTES * len(text) + KEPT:
            return "%d MiB at the peak for %d bytes" % (ran.peak // MIB, len(text))
        if ran.seconds > self.allowed(text, ran, runs) and min(again(), again()) > self.allowed(text, ran, runs):
            return "%.2f s for %d bytes and %d lines that run, where %.2f are allowed" % (ran.seconds, len(text), runs, self.allowed(text, ran, runs))
        return None


class Fuzzer:
    def __init__(self, launcher, program, seed, folder):
        self.launcher, self.program, self.chance, self.folder = launcher, program, random.Random(seed), folder
        self.costs = Costs(launcher, program)
        self.sources = sources()
        self.stories = [story for story, _ in self.sources]
        self.runs = self.opened = self.lines = self.loads = self.wrong = self.lacking = 0

    def given(self, story, lines):
        """Saves that the program gives for a story."""
        asked = [line for line in lines[:40] for line in (line, b"save")]
        told = self.launcher.run([self.program], b"\n".join([story] + asked) + b"\n").output.split(b"\n")
        return [text for text in map(saves.saved, told) if text and len(text) < 100000]

    def one(self):
        """A story with several changes of it and of its lines, one run each."""
        story, lines = self.chance.choice(self.sources)
        given = self.given(story, lines) if self.chance.random() < 0.5 else []
        for _ in range(8):
            kept = given and self.chance.random() < 0.7
            other = story if kept else changed(self.chance, story, self.stories)
            text = b"\n".join([other] + changed_lines(self.chance, lines, given)) + self.chance.choice((b"\n", b"\n", b""))
            self.try_one(words_for(self.chance, other), text[:MOST_INPUT])

    def try_one(self, words, text):
        ran = self.launcher.run([self.program] + words, text)
        lines = text.split(b"\n")[1:]
        if lines and lines[-1] == b"":
            lines.pop()
        running = sum(word_of(line) in ("continue", "through", "restart") for line in lines)
        self.runs += 1
        self.opened += ran.status != 2
        self.lines += len(lines) if ran.status != 2 else 0
        self.loads += ran.output.count(b'{"events":[]}') if b"\nload " in text else 0
        self.lacking += b"OutOfMemory" in ran.output + ran.error
        what = wrong_answers(lines, ran) or self.costs.wrong_costs(text, ran, running + 1, lambda: self.launcher.run([self.program] + words, text).seconds)
        if what:
            self.wrong += 1
            path = os.path.join(self.folder, "mutate-%d" % self.wrong)
            with open(path, "wb") as file:
                file.write(text)
            print("%s %s < %s: status %d, %s" % (self.program, " ".join(words), path, ran.status, what), flush=True)


def main():
    parser = argparse.ArgumentParser()
    parser.add_argument("--minutes", type=float, default=30)
    parser.add_argument("--seed", type=int, default=1)
    parser.add_argument("--folder", default="/tmp", help="where the inputs of wrong runs are kept")
    parser.add_argument("--program")
    words = parser.parse_args()
    program = os.path.realpath(words.program or toolchain.player())
    end = time.monotonic() + words.minutes * 60
    with launch.Launcher() as launcher:
        fuzzer = Fuzzer(launcher, program, words.seed, words.folder)
        print("plain: start %.1f ms, %.0f ns a byte, %.0f ms a loop to the limit of steps" % (fuzzer.costs.start * 1e3, fuzzer.costs.byte * 1e9, fuzzer.costs.run * 1e3), flush=True)
        while time.monotonic() < end:
            fuzzer.one()
    print("%d runs, of which %d opened a story, %d lines, %d lines done in runs that load, %d runs without memory, %d wrong"
          % (fuzzer.runs, fuzzer.opened, fuzzer.lines, fuzzer.loads, fuzzer.lacking, fuzzer.wrong))
    return 1 if fuzzer.wrong or not fuzzer.opened else 0


if __name__ == "__main__":
    sys.exit(main())
