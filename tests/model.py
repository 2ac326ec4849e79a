#!/usr/bin/env python3
"""Plays random stories by a second, plain model of the rules in docs/, and compares what the program answers.

    tests/model.py [--runs N] [--seed N] [--reload] [PROGRAM]
                                                        2,000 runs of ./inkplay unless other ones are named; --reload has each session
                                                        saved before each of its commands and at its end, and each save loaded at once
    tests/model.py --stories N [--seed N]               prints that many random stories, one a line: small ones that are accepted
    tests/model.py --twins                              prints the stories that it reads as cases of a table of twins for twintest
    tests/model.py --marks                              prints the table of marks that it reads with its answers, for marktest

The model shares nothing with the program or its definitions. A line is what docs/RUNNING.md ("Lines") says it is: the model runs
forward, once, keeps all moments of the run, and cuts it behind the first step whose newline is firm; it never goes back. In many
sessions flow goes to other flows, makes some and drops some. Many are saved, and loaded once something else was done: there the model
goes on from the machine that it kept, so that what follows is what would have followed. Other saves are loaded as layout 1 spells
them, or with a change in them, which the model reads by the rules of docs/SAVES.md.

Prints the first runs that differ, and last how many do, with how many really played, how many were left out since the model takes
too long for them, how many lines were cut, how many saves were loaded, how many of these have several flows, how many were refused,
and how often flow went to another flow. The status is 0 only where none differs.
"""
import argparse
import copy
import json
import os
import random
import re
import subprocess
import sys

WHITE = " \t\n"
SINGLE = ("_", "!", "FLOOR", "CEILING", "INT")
OPERATORS = ("+", "-", "/", "*", "%", "==", ">", "<", ">=", "<=", "!=", "&&", "||", "MIN", "MAX", "?", "!?") + SINGLE
LEAST = -2 ** 31
MOST = 2 ** 31 - 1
MOST_TEXT = 2 ** 20
MOST_LINE = 2 ** 20


class Fault(Exception):
    pass


class TooSlow(Exception):
    """A run that the model leaves alone: tests/cases.py has the limits."""


# ---- values: int, bool and str stand for themselves, None for void

class Target(tuple):
    """The components of a path from the root."""


class Tag(str):
    """The text of a tag."""


class Pointer(tuple):
    """The number of a frame, or 0 for the globals, and a name."""


# what no operator takes, nothing prints and no condition is
KEPT = (Target, Tag, Pointer)


def wrapped(number):
    return (number - LEAST) % 2 ** 32 + LEAST


def printed(value):
    if isinstance(value, KEPT):
        raise Fault("BadOperands")
    if value is None:
        return ""
    if isinstance(value, bool):
        return "true" if value else "false"
    return str(value)


def is_true(value):
    if isinstance(value, KEPT):
        raise Fault("BadOperands")
    return bool(value)


def told(value):
    """A value as an answer tells it."""
    if isinstance(value, Target):
        return {"->": ".".join(map(str, value))}
    if isinstance(value, Pointer):
        return {"ci": value[0], "var": value[1]}
    return {"tag": str(value)} if isinstance(value, Tag) else value


def quotient(x, y):
    if y == 0 or (x, y) == (LEAST, -1):
        raise Fault("Divide")
    size = abs(x) // abs(y)
    return size if (x < 0) == (y < 0) else -size


def of_texts(operator, left, right):
    results = {"+": left + right, "==": left == right, "!=": left != right, "?": right in left, "!?": right not in left}
    if operator not in results:
        raise Fault("BadOperands")
    return results[operator]


def of_numbers(operator, x, y):
    if operator in ("/", "%"):
        whole = quotient(x, y)
        return whole if operator == "/" else x - whole * y
    results = {"+": wrapped(x + y), "-": wrapped(x - y), "*": wrapped(x * y), "==": x == y, "!=": x != y, "<": x < y, ">": x > y,
               "<=": x <= y, ">=": x >= y, "&&": x != 0 and y != 0, "||": x != 0 or y != 0, "MIN": min(x, y), "MAX": max(x, y)}
    if operator not in results:
        raise Fault("BadOperands")
    return results[operator]


def apply(operator, operands):
    if operator in ("==", "!=") and all(isinstance(v, Target) for v in operands):
        return (operands[0] == operands[1]) == (operator == "==")
    if any(v is None or isinstance(v, KEPT) for v in operands):
        raise Fault("BadOperands")
    if operator in SINGLE:
        if isinstance(operands[0], str):
            raise Fault("BadOperands")
        number = int(operands[0])
        return {"_": wrapped(-number), "!": number == 0}.get(operator, number)
    if any(isinstance(v, str) for v in operands):
        return of_texts(operator, *map(printed, operands))
    return of_numbers(operator, *map(int, operands))


# ---- text: marks are pairs of a kind and a text

def piece(text):
    return [("blank" if not text.strip(" \t") else "text", text)] if text else []


def cut_end(text):
    body = text.rstrip(WHITE)
    tail = text[len(body):]
    if "\n" not in tail:
        return piece(text)
    return piece(body + tail[:tail.index("\n")]) + [("newline", "\n")] + piece(tail[tail.rindex("\n") + 1:])


def cut(text):
    head = text[:len(text) - len(text.lstrip(WHITE))]
    if "\n" not in head:
        return cut_end(text)
    return piece(head[:head.index("\n")]) + [("newline", "\n")] + cut_end(text[head.rindex("\n") + 1:])


def last_before(marks, kinds):
    """For each mark, the kind of the last one before it that is of these."""
    last, found = None, []
    for kind, _ in marks:
        found.append(last)
        last = kind if kind in kinds else last
    return found


def first_behind(marks, kinds):
    """For each mark, the kind of the first one behind it that is of these."""
    return last_before(marks[::-1], kinds)[::-1]


def left(marks):
    """For each mark, whether a Leave stands behind it, no text between them, whose Enter stands before the mark or nowhere."""
    enters = {}
    for i, (kind, number) in enumerate(marks):
        if kind == "enter":
            enters.setdefault(number, i)
    # the first Enter of all that are left behind a mark, before any text
    found, first = [], len(marks)
    for i in reversed(range(len(marks))):
        found.append(first < i)
        kind, number = marks[i]
        if kind == "leave":
            first = min(first, enters.get(number, -1))
        elif kind == "text":
            first = len(marks)
    return found[::-1]


def shown_marks(marks):
    """The indexes of the marks that are shown."""
    is_left, glued, broken = left(marks), last_before(marks, ("glue", "text")), last_before(marks, ("newline", "text"))
    glue_or_text, glue_or_tag = first_behind(marks, ("glue", "text")), first_behind(marks, ("glue", "text", "tag"))
    indexes, last = [], None
    for i, (kind, _) in enumerate(marks):
        if kind == "text":
            indexes.append(i)
            last = "text"
        elif kind in ("blank", "newline") and is_left[i]:
            continue
        elif kind == "blank" and not (broken[i] == "newline" and glue_or_text[i] == "glue"):
            indexes.append(i)
        elif kind == "newline" and indexes and last != "newline" and glued[i] != "glue" and glue_or_tag[i] != "glue":
            indexes.append(i)
            last = "newline"
    return indexes


def shown(marks):
    return "".join(marks[i][1] for i in shown_marks(marks))


def cleaned(text):
    return "\n".join(" ".join(w for w in line.replace("\t", " ").split(" ") if w) for line in text.split("\n"))


# ---- stories, as JSON gives them

def own(container):
    return container[-1] if isinstance(container[-1], dict) else {}


def named(container):
    """The containers by key, by the bytes of their names."""
    return sorted((item for item in own(container).items() if item[0] not in ("#n", "#f")), key=lambda item: item[0].encode())


def width(content):
    return len(content) - 1 if isinstance(content, list) else 0


def found(root, place):
    content = root
    for part in place:
        if not isinstance(content, list):
            return None
        if isinstance(part, str):
            content = own(content).get(part) if part not in ("#n", "#f") else None
        else:
            content = content[part] if part < width(content) else None
    return content


def places(content):
    """The places of content and of all in it, in reading order."""
    yield []
    if isinstance(content, list):
        for part, inner in list(enumerate(content[:-1])) + named(content):
            for place in places(inner):
                yield [part] + place


def landed(root, place):
    return place + [0] if width(found(root, place)) else place


def after(root, place):
    while place and isinstance(place[-1], int):
        if place[-1] + 1 < width(found(root, place[:-1])):
            return place[:-1] + [place[-1] + 1]
        place = place[:-1]
    return None


# ---- paths: a pair that says whether it is relative, and the components

def path_of(text):
    relative = text.startswith(".")
    components = []
    for word in text[relative:].split("."):
        if not word:
            return None
        number = int(word) if all(c in "0123456789" for c in word) else None
        if number is not None and number >= 2 ** 31:
            return None
        components.append(word if number is None else number)
    return relative, components


def stepped(root, place, component, is_last):
    here = found(root, place)
    if component == "^":
        return place[:-1] if place else None
    if not isinstance(here, list):
        return None
    if isinstance(component, int):
        return place + [component] if component < width(here) + is_last else None
    if component in dict(named(here)):
        return place + [component]
    for index, content in enumerate(here[:-1]):
        if isinstance(content, list) and own(content).get("#n") == component:
            return place + [index]
    return None


def target(root, place, path):
    if path is None:
        return None
    relative, components = path
    place = place if relative else []
    for number, component in enumerate(components):
        place = stepped(root, place, component, number == len(components) - 1)
        if place is None:
            return None
    return place


def written(content):
    """The head and the text of the path that content has written; none where it has none."""
    for head in ("->", "f()", "->t->", "^->", "CNT?", "*"):
        if isinstance(content, dict) and head in content and not (head in ("->", "f()", "->t->") and content.get("var")):
            return head, content[head]
    return None


def is_bad(root, place, content):
    """Whether content has a written path that does not lead where it has to."""
    if written(content) is None:
        return False
    head, text = written(content)
    path = path_of(text)
    end = target(root, place, path)
    if head == "CNT?" or (head == "*" and content.get("flg", 16) & 16):
        there = None if end is None else found(root, end)
        return not (isinstance(there, list) and own(there).get("#f", 0) & 1)
    return end is None or (head == "^->" and path[0])


def refusal(root):
    """What is wrong with the story, at which place, where something is."""
    for place in places(root):
        if is_bad(root, place, found(root, place)):
            return "BadPath at %s" % (".".join(map(str, place)) or "root")
    return None


def knot(root, name):
    """The place of the knot of a name, where there is one."""
    if isinstance(own(root).get(name), list) and name not in ("#n", "#f"):
        return [name]
    for i, content in enumerate(root[:-1]):
        if isinstance(content, list) and own(content).get("#n") == name:
            return [i]
    return None


def flags_at(root, place):
    """The flags of the container at a place, none where no container is there."""
    content = found(root, place)
    return own(content).get("#f", 0) if isinstance(content, list) else None


# what a function of the host gives that refuses
REFUSED = object()


class Host:
    """What is bound to names: turn functions that give answers in order, pure functions that answer by a table, and watchers.
    It keeps what happened since it was last asked, and numbers it."""

    def __init__(self, scripts=None, tables=None, watched=()):
        self.scripts = {name: list(answers) for name, answers in (scripts or {}).items()}
        self.tables, self.watched = tables or {}, watched
        self.events, self.stamp = [], 0

    def note(self, event):
        self.events.append(dict(event, stamp=self.stamp))
        self.stamp += 1

    def taken(self):
        events, self.events = self.events, []
        return events

    def gives(self, name, arguments):
        """The answer to a call."""
        if name in self.tables:
            return self.tables[name].get(json.dumps(arguments, separators=(",", ":"), ensure_ascii=False), REFUSED)
        answer = self.scripts[name].pop(0) if self.scripts[name] else REFUSED
        self.note(dict({"call": name, "args": arguments}, **({"refused": True} if answer is REFUSED else {"gave": answer})))
        return answer

    def tell(self, before, now):
        """Tells the watchers which globals have other values than before."""
        for name, value in now.items():
            if name in self.watched and (name not in before or not is_same(before[name], value)):
                self.note({"saw": name, "value": told(value)})

    def words(self):
        """The words that have the program bind all this."""
        answers = [["--answer", "%s=%s" % (name, json.dumps(given))] for name, given in self.scripts.items()]
        tables = [["--table", "%s=%s" % (name, json.dumps(rows))] for name, rows in self.tables.items()]
        return sum(answers + tables + [["--watch", name] for name in self.watched], [])


def is_same(value, other):
    return type(value) is type(other) and value == other


class Frame:
    """What a call pushes. The depth says how many sections were open at its push, and the number is that of its Enter."""

    def __init__(self, kind, place, depth):
        self.kind, self.place, self.depth = kind, place, depth
        self.evaluating, self.fresh, self.number, self.temporaries = False, kind == "function", None, {}

    def again(self):
        other = copy.copy(self)
        other.temporaries = dict(self.temporaries)
        return other


class Thread(list):
    """Frames, the current one last, and the place from which flow last moved."""

    previous = None

    def again(self):
        other = Thread(frame.again() for frame in self)
        other.previous = self.previous
        return other


class Choice:
    """What a choice point makes: a text with its tags, where it leads, and a copy of the thread."""

    def __init__(self, text, tags, place, hidden, thread):
        self.text, self.tags, self.place, self.hidden, self.thread = text, tags, place, hidden, thread

    def again(self):
        return Choice(self.text, self.tags, self.place, self.hidden, self.thread.again())

    def shown(self):
        return {"tags": self.tags, "text": self.text}


class Flow:
    """What a flow has of its own, at a place at first."""

    def __init__(self, place):
        self.threads, self.stack, self.safe, self.choices = [Thread([Frame("base", place, 0)])], [], False, []

    def again(self):
        return Flow.of(self)

    @staticmethod
    def of(other):
        """A flow that stands where another one does, or that of a machine."""
        flow = Flow(None)
        flow.threads, flow.choices = [thread.again() for thread in other.threads], [choice.again() for choice in other.choices]
        flow.stack, flow.safe = list(other.stack), other.safe
        return flow


# the flow that is always there, and the most that there are
DEFAULT_FLOW, MOST_FLOWS = "DEFAULT_FLOW", 100

CALLS = {"f()": "function", "->t->": "tunnel"}


class Machine:
    """Runs one flow, the current one. The others wait, by their names, as they were left; the order is that of their making."""

    def __init__(self, root, place, global_values, host):
        self.root, self.globals, self.host = root, global_values, host
        self.current, self.order, self.waiting = DEFAULT_FLOW, [DEFAULT_FLOW], {}
        self.take(Flow(place))
        self.visits, self.turns, self.turn_number = {}, {}, 0
        self.begin()

    def take(self, flow):
        """This flow is run from now on."""
        self.threads, self.stack, self.safe, self.choices = flow.threads, flow.stack, flow.safe, flow.choices

    def go_to(self, name):
        """Flow goes to the flow of a name. One that is not there is made, at the start of the story."""
        if name != self.current:
            self.waiting[self.current] = Flow.of(self)
            if name not in self.order:
                self.order.append(name)
            self.take(self.waiting.pop(name).again() if name in self.waiting else Flow(landed(self.root, [])))
            self.current = name

    def drop(self, name):
        """The flow of a name is gone, which is not the first one."""
        if name == self.current:
            self.go_to(DEFAULT_FLOW)
        del self.waiting[name]
        self.order.remove(name)

    def flow_of(self, name):
        return self if name == self.current else self.waiting[name]

    def begin(self):
        self.marks, self.sections, self.numbers, self.safe = [], [], 0, False
        for thread in self.threads + [choice.thread for choice in self.choices]:
            for frame in thread:
                frame.number = None

    def again(self):
        """Another one that stands where this one does."""
        other = copy.copy(self)
        other.globals, other.stack = dict(self.globals), list(self.stack)
        other.threads, other.choices = [thread.again() for thread in self.threads], [choice.again() for choice in self.choices]
        other.order, other.waiting = list(self.order), dict(self.waiting)
        other.visits, other.turns = dict(self.visits), dict(self.turns)
        other.marks, other.sections = list(self.marks), [(kind, list(marks)) for kind, marks in self.sections]
        return other

    @property
    def frames(self):
        return self.threads[-1]

    @property
    def frame(self):
        return self.frames[-1]

    def pop(self):
        if not self.stack:
            raise Fault("StackEmpty")
        return self.stack.pop()

    def push(self, value):
        if len(self.stack) >= 10000:
            raise Fault("TooDeep")
        self.stack.append(value)

    def mark(self, mark):
        if not self.sections and len(self.marks) >= 100000:
            raise Fault("TooDeep")
        (self.sections[-1][1] if self.sections else self.marks).append(mark)

    def write(self, marks):
        for kind, text in marks:
            depth = len(self.sections)
            if kind == "newline" and self.frame.kind == "function" and self.frame.fresh and self.frame.depth == depth:
                continue
            self.mark((kind, text))
            if kind == "text":
                self.end_freshness(depth)

    def end_freshness(self, depth):
        for above, frame in enumerate(reversed(self.frames)):
            if above and frame.kind != "function":
                return
            frame.fresh = frame.fresh and frame.depth != depth

    def say(self, text, marks):
        if self.frame.evaluating:
            self.push(text)
        else:
            self.write(marks)

    def turn(self, evaluating):
        if self.frame.evaluating == evaluating:
            raise Fault("BadMode")
        self.frame.evaluating = evaluating

    def close(self, kind):
        if not self.sections or self.sections[-1][0] != kind:
            raise Fault("BadMode")
        return shown(self.sections.pop()[1])

    def tag(self, text):
        if self.sections:
            self.push(Tag(cleaned(text)))
        else:
            self.mark(("tag", Tag(cleaned(text))))

    def close_tag(self):
        self.tag(self.close("tag"))

    def close_tag_on_top(self):
        if self.sections and self.sections[-1][0] == "tag":
            self.close_tag()

    def section(self, word):
        if word == "str":
            self.turn(False)
            self.sections.append(("string", []))
        elif word == "/str":
            self.push(self.close("string"))
            self.frame.evaluating = True
        elif word == "/#":
            self.close_tag()
        else:
            self.close_tag_on_top()
            self.sections.append(("tag", []))

    # ---- variables

    def names(self, number):
        """The values by name of the globals, 0, or of the frame of a number; none where there is no such frame."""
        if number == 0:
            return self.globals
        return self.frames[number - 1].temporaries if number <= len(self.frames) else None

    def held(self, pointer):
        return (self.names(pointer[0]) or {}).get(pointer[1])

    def last_pointer(self, pointer):
        """The end of the chain that begins with a pointer."""
        met = 1
        while isinstance(self.held(pointer), Pointer):
            met += 1
            if met > len(self.frames) + 1:
                raise Fault("BadPointer")
            pointer = self.held(pointer)
        return pointer

    def led_to(self, pointer):
        """What a pointer leads to in the end, which has to stand: a frame, or the very global."""
        number, name = self.last_pointer(pointer)
        if self.names(number) is None or (number == 0 and name not in self.globals):
            raise Fault("BadPointer")
        return number, name

    def owner(self, name):
        """The number of what has a name: the globals, else the current frame; none where nothing has it."""
        if name in self.globals:
            return 0
        return len(self.frames) if name in self.frame.temporaries else None

    def read(self, name):
        number = self.owner(name)
        value = 0 if number is None else self.names(number)[name]
        if isinstance(value, Pointer):
            number, name = self.led_to(value)
            return self.names(number).get(name, 0)
        return value

    def pointer(self, content):
        number = content.get("ci", -1)
        if number < 0:
            number = len(self.frames) if content["^var"] in self.frame.temporaries else 0
        return Pointer((number, content["^var"]))

    def to_store(self, content):
        """What a content stores in the globals, which is stored once flow has moved: a fault on the way leaves them."""
        value = self.pop()
        name = content.get("VAR=", content.get("temp="))
        if content.get("re"):
            number = self.owner(name)
            if number is None:
                raise Fault("NoTemp")
            if isinstance(self.names(number)[name], Pointer):
                number, name = self.led_to(self.names(number)[name])
                if name not in self.names(number):
                    raise Fault("NoTemp")
        else:
            number = 0 if "VAR=" in content else len(self.frames)
            if isinstance(value, Pointer):
                value = self.last_pointer(value)
        if number == 0:
            return {name: value}
        self.names(number)[name] = value
        return {}

    # ---- counts

    def enter(self, place):
        flags = flags_at(self.root, place)
        if flags & 1:
            self.visits[tuple(place)] = min(self.visits.get(tuple(place), 0) + 1, MOST)
        if flags & 2:
            self.turns[tuple(place)] = self.turn_number

    def enter_around(self, place):
        """Flow has landed: what it enters of the containers around."""
        before, only_zeros = self.frames.previous, True
        if found(self.root, place) is None:
            return
        for size in reversed(range(len(place))):
            around, only_zeros = place[:size], only_zeros and place[size] == 0
            start_only = flags_at(self.root, around) & 4
            if before is not None and before[:size] == around and not start_only:
                return
            if only_zeros or not start_only:
                self.enter(around)

    def visits_at(self, place):
        if not flags_at(self.root, place) & 1:
            raise Fault("NotCounted")
        return self.visits.get(tuple(place), 0)

    def asked(self, word):
        """What `visit`, `turns` and `readc` push."""
        if word == "visit":
            return self.visits_at(self.frame.place[:-1]) - 1
        place = self.pop()
        if not isinstance(place, Target):
            raise Fault("BadTarget")
        place = target(self.root, [], (False, list(place)))
        flags = flags_at(self.root, place)
        if flags is None:
            return 0 if word == "readc" else -1
        if word == "readc":
            return self.visits_at(place)
        if not flags & 2:
            raise Fault("NotCounted")
        return self.turn_number - self.turns[tuple(place)] if tuple(place) in self.turns else -1

    def word(self, word):
        if word.startswith("^"):
            self.say(word[1:], cut(word[1:]))
        elif word == "\n":
            self.say("\n", [("newline", "\n")])
        elif word == "<>":
            if self.frame.evaluating:
                raise Fault("BadMode")
            self.mark(("glue", ""))
        elif word == "void":
            if self.frame.evaluating:
                self.push(None)
        elif word in ("ev", "/ev"):
            self.turn(word == "ev")
        elif word in ("str", "/str", "#", "/#"):
            self.section(word)
        elif word == "out":
            if self.stack:
                self.write(cut(printed(self.stack.pop())))
        elif word == "pop":
            self.pop()
        elif word == "du":
            value = self.pop()
            self.stack.append(value)
            self.push(value)
        elif word in OPERATORS:
            operands = [self.pop() for _ in range(1 if word in SINGLE else 2)]
            self.push(apply(word, operands[::-1]))
        elif word in ("visit", "turns", "readc"):
            self.push(self.asked(word))
        elif word == "turn":
            self.push(self.turn_number)
        elif word == "choiceCnt":
            self.push(len(self.choices))

    # ---- choices

    def words(self, are_there):
        """A text from the stack, and the tags below it as they were written."""
        if not are_there:
            return "", []
        text, tags = self.pop(), []
        if isinstance(text, (Tag, bool, int)) or not isinstance(text, str):
            raise Fault("BadOperands")
        while self.stack and isinstance(self.stack[-1], Tag):
            tags.append(str(self.stack.pop()))
        return text, tags[::-1]

    def offer(self, content):
        flags, path = content.get("flg", 16), path_of(content["*"])
        end = target(self.root, self.frame.place, path)
        is_wanted = is_true(self.pop()) if flags & 1 else True
        only, only_tags = self.words(flags & 4)
        start, start_tags = self.words(flags & 2)
        if not is_wanted or (flags & 16 and self.visits_at(end)):
            return
        text = (start + only).strip(" \t")
        if len(text.encode()) > MOST_TEXT or len(self.choices) >= 1000:
            raise Fault("TooDeep")
        place = end if isinstance(path[1][-1], int) else landed(self.root, end)
        self.choices.append(Choice(text, start_tags + only_tags, place, bool(flags & 8), self.frames.again()))

    def visible(self):
        return [choice for choice in self.choices if not choice.hidden]

    def take_up(self, choice):
        self.threads, self.choices = [choice.thread], []
        self.frame.place = choice.place
        self.enter_around(choice.place)

    def next_turn(self):
        self.turn_number = min(self.turn_number + 1, MOST)

    def jump(self, place):
        self.threads, self.safe, self.choices = [Thread([Frame("base", place, 0)])], True, []
        self.next_turn()
        self.enter_around(place)

    # ---- where flow goes

    def led(self, content, head):
        """Where a divert, a call or a tunnel leads, and whether it enters containers around; none where its condition is false."""
        if content.get("c") and not is_true(self.pop()):
            return None
        if content.get("var"):
            value = self.read(content[head])
            if not isinstance(value, Target):
                raise Fault("BadTarget")
            return target(self.root, [], (False, list(value))), isinstance(value[-1], int)
        path = path_of(content[head])
        place = target(self.root, self.frame.place, path)
        return (place if isinstance(path[1][-1], int) else landed(self.root, place)), True

    def land(self, place, enters):
        """Flow moves from where it is to a place."""
        self.frames.previous, self.frame.place = self.frame.place, place
        if enters:
            self.enter_around(place)

    def call(self, kind, place, enters):
        if len(self.frames) >= 1000:
            raise Fault("TooDeep")
        frame = Frame(kind, self.frame.place, len(self.sections))
        if kind == "function":
            frame.number, self.numbers = self.numbers, self.numbers + 1
            self.mark(("enter", frame.number))
        self.frames.append(frame)
        self.land(place, enters)

    def leave(self, kind):
        """The top frame is popped, which has to be of this kind."""
        if self.frame.kind != kind or len(self.frames) == 1:
            raise Fault("BadPop")
        if self.frame.depth != len(self.sections):
            raise Fault("BadMode")
        if kind == "function":
            self.mark(("leave", self.frame.number))
        self.frames.pop()

    def arguments(self, count):
        """The values on top of the stack, popped all at once."""
        if len(self.stack) < count:
            raise Fault("StackEmpty")
        values = self.stack[len(self.stack) - count:]
        del self.stack[len(self.stack) - count:]
        if any(value is None or isinstance(value, KEPT) for value in values):
            raise Fault("BadOperands")
        return values

    def external(self, content):
        """A call of what is bound to a name, or else of the knot of that name; whether flow has moved."""
        name = content["x()"]
        if content.get("c") and not is_true(self.pop()):
            return False
        if name in self.host.scripts and any(kind == "string" for kind, _ in self.sections):
            raise Fault("UnsafeInString")
        if name not in self.host.scripts and name not in self.host.tables:
            place = knot(self.root, name)
            if place is None:
                raise Fault("Unbound")
            self.call("function", landed(self.root, place), True)
            return True
        answer = self.host.gives(name, self.arguments(content.get("exArgs", 0)))
        if answer is REFUSED:
            raise Fault("HostRefused")
        if isinstance(answer, str) and len(answer.encode()) > MOST_TEXT:
            raise Fault("TooDeep")
        self.push(answer)
        return False

    def back(self, word):
        """`~ret` and `->->`: a frame goes, and flow goes on behind its call, or to a tunnel's target."""
        if word == "~ret":
            self.leave("function")
            return self.go_on()
        value = self.pop()
        if value is not None and not isinstance(value, Target):
            raise Fault("BadPop")
        self.leave("tunnel")
        if value is None:
            return self.go_on()
        return self.land(target(self.root, [], (False, list(value))), isinstance(value[-1], int))

    def go_on(self):
        """Flow goes on behind where it is: ended functions give void to a caller that evaluates, ended threads are dropped."""
        place = None if self.frame.place is None else after(self.root, self.frame.place)
        if place is not None:
            self.land(place, False)
        elif self.frame.kind == "function":
            self.leave("function")
            if self.frame.evaluating:
                self.push(None)
            self.go_on()
        elif len(self.threads) > 1:
            self.threads.pop()
            self.go_on()
        else:
            self.frames.previous = self.frame.place
            self.stop()

    def stop(self):
        self.frame.place = None
        if self.sections:
            raise Fault("StopInString")

    def fork(self):
        self.go_on()
        if self.frame.place is not None:
            if len(self.threads) >= 100:
                raise Fault("TooDeep")
            self.threads.append(self.frames.again())

    def done(self):
        if len(self.threads) > 1:
            self.threads.pop()
            return self.go_on()
        self.safe = True
        return self.stop()

    def end(self):
        self.threads, self.safe, self.choices = [Thread([Frame("base", None, 0)])], True, []
        self.stop()

    def step(self):
        self.perform()
        if self.frame.place is None and self.choices and not self.visible():
            self.take_up(self.choices[0])

    def perform(self):
        while isinstance(found(self.root, self.frame.place), list):
            self.enter(self.frame.place)
            if not width(found(self.root, self.frame.place)):
                break
            self.frame.place = self.frame.place + [0]
        content, stored = found(self.root, self.frame.place), {}
        ways = {"done": self.done, "end": self.end, "thread": self.fork}
        if isinstance(content, str) and content in ways:
            return ways[content]()
        if content in ("~ret", "->->"):
            return self.back(content)
        if isinstance(content, str):
            self.word(content)
        elif isinstance(content, dict) and "->" in content:
            way = self.led(content, "->")
            if way is not None:
                return self.land(*way)
        elif isinstance(content, dict) and ("f()" in content or "->t->" in content):
            head = "f()" if "f()" in content else "->t->"
            way = self.led(content, head)
            if way is not None:
                return self.call(CALLS[head], *way)
        elif isinstance(content, dict) and "x()" in content:
            if self.external(content):
                return None
        elif isinstance(content, dict) and "^->" in content:
            if self.frame.evaluating:
                self.push(Target(path_of(content["^->"])[1]))
        elif isinstance(content, dict) and "*" in content:
            self.offer(content)
        elif isinstance(content, dict) and "^var" in content:
            if self.frame.evaluating:
                self.push(self.pointer(content))
        elif isinstance(content, dict) and "CNT?" in content:
            self.push(self.visits_at(target(self.root, self.frame.place, path_of(content["CNT?"]))))
        elif isinstance(content, dict) and ("VAR=" in content or "temp=" in content):
            stored = self.to_store(content)
        elif isinstance(content, dict) and "#" in content:
            self.close_tag_on_top()
            self.tag(content["#"])
        elif isinstance(content, dict):
            self.push(self.read(content["VAR?"]))
        elif isinstance(content, int) and self.frame.evaluating:
            self.push(content)
        self.go_on()
        self.globals.update(stored)
        return None

    def run(self):
        for _ in range(5000):
            if self.frame.place is None:
                return
            self.step()
        raise TooSlow()


# ---- lines: a run forward, all of whose moments are kept, and where it is cut

class Wanted(Exception):
    """A turn function is called."""


class Asked(Host):
    """What a host has bound, where a call of a turn function is wanted and not made."""

    def __init__(self, host):
        self.scripts, self.tables = host.scripts, host.tables

    def gives(self, name, arguments):
        if name in self.scripts:
            raise Wanted()
        return Host.gives(self, name, arguments)


# what a step comes to that leads to no moment; where flow has stopped there is no step
CALL, NO_STEP = "call", "no step"


class Run:
    """The run forward from a machine, with all its moments: the n-th is a machine that stands where it stood after n steps."""

    def __init__(self, machine):
        self.host, self.asked = machine.host, Asked(machine.host)
        first = machine.again()
        first.begin()
        self.moments, self.calls, self.end = [first], set(), None
        # what is shown of so many marks: a moment's marks are those of the moment before, and those that its step wrote
        self.shown_of = {}

    def add(self, host):
        """One more step, if it leads to a moment. Otherwise this tells what it comes to: a call, a fault, or that there is none."""
        if self.moments[-1].frame.place is None:
            self.end = NO_STEP
            return
        if len(self.moments) > 5000 or len(self.moments[-1].marks) > 1000:
            raise TooSlow()
        machine = self.moments[-1].again()
        machine.host = host
        try:
            machine.step()
            machine.host = self.host
            self.moments.append(machine)
            self.end = None
        except Wanted:
            self.end = CALL
        except Fault as fault:
            self.end = fault

    def go_on(self):
        """Some more steps, but no call."""
        for _ in range(len(self.moments)):
            if self.end is None:
                self.add(self.asked)

    def call(self):
        """The step that makes the call that is wanted."""
        self.add(self.host)
        self.calls.add(len(self.moments) - (self.end is None))

    def written(self, step):
        """The marks that a step wrote into the line, by their indexes."""
        return range(len(self.moments[step - 1].marks), len(self.moments[step].marks))

    def shows(self, moment, index):
        """Whether a mark of the line is shown at a moment."""
        marks = self.moments[moment].marks
        if len(marks) not in self.shown_of:
            self.shown_of[len(marks)] = shown_marks(marks)
        return index in self.shown_of[len(marks)]

    def newline(self, step):
        """The newline that a step has: one that it wrote, and that is shown after it, with no text or tag behind it, and no string
        or tag open; none where there is none."""
        machine = self.moments[step]
        for index in [] if machine.sections else self.written(step):
            behind = [kind for kind, _ in machine.marks[index + 1:]]
            if machine.marks[index][0] == "newline" and self.shows(step, index) and "text" not in behind and "tag" not in behind:
                return index
        return None

    def is_firm(self, step):
        """Whether a step has a newline that is firm; none where that is not known before there are more steps."""
        index = self.newline(step)
        if index is None:
            return False
        for later in range(step + 1, len(self.moments) + 1):
            if not self.shows(later - 1, index):
                return False
            if later == len(self.moments):
                # the step that the run has come to
                return None if self.end is None else self.end is not NO_STEP
            if later in self.calls:
                return True
            kinds = [self.moments[later].marks[i][0] for i in self.written(later)]
            if ("text" in kinds or "tag" in kinds) and self.shows(later, index):
                return True
        raise AssertionError("a step that is not there")

    def first_firm(self, known):
        """The first step with a firm newline, and how many steps before it are known to have none; the step is none where none is
        known to be the first."""
        for step in range(known + 1, len(self.moments)):
            is_firm = self.is_firm(step)
            if is_firm is not False:
                return (step if is_firm else None), step - 1
        return None, len(self.moments) - 1


def line_from(machine):
    """The line of a command: the machine that is kept, whether the run was cut there, and its fault, if it has one."""
    run, known = Run(machine), 0
    while True:
        run.go_on()
        step, known = run.first_firm(known)
        if step is not None:
            return run.moments[step], True, None
        if run.end is CALL:
            run.call()
        elif run.end is not None:
            return run.moments[-1], False, None if run.end is NO_STEP else run.end


def opened(root, host):
    """The machine at the start of a story. Nothing is bound while its declarations run."""
    place, declared = knot(root, "global decl"), {}
    if place is not None:
        machine = Machine(root, landed(root, place), {}, Host())
        machine.run()
        declared = machine.globals
    return Machine(root, landed(root, []), declared, host)


# ---- JSON

def fraction(text):
    number = float(text)
    if number in (float("inf"), float("-inf")):
        raise ValueError(text)
    return number


def whole(text):
    """A whole number, where it has 64 bits; `-0` is a float."""
    number = int(text)
    return fraction(text) if text == "-0" or not -2 ** 63 <= number < 2 ** 64 else number


def no_word(word):
    raise ValueError(word)


def of_json(text):
    """What JSON spells. A text has whole characters alone."""
    try:
        value = json.loads(text, parse_int=whole, parse_float=fraction, parse_constant=no_word)
        to_json(value).encode()
        return value
    except RecursionError:
        raise ValueError("nested too deep")


def to_json(value):
    return json.dumps(value, separators=(",", ":"), sort_keys=True, ensure_ascii=False)


# ---- saves, as they are spelled

def spelled_frame(frame):
    return {"depth": frame.depth, "eval": frame.evaluating, "fresh": frame.fresh, "kind": frame.kind, "place": frame.place,
            "temps": {name: told(value) for name, value in frame.temporaries.items()}}


def spelled_thread(thread):
    return {"frames": [spelled_frame(frame) for frame in thread], "previous": thread.previous}


def spelled_choice(choice):
    return {"hidden": choice.hidden, "tags": choice.tags, "target": choice.place, "text": choice.text, "thread": spelled_thread(choice.thread)}


def in_order(place):
    """What places rise by: an index comes before a name."""
    return [(0, part, "") if isinstance(part, int) else (1, 0, part) for part in place]


def spelled_counts(counts):
    return [[list(place), counts[place]] for place in sorted(counts, key=in_order)]


def spelled_flow(flow):
    return {"choices": [spelled_choice(choice) for choice in flow.choices], "safe": flow.safe, "stack": [told(value) for value in flow.stack],
            "threads": [spelled_thread(thread) for thread in flow.threads]}


def spelled(machine):
    """What a machine is saved as: layout 2."""
    return {"current": machine.current, "flows": [dict(spelled_flow(machine.flow_of(name)), name=name) for name in machine.order], "format": 2,
            "globals": [[name, told(value)] for name, value in machine.globals.items()],
            "turn": machine.turn_number, "turns": spelled_counts(machine.turns), "visits": spelled_counts(machine.visits)}


def in_layout_1(save, at=0):
    """A save in layout 1: one that has the flow of this number alone."""
    shared = {key: value for key, value in save.items() if key not in ("current", "flows")}
    return dict(shared, format=1, **{key: value for key, value in save["flows"][at].items() if key != "name"})


def in_layout_2(save):
    """A save in layout 2, where it is one in layout 1."""
    own = ("choices", "safe", "stack", "threads")
    if save["format"] == 2:
        return save
    flow = dict({key: save[key] for key in own}, name=DEFAULT_FLOW)
    return dict({key: value for key, value in save.items() if key not in own}, current=DEFAULT_FLOW, flows=[flow], format=2)


# ---- saves, as they are read

class BadSave(Exception):
    pass


def need(condition):
    if not condition:
        raise BadSave()


def fields(value, *names):
    """The members of an object that has these and no others."""
    need(isinstance(value, dict) and set(value) == set(names))
    return [value[name] for name in names]


def boolean(value):
    need(isinstance(value, bool))
    return value


def string(value):
    need(isinstance(value, str))
    return value


def integer(value, least, most):
    need(type(value) is int and least <= value <= most)
    return value


def array(value, most=None):
    need(isinstance(value, list) and (most is None or len(value) <= most))
    return value


def is_flow_name(name):
    """Whether a flow may have a name."""
    return name != "" and " " not in name and "\n" not in name and len(name.encode()) <= MOST_TEXT


class Reader:
    """Reads a save of a story."""

    def __init__(self, root):
        self.root = root

    def place(self, value):
        """A place of content, or of a container's end."""
        for part in array(value):
            if not isinstance(part, str):
                integer(part, 0, MOST)
        around = found(self.root, value[:-1])
        need(found(self.root, value) is not None or (isinstance(around, list) and value[-1] == width(around)))
        return value

    def text(self, value):
        need(len(string(value).encode()) <= MOST_TEXT)
        return value

    def target(self, text):
        path = path_of(string(text))
        need(path is not None and not path[0] and ".".join(map(str, path[1])) == text)
        need(target(self.root, [], path) is not None)
        return Target(path[1])

    def value(self, value):
        if isinstance(value, dict) and "->" in value:
            return self.target(*fields(value, "->"))
        if isinstance(value, dict) and "tag" in value:
            return Tag(self.text(*fields(value, "tag")))
        if isinstance(value, dict):
            frame, name = fields(value, "ci", "var")
            return Pointer((integer(frame, 0, MOST), string(name)))
        if value is None or isinstance(value, bool):
            return value
        return self.text(value) if isinstance(value, str) else integer(value, LEAST, MOST)

    def frame(self, value):
        depth, evaluating, fresh, kind, place, temporaries = fields(value, "depth", "eval", "fresh", "kind", "place", "temps")
        need(kind in ("base", "function", "tunnel") and isinstance(temporaries, dict))
        frame = Frame(kind, place if place is None else self.place(place), integer(depth, 0, 1000))
        frame.evaluating, frame.fresh = boolean(evaluating), boolean(fresh)
        frame.temporaries = {name: self.value(held) for name, held in temporaries.items()}
        return frame

    def thread(self, value, may_have_stopped=False):
        frames, previous = fields(value, "frames", "previous")
        thread = Thread(self.frame(frame) for frame in array(frames, 1000))
        need(thread and [frame.kind == "base" for frame in thread] == [True] + [False] * (len(thread) - 1))
        need(all(frame.place is not None for frame in (thread[:-1] if may_have_stopped else thread)))
        thread.previous = previous if previous is None else self.place(previous)
        return thread

    def choice(self, value):
        hidden, tags, place, text, thread = fields(value, "hidden", "tags", "target", "text", "thread")
        return Choice(self.text(text), [self.text(tag) for tag in array(tags)], self.place(place), boolean(hidden), self.thread(thread))

    def names(self, value):
        """The globals, in order; each name stands once."""
        values = {}
        for row in array(value):
            need(len(array(row)) == 2 and string(row[0]) not in values)
            values[row[0]] = self.value(row[1])
        return values

    def counts(self, value, flag, least):
        counts, last = {}, None
        for row in array(value):
            need(len(array(row)) == 2)
            place = self.place(row[0])
            need((flags_at(self.root, place) or 0) & flag and (last is None or last < in_order(place)))
            counts[tuple(place)], last = integer(row[1], least, MOST), in_order(place)
        return counts

    def flow(self, choices, safe, stack, threads):
        flow = Flow(None)
        flow.threads = [self.thread(thread, len(threads) == 1) for thread in array(threads, 100)]
        need(flow.threads)
        flow.stack, flow.safe = [self.value(held) for held in array(stack, 10000)], boolean(safe)
        flow.choices = [self.choice(choice) for choice in array(choices, 1000)]
        return flow

    def flows(self, value):
        """The flows by name, in order; each name stands once."""
        flows = {}
        for flow in array(value, MOST_FLOWS):
            choices, name, *others = fields(flow, "choices", "name", "safe", "stack", "threads")
            need(is_flow_name(string(name)) and name not in flows)
            flows[name] = self.flow(choices, *others)
        need(list(flows)[:1] == [DEFAULT_FLOW])
        return flows

    def machine(self, value, host):
        if isinstance(value, dict) and "flows" in value:
            current, flows, layout, *shared = fields(value, "current", "flows", "format", "globals", "turn", "turns", "visits")
            integer(layout, 2, 2)
            flows = self.flows(flows)
            need(string(current) in flows)
        else:
            choices, layout, values, safe, stack, threads, *counted = fields(
                value, "choices", "format", "globals", "safe", "stack", "threads", "turn", "turns", "visits")
            integer(layout, 1, 1)
            current, flows, shared = DEFAULT_FLOW, {DEFAULT_FLOW: self.flow(choices, safe, stack, threads)}, [values] + counted
        values, turn, turns, visits = shared
        machine = Machine(self.root, [], self.names(values), host)
        machine.visits, machine.turns, machine.turn_number = self.counts(visits, 1, 1), self.counts(turns, 2, 0), integer(turn, 0, MOST)
        machine.current, machine.order = current, list(flows)
        machine.take(flows.pop(current))
        machine.waiting = flows
        return machine


def loaded(root, host, text):
    """The machine that a text of JSON is a save of."""
    try:
        value = of_json(text)
    except ValueError:
        raise BadSave()
    machine = Reader(root).machine(value, host)
    if to_json(spelled(machine)) != to_json(in_layout_2(value)):
        raise AssertionError("read as another save: %s" % text)
    return machine


# ---- sessions

def given(text):
    """A pair that says whether JSON is a value, and which."""
    try:
        value = of_json(text)
    except ValueError:
        return False, None
    if isinstance(value, (bool, str)):
        return True, value
    return isinstance(value, int) and LEAST <= value <= MOST, value


class Player:
    """Plays a story. What was saved is kept beside its text: a load goes on from that machine, not from one that was read, so that
    what follows is what would have followed."""

    def __init__(self, root, host):
        self.root, self.host, self.machine, self.broken = root, host, opened(root, host), None
        self.last_save, self.kept, self.cuts, self.moves = to_json(spelled(self.machine)), {}, 0, 0

    def through_from(self, machine):
        """All of the run, as a line is told."""
        machine.begin()
        try:
            machine.run()
            return machine, False, None
        except Fault as fault:
            return machine, False, fault

    def goes_on(self, extent):
        """A command that runs, as far as the extent goes."""
        if self.broken:
            return {"fault": self.broken, "refused": "Broken"}
        if self.machine.frame.place is None:
            return {"refused": "CannotContinue"}
        before = dict(self.machine.globals)
        self.machine, is_cut, fault = extent(self.machine)
        machine = self.machine
        if fault:
            self.broken = str(fault)
            return {"events": self.host.taken(), "fault": self.broken}
        self.host.tell(before, machine.globals)
        self.cuts += is_cut
        return {"choices": [] if is_cut else [choice.shown() for choice in machine.visible()], "events": self.host.taken(),
                "loose": not is_cut and not machine.safe and not machine.choices, "more": is_cut,
                "tags": [str(text) for kind, text in machine.marks if kind == "tag"], "text": cleaned(shown(machine.marks))}

    def restart(self):
        before = self.machine.globals
        self.machine, self.broken = opened(self.root, self.host), None
        self.host.tell(before, self.machine.globals)
        return {"events": self.host.taken()}

    def save(self):
        if self.broken:
            return {"fault": self.broken, "refused": "Broken"}
        value = spelled(self.machine)
        self.last_save = to_json(value)
        self.kept[self.last_save] = self.machine.again()
        if len(value["flows"]) == 1:
            self.kept[to_json(in_layout_1(value))] = self.kept[self.last_save]
        return {"saved": value}

    def load(self, text):
        try:
            machine = loaded(self.root, self.host, text)
        except BadSave:
            return {"refused": "BadSave"}
        before = self.machine.globals
        self.machine, self.broken = self.kept.get(text, machine).again(), None
        self.host.tell(before, self.machine.globals)
        return {"events": self.host.taken()}

    def get(self, name):
        known = self.machine.globals
        return {"value": told(known[name])} if name in known else {"refused": "NoSuchVariable"}

    def set(self, name, text):
        is_value, value = given(text)
        if self.broken:
            return {"fault": self.broken, "refused": "Broken"}
        if not is_value:
            return {"refused": "BadValue"}
        if name not in self.machine.globals:
            return {"refused": "NoSuchVariable"}
        before = dict(self.machine.globals)
        self.machine.globals[name] = value
        self.host.tell(before, self.machine.globals)
        return {"events": self.host.taken()}

    def choose(self, text):
        machine = self.machine
        if self.broken:
            return {"fault": self.broken, "refused": "Broken"}
        if machine.frame.place is not None or int(text) >= len(machine.visible()):
            return {"refused": "NotAChoice"}
        machine.next_turn()
        machine.take_up(machine.visible()[int(text)])
        return {"events": []}

    def jump(self, text):
        if self.broken:
            return {"fault": self.broken, "refused": "Broken"}
        path = path_of(text)
        place = None if path is None or path[0] else target(self.root, [], path)
        if place is None:
            return {"refused": "NoSuchPath"}
        self.machine.jump(place if isinstance(path[1][-1], int) else landed(self.root, place))
        return {"events": []}

    def visits(self, text):
        if self.broken:
            return {"fault": self.broken, "refused": "Broken"}
        path = path_of(text)
        place = None if path is None or path[0] else target(self.root, [], path)
        if place is None or not (flags_at(self.root, place) or 0) & 1:
            return {"refused": "NoSuchPath"}
        return {"visits": self.machine.visits_at(place)}

    def flow(self, name):
        if self.broken:
            return {"fault": self.broken, "refused": "Broken"}
        if name not in self.machine.order and len(self.machine.order) >= MOST_FLOWS:
            return {"refused": "TooManyFlows"}
        self.moves += name != self.machine.current
        self.machine.go_to(name)
        return {"events": []}

    def drop(self, name):
        if self.broken:
            return {"fault": self.broken, "refused": "Broken"}
        if name not in self.machine.order:
            return {"refused": "NoSuchFlow"}
        if name == DEFAULT_FLOW:
            return {"refused": "DefaultFlow"}
        self.machine.drop(name)
        return {"events": []}

    def answer(self, line):
        if line in ("continue", "through"):
            return self.goes_on(line_from if line == "continue" else self.through_from)
        if line in ("restart", "save"):
            return getattr(self, line)()
        word, _, rest = line.partition(" ")
        if word == "get" and rest and " " not in rest:
            return self.get(rest)
        if word == "visits" and rest:
            return self.visits(rest)
        if word == "choose" and 0 < len(rest) < 10 and all(c in "0123456789" for c in rest):
            return self.choose(rest)
        if word == "jump" and rest:
            return self.jump(rest)
        if word == "load" and rest:
            return self.load(rest)
        if word in ("flow", "drop") and rest and " " not in rest:
            return getattr(self, word)(rest)
        name, _, text = rest.partition(" ")
        if word == "set" and name and text:
            return self.set(name, text)
        return {"refused": "BadCommand"}


# ---- random stories

# stand for paths until the story is whole, one onward, and one anywhere
WAY, BACK = "?", "??"

COMMANDS = ("through", "through", "continue", "continue", "continue", "continue x", "continue ", "Continue", "restart", "get x", "get y", "get z", "set x 5", "set y true", 'set z "q r"', "set x null", "set w 1",
            "set x 1.5", "set  x 1", "bye", "set x  -3 ", "get  x", 'set y "a\\nb"', "set x",
            "visits f", "visits t", "visits h", "visits k", "visits 0", "visits 1", "visits 0.0", "visits 1.k", "visits .0", "visits x..y",
            "choose 0", "choose 1", "choose 00", "choose 1234567890", "choose -1", "choose", "jump f", "jump .0", "jump c1", "jump 0", "jump x..y",
            "save", "save x", "load", "load {}", "load x",
            "flow a", "flow b", "flow DEFAULT_FLOW", "flow default_flow", "flow", "flow ", "flow a b", "flow  a", "flow a ", "Flow a", "flow \t",
            "drop a", "drop b", "drop DEFAULT_FLOW", "drop", "drop ", "drop a b", "drop  a", "drop c")

# what is done between a save and its load
MEANWHILE = ("through", "through", "continue", "continue", "restart", "set x 9", "set n 0", 'set y "later"', "choose 0", "choose 1", "jump c2", "jump h", "jump 0", "save",
             "flow a", "flow b", "flow DEFAULT_FLOW", "drop a", "drop b")

# the names of flows are few, so that flow often comes back to one
FLOWS = ("a", "a", "b", "b", "é", DEFAULT_FLOW, DEFAULT_FLOW, DEFAULT_FLOW)


def random_text(chance):
    return "^" + "".join(chance.choice(chance.choice(("abc1é  \n\t", "a \n"))) for _ in range(chance.randrange(7)))


def random_leaf(chance):
    return chance.choice((
        lambda: chance.choice((0, 1, 2, -1, 7, LEAST, -LEAST - 1, chance.randrange(LEAST, -LEAST))),
        lambda: chance.choice((True, False, "void", "nop", "ev", "/ev")),
        lambda: chance.choice(OPERATORS),
        lambda: chance.choice(("out", "out", "pop", "du")),
        lambda: chance.choice(("<>", "str", "/str", "#", "/#")),
        lambda: {"->": WAY},
        lambda: {"^->": WAY},
        lambda: {"->": chance.choice("xyz"), "var": True},
        lambda: {"VAR=": chance.choice("xyz")},
        lambda: {"VAR=": chance.choice("xyz"), "re": chance.random() < 0.7},
        lambda: {"VAR?": chance.choice("xyz")},
        lambda: chance.choice(("~ret", "->->", "thread")),
        lambda: {chance.choice(("f()", "->t->")): chance.choice("xyz"), "var": True},
        lambda: {chance.choice(("f()", "->t->")): WAY},
        lambda: {"temp=": chance.choice("pqx")},
        lambda: {"temp=": chance.choice("pqx"), "re": True},
        lambda: random_pointer(chance),
        lambda: {"CNT?": WAY},
        lambda: chance.choice(("visit", "turn", "turns", "readc")),
    ))()


def random_pointer(chance):
    name = {"^var": chance.choice("pqxyz")}
    return dict(name, ci=chance.choice((-1, 0, 1, 2, 3))) if chance.random() < 0.3 else name


def random_variable(chance):
    """Content that declares, assigns or reads what may be a temporary, or a pointer."""
    name = chance.choice("pqxyz")
    return chance.choice((
        lambda: [random_value(chance), {"temp=": name}],
        lambda: [random_value(chance), {"temp=": name}, {"VAR?": name}, "out"],
        lambda: [random_value(chance), {"temp=": name}, {"VAR?": name}, 1, "+", {chance.choice(("VAR=", "temp=")): name, "re": True}],
        lambda: [random_pointer(chance), {"temp=": name}],
        lambda: [random_value(chance), {"temp=": name}, {"^var": name}, {"temp=": chance.choice("pq")}],
        lambda: [random_pointer(chance), {"temp=": name}, {"VAR?": name}, "out"],
        lambda: [3, {"temp=": "p"}, {"^var": "p"}, {"temp=": "q"}, 4, {"temp=": "q", "re": True}, {"VAR?": "p"}, "out"],
        lambda: [{"VAR?": name}, "out"],
    ))()


def random_question(chance):
    """Content that asks for visits or turns."""
    return chance.choice((
        lambda: [{"CNT?": WAY}, "out"],
        lambda: [{"CNT?": WAY}, {"VAR=": chance.choice("xyz")}],
        lambda: ["visit", "out"],
        lambda: ["turn", "out"],
        lambda: [{"^->": WAY}, chance.choice(("turns", "readc")), "out"],
    ))()


def random_offer(chance):
    """A choice point, with what it pops."""
    flags = chance.choice((0, 16)) + chance.choice((2, 4, 4, 6, 0)) + (1 if chance.random() < 0.2 else 0) + (8 if chance.random() < 0.12 else 0)
    content = ["ev"]
    for flag in (2, 4):
        if flags & flag:
            tags = ["#", random_text(chance), "/#"] * chance.choice((0, 0, 0, 1, 2))
            content += ["str", random_text(chance)] + tags + ["/str"]
    if flags & 1:
        content += [chance.choice((True, True, False, 1, {"VAR?": chance.choice("xyzp")}))]
    point = {"*": WAY} if flags == 16 and chance.random() < 0.5 else {"*": WAY, "flg": flags}
    return content + ["/ev", point]


def random_offers(chance):
    content = []
    for _ in range(chance.choice((1, 1, 2, 3))):
        content += random_offer(chance)
        if chance.random() < 0.2:
            content += ["ev", "choiceCnt", "out", "/ev"]
    return content + ["done"] * (chance.random() < 0.6)


def random_loop(chance):
    """Content that may lead back, so often at most as the global `n` allows."""
    return ["ev", {"VAR?": "n"}, 1, "+", "du", {"VAR=": "n", "re": True}, chance.choice((2, 3, 4)), "<", "/ev", {"->": BACK, "c": True}]


# what external functions are called: two that have knots in many stories, and two that have none
EXTERNALS = "defg"
ARGUMENTS = (1, 2, True, "a", "b\n")


def random_external(chance, names=EXTERNALS):
    """Content that calls an external function: in an evaluation, in a string, or by itself."""
    values = [chance.choice(ARGUMENTS) for _ in range(chance.choice((0, 0, 1, 1, 2)))]
    content = {"x()": chance.choice(names), "exArgs": len(values) if chance.random() < 0.97 else 3}
    if not content["exArgs"] and chance.random() < 0.5:
        del content["exArgs"]
    if chance.random() < 0.1:
        values, content["c"] = values + [chance.choice((True, True, False, 0))], True
    values = ["^" + value if isinstance(value, str) else value for value in values]
    if chance.random() < 0.03:
        values = values[:-1] + ["void"]
    if values and chance.random() < 0.1:
        values[0] = {"VAR?": chance.choice("xyz")}
    kind = chance.random()
    if kind < 0.15:
        return ["ev"] + values + ["str", "^<", content, "^>", "/str", "out"] + ["pop"] * (chance.random() < 0.5) + ["/ev"]
    if kind < 0.2:
        return ["ev"] + values + ["/ev", content]
    return ["ev"] + values + [content] + chance.choice((["out"], ["out"], ["pop"], [{"VAR=": chance.choice("xyz")}])) + ["/ev"]


def random_value(chance):
    if chance.random() < 0.03:
        return {"^->": WAY}
    return chance.choice((chance.randrange(-9, 10), chance.randrange(LEAST, -LEAST), True, False, "^a", "^ab", "^ 1 ", {"VAR?": chance.choice("xyz")}))


def random_group(chance):
    """Content that goes together: written text, or an evaluation that is mostly in order."""
    kind = chance.random()
    if kind < 0.4:
        return [chance.choice(("\n", "\n", "<>", random_text(chance), random_text(chance), random_text(chance)))]
    if kind < 0.5:
        return ["#", random_text(chance)] + ["/#"] * (chance.random() < 0.8)
    if kind < 0.6:
        inside = [chance.choice(("\n", "<>", random_text(chance), random_text(chance))) for _ in range(chance.randrange(4))]
        tag = ["#", random_text(chance), "/#"] if chance.random() < 0.2 else []
        return ["ev", "str"] + inside + tag + ["/str"] + chance.choice((["out"], [{"VAR=": chance.choice("xyz")}])) + ["/ev"]
    if kind < 0.63:
        return [{"->": WAY}]
    if kind < 0.64:
        return random_loop(chance)
    if kind < 0.66:
        return random_offers(chance)
    if kind < 0.67:
        return random_call(chance)
    if kind < 0.705:
        return random_external(chance)
    if kind < 0.72:
        return ["ev", random_value(chance), "/ev", {"->": WAY, "c": True}]
    if kind < 0.75:
        name = chance.choice("xyz")
        return ["ev", {"^->": WAY}, {"VAR=": name}, "/ev", {"->": name, "var": True}]
    if kind < 0.81:
        return ["ev"] + random_variable(chance) + ["/ev"]
    if kind < 0.85:
        return ["ev"] + random_question(chance) + ["/ev"]
    operator = chance.choice(OPERATORS)
    values = [random_value(chance) for _ in range(1 if operator in SINGLE else 2)]
    end = chance.choice((["out"], ["out"], ["du", "out", "out"], ["pop"], [{"VAR=": chance.choice("xyz")}],
                         [{"VAR=": chance.choice("xyz"), "re": True}]))
    return ["ev"] + chance.choice((values + [operator], values[:1])) + end + ["/ev"]


# the knots that a story with calls has, and which of them each may call, so that most runs end
KNOTS = {"f": "g", "g": "", "h": "fgtu", "t": "fgu", "u": "fg"}


def knots_of(names):
    return "".join(name for name in names if name in "fg"), "".join(name for name in names if name in "tu")


def random_call(chance, names="fgtuh"):
    """Content that calls a knot: a function by itself or in an evaluation, a tunnel, or a thread."""
    functions, tunnels = knots_of(names)
    kind = chance.random()
    condition = {"c": True} if chance.random() < 0.1 else {}
    value = [chance.choice((True, False, 1))] if condition else []
    if functions and kind < 0.2:
        return (["ev"] + value + ["/ev"] if value else []) + [dict({"f()": chance.choice(functions)}, **condition)]
    if functions and kind < 0.6:
        end = chance.choice((["out"], ["out"], ["pop"], [{"VAR=": chance.choice("xyz")}], ["str", "^(", "/str", "+", "out"]))
        return ["ev"] + value + [dict({"f()": chance.choice(functions)}, **condition)] + end + ["/ev"]
    if functions and kind < 0.66:
        return ["ev", random_pointer(chance), {"f()": chance.choice("rs")}, chance.choice(("out", "pop")), "/ev"]
    if functions and kind < 0.68:
        return ["ev", "str", random_text(chance), {"f()": chance.choice(functions)}, random_text(chance), "/str", "out", "/ev"]
    if functions and kind < 0.7:
        name = chance.choice("xyz")
        return ["ev", {"^->": chance.choice(functions)}, {"VAR=": name}, {"f()": name, "var": True}, "out", "/ev"]
    if tunnels and kind < 0.9:
        return (["ev"] + value + ["/ev"] if value else []) + [dict({"->t->": chance.choice(tunnels)}, **condition)]
    if "h" in names and kind < 0.98:
        return ["thread", {"->": "h"}] if chance.random() < 0.7 else [["thread", {"->": "h"}, None]]
    return chance.choice((["thread"], ["~ret"], ["ev", "void", "/ev", "->->"]))


def random_knot(chance, name):
    """A function, a tunnel or a thread that ends in its way, mostly."""
    content = []
    if chance.random() < 0.3:
        content += ["ev", 7, {"temp=": "p"}, {"^var": "p"}, {"temp=": "q"}, {"VAR?": "q"}, 1, "+", {"temp=": "q", "re": True}, "/ev"]
    for _ in range(chance.randrange(6)):
        content += random_call(chance, KNOTS[name]) if chance.random() < 0.25 and KNOTS[name] else random_plain(chance)
    functions = (["ev", random_value(chance), "/ev", "~ret"], ["ev", random_value(chance), "/ev", "~ret"], ["\n"], [], ["~ret"])
    tunnels = (["ev", "void", "/ev", "->->"],) * 4 + (["ev", {"^->": WAY}, "/ev", "->->"], [])
    threads = (["done"], ["done"], [], ["end"], random_offers(chance))
    last = {"#f": chance.choice((1, 3, 5, 7))} if chance.random() < 0.5 else None
    return content + chance.choice(functions if name in "fg" else tunnels if name in "tu" else threads) + [last]


def reference_knots(chance):
    """Functions that take a pointer: one changes what it leads to, and one hands it on."""
    last = {"#f": chance.choice((1, 3, 5))}
    change = chance.choice(([{"VAR?": "p"}, 1, "+"], [{"VAR?": "p"}, 2, "MAX"], [9]))
    end = chance.choice((["/ev"], [{"VAR?": "p"}, "/ev", "~ret"]))
    return {"r": [{"temp=": "p"}, "ev"] + change + [{"temp=": "p", "re": True}] + end + [last],
            "s": [{"temp=": "q"}, "ev", {"^var": "q"}, {"f()": "r"}, {"VAR?": "q"}, "+", "/ev", "~ret", last]}


def random_plain(chance):
    """Content without a divert."""
    while True:
        group = random_group(chance)
        if not any(isinstance(content, dict) and any(head in content for head in ("->", "f()", "->t->", "x()")) for content in group):
            return group


def random_container(chance, depth):
    content = []
    for _ in range(chance.randrange(7)):
        if depth and chance.random() < 0.2:
            content.append(random_container(chance, depth - 1))
        else:
            content += [random_leaf(chance)] if chance.random() < 0.03 else random_group(chance)
    content += [chance.choice(("done", "end"))] * (chance.random() < 0.15)
    last = {"#f": chance.choice((1, 1, 3, 3, 5, 7, chance.randrange(8)))} if chance.random() < 0.4 else {}
    if chance.random() < 0.2:
        last["#n"] = "n%d" % chance.randrange(10 ** 9)
    if depth and chance.random() < 0.2:
        last["k"] = random_container(chance, depth - 1)
    return content + [last or None]


# the knots of a story that is played by choices
SCENES = ("c0", "c1", "c2", "c3")


def scene_bits(chance):
    """Content that seldom faults."""
    bits = []
    for _ in range(chance.randrange(4)):
        bits += chance.choice((
            lambda: [random_text(chance)],
            lambda: [chance.choice(("^a ", "^b", "\n", "<>"))],
            lambda: ["ev", {"CNT?": chance.choice(SCENES)}, "out", "/ev"],
            lambda: ["ev", {"^->": chance.choice(SCENES)}, chance.choice(("turns", "readc")), "out", "turn", "out", "/ev"],
            lambda: ["ev", {"VAR?": "n"}, 1, "+", {"VAR=": "n", "re": True}, "/ev"],
            lambda: ["ev", chance.randrange(9), {"temp=": "p"}, "/ev"],
            lambda: ["ev", {"VAR?": "p"}, "out", "choiceCnt", "out", "/ev"],
            lambda: ["ev", {"f()": "f"}, "out", "/ev"],
            lambda: random_external(chance),
            lambda: ["#", random_text(chance), "/#"],
        ))()
    return bits


def scene(chance, name, inside=True):
    """A knot that says something, offers choices into itself and elsewhere, and waits."""
    content, last = scene_bits(chance), {"#f": chance.choice((1, 3, 3, 5, 7))}
    if inside and chance.random() < 0.3:
        content += ["thread", {"->": chance.choice(("t0", "t1"))}]
    if inside and chance.random() < 0.25:
        content += [{"->t->": "u0"}]
    for number in range(chance.choice((0, 1, 1, 2, 3))):
        offer = random_offer(chance)
        if chance.random() < 0.6:
            offer[-1]["*"] = "%s.o%d" % (name, number)
            onward = chance.choice(([{"->": chance.choice(SCENES)}],) * 7 + (["end"],) * 2 + ([],))
            last["o%d" % number] = scene_bits(chance) + onward + [{"#f": chance.choice((1, 5, 3))}]
        else:
            offer[-1]["*"] = chance.choice(SCENES + ("%s.0" % chance.choice(SCENES),) * (offer[-1].get("flg", 16) < 16))
        content += offer
    return content + chance.choice((["done"], ["done"], ["done"], [])) + [last]


def scenes_story(chance):
    """A story that is played by choices, with threads, a tunnel and a function."""
    names = {name: scene(chance, name) for name in SCENES}
    if chance.random() < 0.5:
        names["c3"] = scene_bits(chance) + ["end", {"#f": 3}]
    names["t0"], names["t1"] = scene(chance, "t0", False), scene(chance, "t1", False)
    tunnel = scene(chance, "u0", False)
    names["u0"] = tunnel[:-1] + chance.choice((["ev", "void", "/ev", "->->"], [])) + tunnel[-1:]
    for key in [key for key in tunnel[-1] if key.startswith("o") and chance.random() < 0.7]:
        tunnel[-1][key] = scene_bits(chance) + ["ev", "void", "/ev", "->->", {"#f": 1}]
    names["f"] = ["^<", "ev", {"CNT?": "f"}, "/ev", "~ret", {"#f": 1}]
    names["global decl"] = ["ev", 0, {"VAR=": "n"}, "/ev", "end", None]
    for knot in names.values():
        if isinstance(knot[-1], dict) and not knot[:-1]:
            knot.insert(0, "^.")
    root = [scene_bits(chance) + [{"->": "c0"}, None], "done", names]
    return {"inkVersion": version_of(chance, root), "root": root, "listDefs": {}}


# the knots of a story that is played line by line, in order
PARTS = ("p0", "p1", "p2", "p3")
# the functions that they call, each of which calls those behind it
FUNCTIONS = ("f", "g", "d", "h")


def line_text(chance):
    """A text, mostly with more than blanks, at times with a newline at an end."""
    return chance.choice(("^a", "^b ", "^ c", "^d e", "^é", "^ ", "^\t", "^", "^\n", "^x\n", "^\ny", "^ \n ", "^x\ny", random_text(chance)))


def line_fault(chance):
    """Content that mostly faults, in some way."""
    return chance.choice((["ev", 1, 0, "/", "out", "/ev"], ["ev", "pop", "pop", "/ev"], ["->->"], ["~ret"], ["/#"], ["/ev"], ["ev", "<>"], ["ev", "^a", "_", "/ev"],
                          ["ev", {"x()": "d", "exArgs": 9}, "/ev"], ["ev", "void", {"x()": "e", "exArgs": 1}, "/ev"], ["ev", "str", {"x()": "d"}, "/str", "out", "/ev"],
                          ["ev", 1, {"temp=": "none", "re": True}, "/ev"], ["ev", "str", "^s", "done"]))


def line_call(chance, functions):
    """Content that calls a function of the story: by itself, in an evaluation, or in a string."""
    if not functions:
        return [line_text(chance)]
    call = {"f()": chance.choice(functions)}
    return chance.choice(([call], ["ev", call, "out", "/ev"], ["ev", call, "pop", "/ev"], ["ev", call, {"VAR=": chance.choice("xyz")}, "/ev"],
                          ["ev", "str", line_text(chance), call, "/str", "out", "/ev"], ["ev", "str", call, "\n", "/str", "pop", "/ev"]))


def line_bit(chance, functions):
    """What may stand before or behind a newline, and matters to it."""
    return chance.choice((
        lambda: [line_text(chance)],
        lambda: [line_text(chance)],
        lambda: ["<>"],
        lambda: ["<>"],
        lambda: ["\n"],
        lambda: ["#", line_text(chance), "/#"],
        lambda: ["#", line_text(chance), "/#", "<>"],
        lambda: ["ev", "str"] + [chance.choice(("\n", "<>", line_text(chance))) for _ in range(chance.randrange(3))] + ["/str"]
        + chance.choice((["pop"], ["out"], [{"VAR=": chance.choice("xyz")}])) + ["/ev"],
        lambda: line_call(chance, functions),
        lambda: line_call(chance, functions),
        lambda: random_external(chance, chance.choice(("fgd", "fgd", EXTERNALS))),
        lambda: random_external(chance, "fgd"),
        lambda: ["ev", random_number(chance), {"VAR=": chance.choice("nxyz"), "re": True}, "/ev"],
        lambda: ["ev", {"VAR?": "n"}, 1, "+", {"VAR=": "n", "re": True}, "/ev"],
        lambda: ["ev", chance.randrange(9), {"temp=": chance.choice("pq")}, {"VAR?": chance.choice("pq")}, "out", "/ev"],
        lambda: ["ev", {"VAR?": chance.choice("nxyz")}, "out", "/ev"],
        lambda: ["ev", chance.choice(("turn", "choiceCnt")), "out", "/ev"],
        lambda: ["ev", {"CNT?": chance.choice(PARTS)}, "out", "/ev"],
        lambda: [[line_text(chance), {"#f": chance.choice((1, 3, 5))}]],
        lambda: line_fault(chance) if chance.random() < 0.2 else [],
    ))()


def random_number(chance):
    return chance.choice((0, 1, 2, 7, True, False, "^t", -1))


def line_group(chance, functions):
    """What stands before a newline, a newline, and what stands behind it."""
    before = [bit for _ in range(chance.choice((0, 1, 1, 2))) for bit in line_bit(chance, functions)]
    behind = [bit for _ in range(chance.choice((0, 0, 1, 1, 2, 3))) for bit in line_bit(chance, functions)]
    return before + [chance.choice(("\n", "\n", "\n", "^\n", "^ \n"))] + behind


def line_part(chance, at):
    """A part of a story, which leads on to others, or back as often as the global `n` allows."""
    content, onward = [], PARTS[at + 1:]
    for _ in range(chance.choice((1, 2, 2, 3, 5))):
        kind = chance.random()
        if kind < 0.82:
            content += line_group(chance, FUNCTIONS)
        elif kind < 0.86:
            content += ["thread", {"->": "t"}]
        elif kind < 0.9:
            content += [{"->t->": "u"}]
        elif kind < 0.94:
            offer = {"*": chance.choice(onward), "flg": chance.choice((4, 20, 12))} if onward else {"*": chance.choice(PARTS), "flg": 4}
            content += ["ev", "str", line_text(chance), "/str", "/ev", offer]
        else:
            content += ["ev", random_number(chance), "/ev", {"->": chance.choice(onward), "c": True}] if onward else []
    if chance.random() < 0.2:
        loop = random_loop(chance)
        loop[-1]["->"] = chance.choice(PARTS)
        content += loop
    ends = (["done"], ["end"], [], ["ev", "str", "^go", "/str", "/ev", {"*": "p0", "flg": 4}, "done"], ["ev", "/ev", {"*": PARTS[-1], "flg": 8}])
    last = [{"->": onward[0]}] if onward and chance.random() < 0.9 else chance.choice(ends if onward else ends[:-1])
    return content + last + [{"#f": chance.choice((1, 3, 5, 7))}]


def line_function(chance, at):
    """A function with newlines in it, and texts, or none."""
    content = [bit for _ in range(chance.randrange(4)) for bit in chance.choice((["\n"], ["\n"], ["<>"], line_bit(chance, FUNCTIONS[at + 1:])))]
    return content + chance.choice(([], [], ["ev", 3, "/ev", "~ret"], ["ev", "^r", "/ev", "~ret"], ["\n"])) + [None]


def lines_story(chance):
    """A story that is played line by line."""
    names = {name: line_part(chance, at) for at, name in enumerate(PARTS)}
    names.update((name, line_function(chance, at)) for at, name in enumerate(FUNCTIONS))
    names["u"] = line_group(chance, FUNCTIONS) + chance.choice((["ev", "void", "/ev", "->->"], ["ev", {"^->": "p3"}, "/ev", "->->"])) + [None]
    names["t"] = line_group(chance, FUNCTIONS) + chance.choice(([], ["done"])) + [None]
    declared = [part for name in chance.sample("xyz", chance.choice((2, 3, 3, 3, 3, 3))) for part in (random_number(chance), {"VAR=": name})]
    names["global decl"] = ["ev"] + declared + [0, {"VAR=": "n"}, "/ev", "end", None]
    root = [line_group(chance, FUNCTIONS) + [{"->": "p0"}, None], "done", names]
    return {"inkVersion": version_of(chance, root), "root": root, "listDefs": {}}


def version_of(chance, root):
    """The version of a story with this root. A third are of version 20: there tags are given whole, in the place of others and here
    and there, in strings and evaluations too."""
    if chance.random() < 2 / 3:
        return 21
    for container in [content for content in (found(root, place) for place in list(places(root))) if isinstance(content, list)]:
        for at in reversed(range(len(container) - 1)):
            words = container[at:at + 3]
            if words[0] == "#" and words[2:] == ["/#"] and isinstance(words[1], str) and words[1].startswith("^") and chance.random() < 0.7:
                container[at:at + 3] = [{"#": words[1][1:]}]
            elif chance.random() < 0.04:
                container.insert(at, {"#": random_text(chance)[1:]})
    return 20


def random_story(chance):
    kind = chance.random()
    if kind < 0.25:
        return scenes_story(chance)
    if kind < 0.6:
        return lines_story(chance)
    root = random_container(chance, 3)
    if chance.random() < 0.6:
        add_calls(chance, root)
    declarations = ["ev"]
    for name in chance.sample("xyz", chance.randrange(4)):
        declarations += [chance.choice((1, True, "^t", "void", -5)), {"VAR=": name}]
    declarations += [0, {"VAR=": "n"}]
    declarations += chance.choice((["/ev", "end"],) * 4 + (["/ev"],) * 4 + ([], ["+"]))
    where = chance.random()
    if where < 0.5:
        root[-1] = dict(root[-1] or {}, **{"global decl": declarations + [None]})
    elif where < 0.7:
        root.insert(chance.randrange(len(root)), declarations + [{"#n": "global decl"}])
    version = version_of(chance, root)
    for place in list(places(root)):
        content = found(root, place)
        if isinstance(content, dict):
            for head in ("->", "^->", "f()", "->t->", "CNT?", "*"):
                if content.get(head) in (WAY, BACK):
                    content[head] = random_path(chance, root, place, head)
    return {"inkVersion": version, "root": root, "listDefs": {}}


def counted(root):
    """The root, whose visits are counted from now on."""
    root[-1] = dict(root[-1] or {}, **{"#f": 1})
    return []


def random_path(chance, root, place, head):
    """A path that mostly leads forward in reading order, so that runs end."""
    if chance.random() < 0.004:
        return chance.choice(("m", "0.0.0.0.0.0", "a..b", ".", "", ".^.^.^.^.^.^", "99", ".0", "2147483648", "k.k.k.k.k"))
    order = list(places(root))
    if head == "CNT?" or (head == "*" and found(root, place).get("flg", 16) & 16):
        order = [p for p in order if (flags_at(root, p) or 0) & 1] or [counted(root)]
        onward = order
    elif head == "^->" and chance.random() < 0.7:
        onward = [p for p in order if isinstance(found(root, p), list) and p] or order
    elif head == "*" or found(root, place).get(head) == BACK:
        onward = order
    else:
        onward = order[order.index(place) + 1:] + [p + [width(found(root, p))] for p in order[order.index(place) + 1:] if isinstance(found(root, p), list)]
    end = chance.choice(onward if onward and chance.random() < 0.999 else order)
    named_end = [own(found(root, end[:i + 1])).get("#n", part) if isinstance(found(root, end[:i + 1]), list) and chance.random() < 0.5 else part
                 for i, part in enumerate(end)]
    if head == "^->" or (end and chance.random() < 0.5):
        return ".".join(map(str, named_end)) if end else ".^"
    common = 0
    while common < min(len(place), len(end)) - 1 and place[common] == end[common]:
        common += 1
    return "." + ".".join(["^"] * (len(place) - common) + [str(part) for part in named_end[common:]])


def between(container):
    """The indexes of a container at which no evaluation, string or tag is open."""
    indexes, is_open = [], 0
    for index, content in enumerate(container):
        if not is_open:
            indexes.append(index)
        if content in ("ev", "#"):
            is_open += 1
        elif content in ("/ev", "/#"):
            is_open = max(is_open - 1, 0)
    return indexes or [len(container) - 1]


def add_calls(chance, root):
    """Knots at the root, and calls of them here and there."""
    root[-1] = dict(root[-1] or {}, **{name: random_knot(chance, name) for name in KNOTS}, **reference_knots(chance))
    containers = [found(root, place) for place in places(root) if place[:1] == [] or isinstance(place[0], int)]
    for container in [c for c in containers if isinstance(c, list)]:
        for _ in range(chance.choice((0, 1, 1, 2, 3))):
            at = chance.choice(between(container))
            container[at:at] = random_call(chance)


def random_answer(chance):
    return chance.choice((0, 1, -3, LEAST, True, False, None, "", "a", " b\n", "é"))


def random_host(chance):
    """Functions and watchers, or none."""
    scripts, tables = {}, {}
    if chance.random() < 0.15:
        return Host()
    for name in EXTERNALS:
        kind = chance.random()
        if kind < 0.45:
            scripts[name] = [random_answer(chance) for _ in range(chance.choice((0, 1, 3, 8, 8, 20)))]
        elif kind < 0.8:
            keys = [[]] + [[value] for value in ARGUMENTS] + [[chance.choice(ARGUMENTS), chance.choice(ARGUMENTS)] for _ in range(20)]
            tables[name] = {json.dumps(key, separators=(",", ":"), ensure_ascii=False): random_answer(chance) for key in keys if chance.random() < 0.97}
    return Host(scripts, tables, chance.sample("nwxyz", chance.randrange(5)))


# ---- saves with a change in them

# stand for lines that load what was saved last: as it is, in layout 1, and with a change
LOAD, LOAD_OLD, LOAD_CHANGED = "load", "load old", "load changed"
# stands for a line that drops the current flow
DROP_CURRENT = "drop current"

# of each kind of value some others
OTHERS = {int: (0, 1, 2, 3, -1, 999, 1000, 1001, LEAST, MOST, MOST + 1), bool: (True, False), type(None): (None,),
          str: ("", "x", "f", "base", "function", "tunnel", "->", "c0.0", "0.00", ".0", "0", " a\n", "a", "a b", DEFAULT_FLOW)}
# a list becomes as long as one of its limits allows, or by one longer
LENGTHS = (99, 100, 101, 999, 1000, 1001, 9999, 10000, 10001)


def random_place(chance, root):
    """A place of the story, or one that it has not."""
    place = chance.choice(list(places(root)))
    kind = chance.random()
    if kind < 0.15 and isinstance(found(root, place), list):
        return place + [width(found(root, place)) + (kind < 0.02)]
    return place + ["k"] * (kind > 0.97)


def random_stand(chance, root):
    """A place of the story."""
    place = chance.choice(list(places(root)))
    return place + [width(found(root, place))] if isinstance(found(root, place), list) and chance.random() < 0.1 else place


def random_spelled(chance, root):
    """A value as a save spells it."""
    place = random_stand(chance, root)
    return chance.choice((chance.choice(OTHERS[int][:4]), chance.choice(("", "a", " b\n", "é")), True, False, None, {"tag": chance.choice(("", "t"))},
                          {"ci": chance.choice((0, 1, 2, 7)), "var": chance.choice("pqxyz")}, {"->": ".".join(map(str, place))} if place else None))


def random_row(chance, root, rows, flag, least):
    """Rows of counts, of which one is new or another."""
    counted = [place for place in places(root) if (flags_at(root, place) or 0) & flag]
    if not counted:
        return rows
    place = chance.choice(counted)
    rows = [row for row in rows if row[0] != place] + [[place, chance.choice((least, least + 1, 2, MOST - 1, MOST))]] * (chance.random() < 0.9)
    return sorted(rows, key=lambda row: in_order(row[0]))


def random_frame(chance, root):
    return {"depth": chance.choice((0, 0, 0, 1, 1000)), "eval": chance.random() < 0.3, "fresh": chance.random() < 0.5,
            "kind": chance.choice(("function", "tunnel")), "place": random_stand(chance, root), "temps": {}}


def set_global(chance, root, save):
    name, rows = chance.choice("nxyz"), save["globals"]
    if chance.random() < 0.3:
        chance.shuffle(rows)
    save["globals"] = [row for row in rows if row[0] != name] + [[name, random_spelled(chance, root)]] * (chance.random() < 0.8)


def push_frame(chance, root, thread):
    """A frame is pushed, or popped."""
    frames = thread["frames"]
    if len(frames) > 1 and chance.random() < 0.4:
        frames.pop()
    else:
        frames[-1]["place"] = frames[-1]["place"] or random_stand(chance, root)
        frames.append(random_frame(chance, root))


def add_choice(chance, root, flow, thread):
    """A choice is added, or one is dropped."""
    choices = flow["choices"]
    if choices and chance.random() < 0.3:
        choices.pop(chance.randrange(len(choices)))
    thread = json.loads(json.dumps(thread))
    thread["frames"][-1]["place"] = thread["frames"][-1]["place"] or random_stand(chance, root)
    choice = {"hidden": chance.random() < 0.2, "tags": ["t"] * chance.randrange(3), "target": random_stand(chance, root), "text": "c", "thread": thread}
    choices.insert(chance.randrange(len(choices) + 1), choice)


def add_flow(chance, root, save):
    """Flows are added, or one is dropped, or moved before the others."""
    flows, names = save["flows"], [flow["name"] for flow in save["flows"]]
    kind = chance.random()
    if kind < 0.2:
        save["current"] = chance.choice(names)
    elif kind < 0.3:
        flows.insert(chance.randrange(len(flows)), flows.pop())
    elif kind < 0.4:
        flows.pop(chance.randrange(len(flows)))
    elif kind < 0.5:
        flow = json.loads(json.dumps(chance.choice(flows)))
        flows.append(dict(flow, name=chance.choice(("", " ", "a b", "a\n", "\n", "c\t", "c\r", "é"))))
    elif kind < 0.55:
        chance.choice(flows)["name"] = chance.choice(FLOWS)
    elif kind < 0.65:
        many = MOST_FLOWS - len(flows) + chance.choice((-1, 0, 0, 1))
        flows += [dict(json.loads(json.dumps(chance.choice(flows))), name="f%d" % number) for number in range(many)]
    else:
        flow = json.loads(json.dumps(chance.choice(flows)))
        flows.insert(chance.randrange(len(flows)) + 1, dict(flow, name=chance.choice(FLOWS)))


def fitting(chance, root, save):
    """A save with a change after which it is one still, mostly."""
    save = json.loads(json.dumps(save))
    if save.get("flows") and chance.random() < 0.25:
        add_flow(chance, root, save)
        return save
    flow = chance.choice(save.get("flows", [save]) or [{}])
    if not flow:
        return save
    thread = chance.choice(flow["threads"] * 2 + [choice["thread"] for choice in flow["choices"]])
    frame = chance.choice(thread["frames"])
    chance.choice((
        lambda: frame.update(place=random_stand(chance, root)),
        lambda: frame.update(place=random_stand(chance, root)),
        lambda: frame.update({chance.choice(("eval", "fresh")): chance.random() < 0.5}),
        lambda: frame.update(depth=chance.choice((0, 1, 1000))),
        lambda: frame["temps"].update({chance.choice("pqxyz"): random_spelled(chance, root)}),
        lambda: thread.update(previous=chance.choice((None, random_stand(chance, root)))),
        lambda: push_frame(chance, root, thread),
        lambda: push_frame(chance, root, thread),
        lambda: flow["threads"].append(json.loads(json.dumps(thread))),
        lambda: add_choice(chance, root, flow, thread),
        lambda: flow["stack"].insert(chance.randrange(len(flow["stack"]) + 1), random_spelled(chance, root)),
        lambda: set_global(chance, root, save),
        lambda: set_global(chance, root, save),
        lambda: save.update(turn=chance.choice((0, 1, 2, MOST - 1, MOST))),
        lambda: flow.update(safe=chance.random() < 0.5),
        lambda: save.update(visits=random_row(chance, root, save["visits"], 1, 1)),
        lambda: save.update(turns=random_row(chance, root, save["turns"], 2, 0)),
    ))()
    return save


def nodes(value, way=()):
    """The ways to all values in a value: indexes and keys."""
    yield way
    for key in range(len(value)) if isinstance(value, list) else value if isinstance(value, dict) else ():
        yield from nodes(value[key], way + (key,))


def is_part(way):
    """Whether a way in a save leads to a part of a place."""
    return any(key in ("place", "previous", "target") for key in way[:-1]) or (way[:1] in (("visits",), ("turns",)) and len(way) > 3)


def at_way(value, way):
    for key in way:
        value = value[key]
    return value


def changed_list(chance, value):
    """The same list with an element less or more, or in another order."""
    at = chance.randrange(len(value)) if value else 0
    kind = chance.random()
    if kind < 0.3:
        return value[:at] + value[at + 1:]
    if kind < 0.6:
        return value[:at + 1] + value[at:]
    if kind < 0.97 or not value:
        return value[::-1] if kind < 0.8 else chance.sample(value, len(value))
    return value[:-1] + value[-1:] * (chance.choice(LENGTHS) - len(value) + 1)


def changed_object(chance, value):
    """The same object with a member less, or with another one."""
    other = dict(value)
    if value and chance.random() < 0.4:
        del other[chance.choice(list(value))]
    else:
        other[chance.choice("pqxyz")] = chance.choice((0, "a", None, {"->": "f"}, {"tag": "t"}, {"ci": 1, "var": "p"}))
    return other


def changed_value(chance, root, save, value):
    """Another value in the place of one in a save: mostly one of its kind."""
    if chance.random() < 0.25:
        same = [at_way(save, way) for way in nodes(save)]
        return chance.choice([one for one in same if type(one) is type(value)] if chance.random() < 0.8 else same)
    if value is None or (isinstance(value, list) and all(isinstance(part, (int, str)) for part in value) and chance.random() < 0.7):
        return random_place(chance, root)
    if isinstance(value, list):
        return changed_list(chance, value)
    if isinstance(value, dict):
        return changed_object(chance, value)
    if type(value) is int and chance.random() < 0.5:
        return value + chance.choice((-1, 1))
    others = OTHERS.get(type(value) if chance.random() < 0.9 else chance.choice(list(OTHERS)), ())
    return chance.choice(others + (None, 1.5, -0.0) * (chance.random() < 0.1) or (0,))


def with_another(value, way, other):
    """A value with another one at the end of a way."""
    if not way:
        return other
    copied = dict(value) if isinstance(value, dict) else list(value)
    copied[way[0]] = with_another(value[way[0]], way[1:], other)
    return copied


def changed_text(chance, text):
    """A text with a character less, doubled or changed, or cut."""
    at = chance.randrange(len(text))
    kind = chance.random()
    if kind < 0.1:
        return text[:at + 1]
    middle = "" if kind < 0.4 else text[at] * 2 if kind < 0.6 else chance.choice('0123456789-.e[]{},:"\\ truefalsnu')
    return text[:at] + middle + text[at + 1:]


def old(chance, text):
    """A save in layout 1, with one of its flows."""
    save = json.loads(text)
    return to_json(in_layout_1(save, chance.randrange(len(save["flows"]))))


def part_of(chance, save):
    """The way to a part of a save, so that each part has its share; none where it has no parts."""
    if not isinstance(save, dict) or not save:
        return ()
    ways = [(key,) for key in save]
    if isinstance(save.get("flows"), list) and save["flows"]:
        at = chance.randrange(len(save["flows"]))
        ways += [("flows", at, key) for key in save["flows"][at]] if isinstance(save["flows"][at], dict) else []
    return chance.choice(ways)


def changed(chance, root, text):
    """A save with a change in it, as a text."""
    text = old(chance, text) if chance.random() < 0.25 else text
    if chance.random() < 0.2:
        return changed_text(chance, text) or text
    save = json.loads(text)
    for _ in range(chance.choice((0, 1, 2, 3))):
        save = fitting(chance, root, save)
    for _ in range(0 if to_json(save) != text and chance.random() < 0.7 else chance.choice((1, 1, 1, 2))):
        part = part_of(chance, save) if chance.random() < 0.98 else ()
        ways = [way for way in nodes(save) if way[:len(part)] == part and (not is_part(way) or chance.random() < 0.1)]
        way = chance.choice(ways or [()])
        save = with_another(save, way, changed_value(chance, root, save, at_way(save, way)))
    other = to_json(save)
    if other == text and save["format"] == 2:
        return changed(chance, root, text)
    return other if len(other.encode()) < MOST_LINE - len(LOAD) else text


def with_saves(chance, commands):
    """These commands, and among them saves, each loaded again once something else was done, and loads of saves with a change."""
    for _ in range(chance.choice((0, 0, 1, 1, 2))):
        at = chance.randrange(len(commands) + 1)
        loads = chance.choice((LOAD, LOAD, LOAD, LOAD_OLD))
        commands = commands[:at] + ["save"] + [chance.choice(MEANWHILE) for _ in range(chance.randrange(4))] + [loads] + commands[at:]
    for _ in range(chance.choice((0, 0, 0, 1, 2, 5))):
        at = chance.randrange(len(commands) + 1)
        goes_on = chance.choice((["save"], ["through"], ["continue", "continue"], ["through", "choose 0", "through"], ["save", "through", "save"],
                                 ["continue", "save", "continue", "save"], ["get x"], []))
        commands = commands[:at] + [LOAD_CHANGED] + goes_on + commands[at:]
    return commands


def with_flows(chance, root, commands):
    """These commands, among which flow goes to other flows, and some are dropped; in some sessions none of it."""
    ways = list(places(root))[1:] or [[0]]
    for _ in range(chance.choice((0, 0, 0, 1, 2, 3, 5, 8))):
        at = chance.randrange(len(commands) + 1)
        jump = "jump " + ".".join(map(str, chance.choice(ways)))
        goes_on = chance.choice(([], going_on(chance), going_on(chance), ["choose 0"] + going_on(chance), [jump] + going_on(chance), [chance.choice(MEANWHILE)], ["save"]))
        if "c0" in own(root) and chance.random() < 0.5:
            goes_on = sum((["through", "choose %d" % chance.choice((0, 0, 1))] for _ in range(chance.choice((1, 2, 4)))), ["jump c3"] * (chance.random() < 0.2)) + ["through"]
        first = DROP_CURRENT if chance.random() < 0.1 else "%s %s" % (chance.choice(("flow", "flow", "flow", "flow", "drop")), chance.choice(FLOWS))
        commands = commands[:at] + [first] + goes_on + commands[at:]
    return commands + ["save"] * (chance.random() < 0.7)


def line_of(chance, player, command):
    """The line of a command."""
    if command == LOAD:
        return "load " + player.last_save
    if command == LOAD_OLD:
        return "load " + old(chance, player.last_save)
    if command == DROP_CURRENT:
        return "drop " + player.machine.current
    return "load " + changed(chance, player.root, player.last_save) if command == LOAD_CHANGED else command


def reloading(player, answer):
    """The lines that save a game and load that at once. A broken player has no save, and a long one is no line."""
    if answer("save").startswith('{"saved":') and len(player.last_save.encode()) < MOST_LINE - len(LOAD):
        answer("load " + player.last_save)


def expected(story, host, commands, chance, reloads):
    """The lines of commands, what they come to, how many lines of text were cut, and how often flow went to another flow."""
    why = refusal(story["root"])
    if why:
        return [], ([], "inkplay: story refused: %s\n" % why, 2), 0, 0
    try:
        player = Player(story["root"], host)
    except Fault as fault:
        return [], ([], "inkplay: story fault: %s\n" % fault, 2), 0, 0
    lines, answers = [], []

    def answer(line):
        lines.append(line)
        answers.append(to_json(player.answer(line)))
        return answers[-1]

    for command in commands:
        if reloads:
            reloading(player, answer)
        answer(line_of(chance, player, command))
    if reloads:
        reloading(player, answer)
    return lines, (answers, "", 0), player.cuts, player.moves


def going_on(chance):
    """Commands that run the story: to the stop, or some lines."""
    lines = ["continue"] * chance.choice((1, 1, 2, 3, 5, 8))
    if chance.random() < 0.2:
        lines.insert(chance.randrange(len(lines) + 1), chance.choice(("get n", "get x", "set x 5", "set n 0", "visits p1", "restart", "jump p1", "save")))
    return chance.choice((["through"], lines, lines, lines + ["through"]))


def random_commands(chance, root):
    """Command lines that mostly begin by running the story."""
    first = going_on(chance) if chance.random() < 0.85 else []
    counted_ones = [place for place in places(root) if (flags_at(root, place) or 0) & 1 and place]
    asked = ["visits " + ".".join(map(str, chance.choice(counted_ones))) for _ in range(chance.randrange(4)) if counted_ones]
    jumps = ["jump " + ".".join(map(str, chance.choice(list(places(root))[1:])))] if chance.random() < 0.15 and list(places(root))[1:] else []
    turns = []
    for _ in range(chance.choice((0, 1, 2, 4, 8)) + (6 if "c0" in own(root) else 0)):
        turns += ["restart"] * (chance.random() < 0.1) + ["choose %d" % chance.choice((0, 0, 0, 1, 2))] + going_on(chance)
    rest = asked + jumps + [chance.choice(COMMANDS) for _ in range(chance.randrange(1, 8))]
    return with_saves(chance, with_flows(chance, root, first + turns + rest))


# bytes of the stories that are printed
LEAST_STORY, MOST_STORY = 200, 600


def print_stories(count, seed):
    """Prints random stories that are accepted and neither very short nor long."""
    number = 0
    while count:
        story = random_story(random.Random("%d.%d" % (seed, number)))
        text = json.dumps(story, ensure_ascii=False, separators=(",", ":"))
        number += 1
        if LEAST_STORY <= len(text.encode()) <= MOST_STORY and refusal(story["root"]) is None:
            print(text)
            count -= 1


# how many paths twintest spells from each content, beside the written ones
SPELLED = 9
# the most pairs of two places, or of a path and a place, that it compares for one story
MOST_PAIRS = 100000


def some(items, others):
    """How many of these items it pairs with others: all, or every k-th where there are too many pairs."""
    return -(-items // (items * others // MOST_PAIRS + 1))


def expanded(text):
    """A line of a table with its forms in full: so many times a text, with the number of each."""
    return re.sub("⟦(\\d+) ([^⟧]*)⟧", lambda form: "".join(form[2].replace("№", str(n)) for n in range(int(form[1]))), text)


def twin_case(text):
    """A story as a case of a table of twins: how much of it twintest compares, and that all of it is alike."""
    root = json.loads(expanded(text))["root"]
    contents = [found(root, place) for place in places(root)]
    nodes = len(contents)
    stands = nodes + sum(isinstance(content, list) for content in contents)
    paths = some(sum(written(content) is not None for content in contents), nodes) + SPELLED
    return "%s => %d nodes, %d landings, %d paths: alike" % (text, nodes, stands * (some(stands, stands) + 1), nodes * paths)


def print_twins():
    for line in sys.stdin.read().split("\n")[:-1]:
        print(twin_case(line) if line.startswith("{") else line)


class Same:
    """What a pure function gives that gives the same whatever it is asked."""

    def __init__(self, gift):
        self.gift = gift

    def get(self, _arguments, _none):
        return self.gift


def gift(word):
    """What a word of a table says that a function gives."""
    if word.startswith("^"):
        return word[1:].translate(str.maketrans("_~|", " \t\n"))
    return {"void": None, "true": True, "false": False}[word] if word.isalpha() else int(word)


# the most moves of a session that marktest plays
MOST_MOVES = 1000


def sent_on(player, words):
    """Flow is sent on at a stop by the words of a command."""
    word, _, rest = words.partition(" ")
    answer = getattr(player, word)(rest)
    if "refused" in answer:
        sys.exit("%s: %s" % (words, answer["refused"]))
    player.machine.begin()


def moves_of(root, question):
    """How many moves a session has: its steps up to a fault, and its commands at stops."""
    parts = [words.split(" ") for words in question.split("; ")]
    scripts = {words[1]: list(map(gift, words[2:])) for words in parts if words[0] == "turn"}
    tables = {words[1]: Same(gift(words[2])) for words in parts if words[0] == "pure"}
    commands = [" ".join(words) for words in parts if words[0] in ("choose", "jump")]
    player = Player(root, Host(scripts, tables))
    for moves in range(MOST_MOVES):
        try:
            if player.machine.frame.place is not None:
                player.machine.step()
            elif commands:
                sent_on(player, commands.pop(0))
            else:
                return moves
        except Fault:
            return moves
    return MOST_MOVES


def print_marks():
    root = None
    for line in sys.stdin.read().split("\n")[:-1]:
        question, is_case, _ = line.rpartition(" => ")
        if line.startswith("= "):
            root = json.loads(expanded(line[2:]))["root"]
        elif is_case and not line.startswith("//"):
            line = "%s => %d marks: alike" % (question, moves_of(root, question) + 1)
        print(line)


BAD_SAVE, BAD_COMMAND = '{"refused":"BadSave"}', '{"refused":"BadCommand"}'


def kind_of(wanted):
    """What a run shows: a refused story, one that cannot be opened, or whether something was played."""
    answers, error, _ = wanted
    if error:
        return "refused" if "refused" in error else "not opened"
    return "played" if any(answer.startswith('{"choices":') or '"fault":' in answer for answer in answers) else "asked"


def main():
    top = os.path.dirname(os.path.dirname(os.path.abspath(__file__)))
    parser = argparse.ArgumentParser()
    parser.add_argument("--runs", type=int, default=2000)
    parser.add_argument("--seed", type=int, default=1)
    parser.add_argument("--stories", type=int)
    parser.add_argument("--twins", action="store_true")
    parser.add_argument("--marks", action="store_true")
    parser.add_argument("--reload", action="store_true")
    parser.add_argument("program", nargs="?", default=os.path.join(top, "inkplay"))
    words = parser.parse_args()
    if words.twins:
        return print_twins()
    if words.marks:
        return print_marks()
    if words.stories is not None:
        return print_stories(words.stories, words.seed)
    sys.setrecursionlimit(20000)
    differ = 0
    counts = dict.fromkeys(("played", "asked", "refused", "not opened", "left out", "lines", "loads", "flows", "no loads", "moves"), 0)
    for number in range(words.runs):
        chance = random.Random("%d.%d" % (words.seed, number))
        story = random_story(chance)
        commands = random_commands(chance, story["root"])
        host = random_host(chance)
        options = host.words()
        first = json.dumps(story, ensure_ascii=chance.random() < 0.5)
        try:
            lines, wanted, cuts, moves = expected(story, host, commands, chance, words.reload)
        except TooSlow:
            counts["left out"] += 1
            continue
        text = "\n".join([first] + lines) + "\n"
        counts[kind_of(wanted)] += 1
        counts["lines"] += cuts
        loads = [line for line, answer in zip(lines, wanted[0]) if line.startswith("load ") and answer not in (BAD_SAVE, BAD_COMMAND)]
        counts["loads"] += len(loads)
        counts["flows"] += sum(len(json.loads(line[len("load "):]).get("flows", [])) > 1 for line in loads)
        counts["no loads"] += wanted[0].count(BAD_SAVE)
        counts["moves"] += moves
        done = subprocess.run([words.program] + options, input=text.encode(), stdout=subprocess.PIPE, stderr=subprocess.PIPE)
        told = (done.stdout.decode().splitlines(), done.stderr.decode(), done.returncode)
        if told != wanted:
            differ += 1
            if differ <= 3:
                print("%s\n%s\nwanted %s\ntold   %s\n" % (options, text, wanted, told))
    print("%d runs: %d played, %d only set and asked, %d stories refused, %d not opened, %d left out; %d lines cut; %d saves loaded, %d of several flows, %d refused;"
          " %d times to another flow; %d differ"
          % (words.runs, counts["played"], counts["asked"], counts["refused"], counts["not opened"], counts["left out"], counts["lines"], counts["loads"],
             counts["flows"], counts["no loads"], counts["moves"], differ))
    return 1 if differ else 0


if __name__ == "__main__":
    sys.exit(main())
