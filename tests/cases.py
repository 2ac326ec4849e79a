#!/usr/bin/env python3
"""What only the program shows: its words, files, exit statuses and standard error. Sessions are cases of
crates/playtest/data.

    tests/cases.py [PROGRAM]      the program is ./inkplay unless another is named

Prints each run that goes wrong, and last how many hold; the status is 0 only where all do.
"""
import json
import os
import subprocess
import sys
import tempfile

import toolchain

STORY_LIMIT = 16 << 20
LINE_LIMIT = 1 << 20


def story(*root, **other):
    """A story whose root has these contents."""
    return json.dumps(dict({"inkVersion": 21, "root": list(root) + [None], "listDefs": {}}, **other), ensure_ascii=False)


DONE = story("done")
PASSAGE = '{"choices":[],"events":[],"loose":false,"more":false,"tags":[],"text":""}\n'
HELLO = PASSAGE.replace('""', '"Hello, 世界\\n"')
BAD = '{"refused":"BadCommand"}\n'


# asks `roll` with 6, and a name, and writes what they give; and a global
ROLLS = story("ev", 6, {"x()": "roll", "exArgs": 1}, "out", "/ev", "^ for ", "ev", {"x()": "name"}, "out", "/ev", "\n", "end")
GOLD = story("ev", 11, {"VAR=": "gold", "re": True}, "/ev", "done", {"global decl": ["ev", 10, {"VAR=": "gold"}, "/ev", "end", None]})
GOLD = GOLD.replace(', null], "listDefs"', '], "listDefs"')


# says three lines; behind the first it asks `roll` with 6 and keeps the answer in `gold`
LINES = story("^Heads?", "\n", "ev", 6, {"x()": "roll", "exArgs": 1}, {"VAR=": "gold", "re": True}, "/ev", "^Tails.", "\n", "ev", {"VAR?": "gold"}, "out", "/ev", "\n", "done",
              ["ev", 10, {"VAR=": "gold"}, "/ev", "end", {"#n": "global decl"}])


def line(text, more=True, events=""):
    """The passage of a line."""
    return PASSAGE.replace('"events":[]', '"events":[%s]' % events).replace('"more":false', '"more":%s' % ("true" if more else "false")).replace('""', '"%s\\n"' % text)


def rolled(gave, text):
    """The passage of a story that rolled a die."""
    event = '{"args":[6],"call":"roll","gave":%s,"stamp":0}' % gave
    return PASSAGE.replace('"events":[]', '"events":[%s]' % event).replace('""', '"%s\\n"' % text)


def told(value, stamp):
    return '"events":[{"saw":"gold","stamp":%d,"value":%d}]' % (stamp, value)


def load(*values, place=None):
    """A line that loads a save with these globals, whose flow is at this place or has stopped."""
    frame = {"depth": 0, "eval": False, "fresh": False, "kind": "base", "place": place, "temps": {}}
    flow = {"choices": [], "name": "DEFAULT_FLOW", "safe": False, "stack": [], "threads": [{"frames": [frame], "previous": None}]}
    return "load %s\n" % json.dumps({"current": "DEFAULT_FLOW", "flows": [flow], "format": 2, "globals": values, "turn": 0, "turns": [], "visits": []})


def refused(why):
    return "", "inkplay: story refused: %s\n" % why, 2


def faulted(answers, fault):
    return answers, "inkplay: run fault: %s\n" % fault, 1


def padded(text, size):
    return text + " " * (size - len(text))


# name, standard input, and the output, standard error and status
RUNS = (
    ("served to the end", story("^Hello, 世界", "\n", "done") + "\nthrough\nbye", (HELLO + BAD, "", 0)),
    ("served line by line", story("^Hello,", "\n", "^世界", "\n", "done") + "\ncontinue\ncontinue\ncontinue", (line("Hello,") + line("世界", False) + '{"refused":"CannotContinue"}\n', "", 0)),
    ("no command", DONE, ("", "", 0)),
    ("nothing", "", refused("NotJson")),
    ("no JSON", "{\nthrough\n", refused("NotJson")),
    ("an earlier version", story("done", inkVersion=19), refused("Version")),
    ("a later version", story("done", inkVersion=22), refused("Version")),
    ("version 20", story("^Hello, 世界", {"#": " a  b "}, "\n", "done", inkVersion=20) + "\nthrough\n", (HELLO.replace('"tags":[]', '"tags":["a b"]'), "", 0)),
    ("a tag without text", story({"#": 1}, "done", inkVersion=20), refused("Shape at 0")),
    ("a whole tag in version 21", story({"#": "a"}, "done"), refused("Unsupported at 0")),
    ("no object", "[]\nthrough\n", refused("Shape at root")),
    ("a shape in a container", story(["ev", {"VAR=": 1}, None]), refused("Shape at 0.1")),
    ("a form that is not read", story(["ev", 1.5, None]), refused("Unsupported at 0.1")),
    ("a path by key", '{"inkVersion":21,"root":[{"a b":[["^b",{"f()":"m"},null],null]}]}', refused("BadPath at a b.0.1")),
    ("a number too large", story(2147483648), refused("Limit at 0")),
    ("a story too long", padded(DONE, STORY_LIMIT + 1), refused("Limit at root")),
    ("a fault of the declarations", '{"inkVersion":21,"root":["done",{"global decl":["pop",null]}]}\nthrough\n', ("", "inkplay: story fault: StackEmpty\n", 2)),
    ("a line too long", DONE + "\nbye\n" + "x" * (LINE_LIMIT + 1) + "\nthrough\n", faulted(BAD, "TooLong")),
    ("a story that is no UTF-8", DONE.replace("done", "^\udcc0\udc80") + "\nthrough\n", refused("NotJson")),
    ("a story of open brackets", "[" * 100000 + "\nthrough\n", refused("NotJson")),
    ("a story of NUL bytes", "\0" * 1000 + "\nthrough\n", refused("NotJson")),
    ("lines that are no UTF-8", DONE + "\nget \udcff\nload \udced\udca0\udc80\n\udcf4\udc90\udc80\udc80\nthrough\n", (BAD * 3 + PASSAGE, "", 0)),
)


def run(program, text, words=()):
    done = subprocess.run([program] + list(words), input=text.encode(errors="surrogateescape"), stdout=subprocess.PIPE, stderr=subprocess.PIPE)
    return done.stdout.decode(), done.stderr.decode(), done.returncode


def run_files(program, folder):
    """Words and files, and what comes of them."""
    def file(name, text):
        path = os.path.join(folder, name)
        with open(path, "w") as out:
            out.write(text)
        return path

    held, most, more = file("story", DONE), file("most", padded(DONE, STORY_LIMIT)), file("-more", padded(DONE, STORY_LIMIT + 1))
    words_refused = ("", "inkplay: words refused\n", 2)
    not_read = ("", "inkplay: file not read\n", 2)
    for words, text, wanted in (
            ([held], "through\n", (PASSAGE, "", 0)),
            ([held], "", ("", "", 0)),
            (["--", held], "through\n", (PASSAGE, "", 0)),
            ([most], "through\n", (PASSAGE, "", 0)),
            (["--", more], "through\n", refused("Limit at root")),
            ([file("path", story({"->": "m"}))], "through\n", refused("BadPath at 0")),
            ([held], "x" * (LINE_LIMIT + 1) + "\n", faulted("", "TooLong")),
            ([held, held], "", words_refused),
            (["--help"], "", words_refused),
            (["-x"], "", words_refused),
            ([""], "", not_read),
            ([os.path.join(folder, "none")], "", not_read),
            ([folder], "", not_read)):
        yield "words %s" % words, run(program, text, words), wanted


def run_objects(program, folder):
    """Words that bind functions and watch globals, and what comes of them."""
    words_refused = ("", "inkplay: words refused\n", 2)
    none = os.path.join(folder, "none")
    for words in (["--answer", "f"], ["--answer", "=[]"], ["--answer", "f="], ["--answer", "f={}"], ["--answer", "f=1"], ["--answer", "f=[1.5]"],
                  ["--answer", "f=[2147483648]"], ["--answer", "f=[[]]"], ["--answer", "f=[{}]"], ["--answer", "f=[1"], ["--answer", ""], ["--answer"],
                  ["--table", "f"], ["--table", "={}"], ["--table", "f=[]"], ["--table", 'f={"[]":[]}'], ["--table", 'f={"[]":1e0}'], ["--table"],
                  ["--watch", ""], ["--watch"], ["--watch", "x", "--watch", "x"], ["--answer", "f=[]", "--answer", "f=[]"],
                  ["--table", "f={}", "--table", "f={}"], ["--answer", "f=[]", "--table", "f={}"], ["--bind", "f"], ["--help", "--watch", "x"]):
        yield "words %s" % words, run(program, DONE + "\nthrough\n", words), words_refused
        yield "words %s and no file" % words, run(program, "", [none] + words), words_refused
    path = os.path.join(folder, "rolls")
    with open(path, "w") as out:
        out.write(ROLLS)
    table = ["--table", 'name={"[]":"Ada"}']
    fault = ('{"events":[{"args":[6],"call":"roll","refused":true,"stamp":0}],"fault":"HostRefused"}\n', "", 0)
    for words, text, wanted in (
            (["--answer", "roll=[4,2]"] + table, "through\n", (rolled("4", "4 for Ada"), "", 0)),
            (["--answer=roll=[4,2]"] + table, "through\n", (rolled("4", "4 for Ada"), "", 0)),
            (["--answer", 'roll=["a=b"]'] + table, "through\n", (rolled('"a=b"', "a=b for Ada"), "", 0)),
            (["--answer", "roll=[null]"] + table, "through\n", (rolled("null", "for Ada"), "", 0)),
            (["--answer", "roll=[true]"] + table, "through\n", (rolled("true", "true for Ada"), "", 0)),
            (["--answer", "roll=[]"] + table, "through\n", fault),
            (["--table", 'roll={"[6]":1}'] + table, "through\n", (PASSAGE.replace('""', '"1 for Ada\\n"'), "", 0)),
            (["--table", 'roll={"[ 6]":1}'] + table, "through\n", ('{"events":[],"fault":"HostRefused"}\n', "", 0)),
            (["--table", 'roll={"[6]":1}', "--answer", "other=[]", "--watch", "other"] + table, "through\n", (PASSAGE.replace('""', '"1 for Ada\\n"'), "", 0)),
            (["--answer", "roll=[4]"], "through\n", ('{"events":[{"args":[6],"call":"roll","gave":4,"stamp":0}],"fault":"Unbound"}\n', "", 0)),
            ([], "through\n", ('{"events":[],"fault":"Unbound"}\n', "", 0))):
        yield "words %s" % words, run(program, text, [path] + words), wanted
        yield "words %s, story first" % words, run(program, ROLLS + "\n" + text, words), wanted
    yield from run_lines(program, folder)
    watched = PASSAGE.replace('"events":[]', told(11, 0)) + '{%s}\n{"events":[]}\n{%s}\n' % (told(7, 1), told(10, 2))
    yield "a watcher", run(program, GOLD + "\nthrough\nset gold 7\nset gold 7\nrestart\n", ["--watch", "gold"]), (watched, "", 0)
    saved = load(("other", "a"), ("gold", 11))
    watched = ('{%s}\n{"events":[{"saw":"other","stamp":1,"value":"a"},{"saw":"gold","stamp":2,"value":11}]}\n{"events":[]}\n{"refused":"BadSave"}\n{"events":[]}\n{%s}\n'
               % (told(7, 0), told(11, 3)))
    yield ("a watcher and loads", run(program, GOLD + "\nset gold 7\n" + saved + saved + load(("gold", 1), ("gold", 1)) + load(("more", 1)) + load(("more", 2), ("gold", 11)),
                                      ["--watch", "gold", "--watch", "other"]), (watched, "", 0))
    rolls = [rolled("4", "4 for Ada"), rolled("2", "2 for Ada").replace('"stamp":0', '"stamp":1'), fault[0].replace('"stamp":0', '"stamp":2'),
             fault[0].replace('"stamp":0', '"stamp":3')]
    start = load(place=[0])
    yield ("calls go on after loads", run(program, (start + "through\n") * 4, [path, "--answer", "roll=[4,2]"] + table),
           ("".join('{"events":[]}\n' + roll for roll in rolls), "", 0))


def run_lines(program, folder):
    """A story that is played line by line, with objects."""
    path = os.path.join(folder, "lines")
    with open(path, "w") as out:
        out.write(LINES)
    called = '{"args":[6],"call":"roll","gave":4,"stamp":0}'
    refused_call = '{"args":[6],"call":"roll","refused":true,"stamp":0}'
    text = "continue\nget gold\ncontinue\nget gold\ncontinue\ncontinue\n"

    def lines(value, events=""):
        return (line("Heads?") + '{"value":10}\n' + line("Tails.", events=events) + '{"value":%s}\n' % value + line(value, False) + '{"refused":"CannotContinue"}\n', "", 0)

    def broken(fault, events=""):
        return (line("Heads?") + '{"value":10}\n{"events":[%s],"fault":"%s"}\n{"value":10}\n' % (events, fault)
                + '{"fault":"%s","refused":"Broken"}\n' % fault * 2, "", 0)

    for words, wanted in (
            (["--answer", "roll=[4,2]"], lines("4", called)),
            (["--answer", "roll=[4,2]", "--watch", "gold"], lines("4", called + ',{"saw":"gold","stamp":1,"value":4}')),
            (["--table", 'roll={"[6]":4}'], lines("4")),
            (["--table", 'roll={"[6]":4}', "--watch", "gold"], lines("4", '{"saw":"gold","stamp":0,"value":4}')),
            (["--table", 'roll={"[6]":10}', "--watch", "gold"], lines("10")),
            (["--answer", "roll=[]"], broken("HostRefused", refused_call)),
            (["--table", "roll={}"], broken("HostRefused")),
            ([], broken("Unbound"))):
        yield "words %s, line by line" % words, run(program, text, [path] + words), wanted
        yield "words %s, story first, line by line" % words, run(program, LINES + "\n" + text, words), wanted
    again = line("Heads?") + '{"events":[]}\n' + line("Heads?")
    yield ("a call is made by the line that keeps it", run(program, "continue\nrestart\ncontinue\nthrough\n", [path, "--answer", "roll=[4,2]"]),
           (again + line("Tails.\\n4", False, called), "", 0))


def run_ends(program):
    """A disk that takes nothing, and an input that cannot be read."""
    with open("/dev/full", "wb") as full:
        done = subprocess.run([program], input=(DONE + "\nthrough\n").encode(), stdout=full, stderr=subprocess.PIPE)
    yield "a full disk", ("", done.stderr.decode(), done.returncode), faulted("", "Write")
    folder = os.open(toolchain.TOP, os.O_RDONLY)
    done = subprocess.run([program], stdin=folder, stdout=subprocess.PIPE, stderr=subprocess.PIPE)
    os.close(folder)
    yield "an input that fails", (done.stdout.decode(), done.stderr.decode(), done.returncode), faulted("", "Read")


def main():
    program = sys.argv[1] if len(sys.argv) > 1 else os.path.join(toolchain.TOP, "inkplay")
    run(program, DONE + "\n")  # built
    with tempfile.TemporaryDirectory() as folder:
        cases = [(name, run(program, text), wanted) for name, text, wanted in RUNS]
        cases += list(run_files(program, folder)) + list(run_objects(program, folder)) + list(run_ends(program))
    wrong = [(name, came) for name, came, wanted in cases if came != wanted]
    for name, came in wrong:
        print("%s: status %d, %r, %r" % (name, came[2], came[0][:200], came[1][:200]))
    print("%d of %d hold" % (len(cases) - len(wrong), len(cases)))
    return 1 if wrong else 0


if __name__ == "__main__":
    sys.exit(main())
