#!/usr/bin/env python3
"""What only the reader shows beside the run that is stored in crates/inkread: its save's file, tags, and its errors.

    tests/reader_runs.py [PROGRAM]      the program is ./inkread unless another is named

Prints each run that goes wrong, and last how many hold; the status is 0 only where all do.
"""
import json
import os
import subprocess
import sys
import tempfile

import toolchain

STORY = {"inkVersion": 21, "root": [
    ["^You wake.", "#", "^dawn", "/#", "\n", "ev", "str", "^Rise.", "/str", "/ev", {"*": "up", "flg": 4},
     "ev", "str", "^Sleep.", "/str", "/ev", {"*": "down", "flg": 4}, "done", None],
    "done", {"up": ["^You rise.", "\n", "end", None], "down": ["^You sleep.", "\n", "end", None]}], "listDefs": {}}
CHOICES = "\n1. Rise.\n2. Sleep.\n> "
BEGUN = "You wake.\n" + CHOICES
ROSE = "You rise.\nThe story ends here.\n> "
THERE_IS_ONE = "There is a save. Go on with it? (n begins anew; the next save takes its place)\n> "
HELP = ("A number takes the choice of that number. s saves, l loads the save, b goes back\n"
        "to before the last choice, r restarts, v NAME shows a variable, q quits, ? shows\nthis.\n> ")
DIVIDED = "The story divided by zero, or the least number by -1.\n"
BROKE_OFF = ("The story breaks off behind the last line. What was saved stays; b goes back to\n"
             "before the last choice, if there was one, and r restarts.\n")
CUT = "The save is cut, or is no save; it stays as it is.\n"
BAD = ("inkread: The story has something that is not played here: a list, a number with a point, a shuffle or a random number.\n"
       "It is at k.1.\nThere stands: 1.5\n")
WORDS = ("inkread: inkread STORY [--save FILE] [--no-autosave] [--tags] [--answer NAME=JSON].. [--table NAME=JSON].. [--watch NAME]..\n")

# name, what the save's file has before ('kept' where it is that of the run before), words, what is typed, what is printed, and
# whether there is a save afterwards: 'new', 'old' or none
RUNS = (
    ("saves at choices", None, [], "1\n", BEGUN + ROSE, "new"),
    ("goes on with a save", "kept", [], "\n1\n", THERE_IS_ONE + CHOICES + ROSE, "new"),
    ("begins anew", "kept", ["--no-autosave"], "n\n", THERE_IS_ONE + BEGUN, "old"),
    ("no save unasked", None, ["--no-autosave"], "1\n", BEGUN + ROSE, None),
    ("a save by hand", None, ["--no-autosave"], "s\nq\n", BEGUN + "Saved.\n> ", "new"),
    ("a load", None, ["--no-autosave"], "l\ns\n1\nl\n2\n",
     BEGUN + "There is no save.\n> Saved.\n> " + ROSE + CHOICES + "You sleep.\nThe story ends here.\n> ", "new"),
    ("back over a load", None, ["--no-autosave"], "s\n1\nl\nb\nb\n", BEGUN + "Saved.\n> " + ROSE + CHOICES + CHOICES + "There is no choice to take back.\n> ", "new"),
    ("help", None, ["--no-autosave"], "?\n", BEGUN + HELP, None),
    ("a save that is cut stays", '{"current"', [], "\n1\n", THERE_IS_ONE + CUT + BEGUN + ROSE, "old"),
    ("tags of lines", None, ["--no-autosave", "--tags"], "", "You wake. # dawn\n" + CHOICES, None),
)

# Stories that divide by zero somewhere, and where the line began that broke off. The last thread is the one that ran, and its last
# frame the nearest.
DIVIDES = ["ev", 1, 0, "/", "out", "/ev", "\n"]
FAULTS = (
    ("a fault in a knot", [[{"->": "knot"}, None], "done", {"knot": ["^One.", "\n"] + DIVIDES + ["done", None]}], "One.\n", "knot.2"),
    ("a fault in a knot that leads on", [[{"->": "knot"}, None], "done", {"knot": ["^One.", "\n", {"->": "far"}, None], "far": DIVIDES + ["done", None]}], "One.\n", "knot.2"),
    ("a fault in a gather", [["^One.", "\n", DIVIDES + [{"#n": "g-0"}], None], "done", {}], "One.\n", "0.2"),
    ("a fault at the start", [DIVIDES + ["done", None], "done", {}], "", "0"),
    ("a fault in a function below a tunnel", [["^One.", "\n", {"->t->": "tunnel"}, "done", None], "done", {
        "tunnel": ["^Two.", "\n", "ev", {"f()": "function"}, "out", "/ev", "\n", "ev", "void", "/ev", "->->", None],
        "function": ["^Three.", "\n"] + DIVIDES + [None]}], "One.\nTwo.\nThree.\n", "function.2"),
    ("a fault in a tunnel", [["^One.", "\n", {"->t->": "tunnel"}, "done", None], "done", {
        "tunnel": ["^Two.", "\n"] + DIVIDES + ["ev", "void", "/ev", "->->", None]}], "One.\nTwo.\n", "tunnel.2"),
    ("a fault in a second thread", [["^One.", "\n", "thread", {"->": "side"}, "^Main.", "\n", "done", None], "done", {
        "side": ["^Side.", "\n"] + DIVIDES + ["done", None]}], "One.\nSide.\n", "side.2"),
    ("a fault in a knot with control characters", [[{"->": "a\x1b[31mb\x9b2Jc"}, None], "done", {
        "a\x1b[31mb\x9b2Jc": ["^One.", "\n"] + DIVIDES + ["done", None]}], "One.\n", "a [31mb 2Jc.2"),
)

# Stories that call a function, words, what is typed (bytes where it is no UTF-8), and what is printed.
CALLS = ["ev", {"x()": "f"}, "out", "/ev", "\n", "done", None]
THREE = "3\nThe story ends here.\n> "
QUESTIONS = (
    ("a function that is a knot", [CALLS, "done", {"f": ["ev", 3, "/ev", "~ret", None]}], [], "", THREE),
    ("a function that a word binds", [CALLS, "done", {}], ["--answer", "f=[3]"], "", THREE),
    ("a function that a word binds by a table", [CALLS, "done", {}], ["--table", 'f={"[]":3}'], "", THREE),
    ("a function that a word binds, beside one that asks", [["ev", {"x()": "g"}, "out", "/ev"] + CALLS, "done", {}], ["--answer", "f=[3]"], "2\n", "g() = 2" + THREE),
    ("a function at the end of the input", [CALLS, "done", {}], [], "",
     "f() = A function had no answer to give.\n%sThe line that broke off began at 0.\n> " % BROKE_OFF),
    ("a question that is answered by no UTF-8", [CALLS, "done", {}], [], b"\xe9\n\xff\n3\n", "f() = That was not understood.\n" * 2 + "f() = " + THREE),
    ("a question that is answered by no UTF-8 at the end of the input", [CALLS, "done", {}], [], b"\xe9",
     "f() = That was not understood.\nf() = A function had no answer to give.\n%sThe line that broke off began at 0.\n> " % BROKE_OFF),
    ("a question with brackets", [
        ["ev", "str", "^[a]]", "/str", "str", "^[", "/str", {"x()": "f", "exArgs": 2}, "out", "/ev", "\n", "done", None], "done", {}], [], "3\n",
     'f("[a]]","[") = ' + THREE),
    ("a question with control characters", [
        ["ev", "str", "^\x9b2Jc", "/str", {"x()": "a\x1b[31mb\x9b2J", "exArgs": 1}, "out", "/ev", "\n", "done", None], "done", {}], [], "3\n",
     'a [31mb 2J(" 2Jc") = ' + THREE),
)


def run(program, folder, words, typed, **env):
    """What a reading prints, its standard error and its status."""
    env = dict({name: value for name, value in os.environ.items() if name not in ("COLUMNS", "NO_COLOR", "TERM")}, **env)
    typed = typed if isinstance(typed, bytes) else typed.encode()
    done = subprocess.run([program] + words, input=typed, cwd=folder, env=env, stdout=subprocess.PIPE, stderr=subprocess.PIPE)
    return done.stdout.decode(), done.stderr.decode(), done.returncode


def text_of(path):
    """The text of a file; none where there is no such file."""
    if not os.path.exists(path):
        return None
    with open(path, encoding="utf-8") as it:
        return it.read()


def in_another_flow(path, place):
    """Makes a save one of a game in another flow, which stands at a place."""
    with open(path, encoding="utf-8") as it:
        save = json.load(it)
    frame = {"depth": 0, "eval": False, "fresh": False, "kind": "base", "place": place, "temps": {}}
    save["flows"].append({"choices": [], "name": "other", "safe": False, "stack": [], "threads": [{"frames": [frame], "previous": None}]})
    save["current"] = "other"
    with open(path, "w", encoding="utf-8") as out:
        json.dump(save, out, separators=(",", ":"), sort_keys=True)


def runs(program, folder):
    """The name of each run, what came of it, and what is wanted."""
    save = os.path.join(folder, "story.json.save")
    with open(os.path.join(folder, "story.json"), "w", encoding="utf-8") as out:
        json.dump(STORY, out)
    for name, before, words, typed, printed, left in RUNS:
        if before != "kept" and os.path.exists(save):
            os.remove(save)
        if before not in (None, "kept"):
            with open(save, "w", encoding="utf-8") as out:
                out.write(before)
        was = text_of(save)
        came = run(program, folder, ["story.json"] + words, typed)
        now = text_of(save)
        yield name, came + (None if now is None else "old" if now == was and left == "old" else "new",), (printed, "", 0, left)
    for name, root, lines, path in FAULTS:
        with open(os.path.join(folder, "fault.json"), "w", encoding="utf-8") as out:
            json.dump(dict(STORY, root=root), out)
        told = "%s%s%sThe line that broke off began at %s.\n> " % (lines, DIVIDED, BROKE_OFF, path)
        yield name, run(program, folder, ["fault.json", "--no-autosave"], ""), (told, "", 0)
    for name, root, words, typed, printed in QUESTIONS:
        with open(os.path.join(folder, "calls.json"), "w", encoding="utf-8") as out:
            json.dump(dict(STORY, root=root), out)
        yield name, run(program, folder, ["calls.json", "--no-autosave"] + words, typed), (printed, "", 0)
    with open(os.path.join(folder, "fault.json"), "w", encoding="utf-8") as out:
        json.dump(dict(STORY, root=[["ev", "str", "^On.", "/str", "/ev", {"*": "knot", "flg": 4}, "done", None], "done", {"knot": ["^One.", "\n"] + DIVIDES + ["done", None]}]), out)
    run(program, folder, ["fault.json", "--save", "other"], "q\n")
    in_another_flow(os.path.join(folder, "other"), ["knot", 2])
    told = "%s%s%sThe line that broke off began at knot.2.\n> " % (THERE_IS_ONE, DIVIDED, BROKE_OFF)
    yield "a fault in another flow", run(program, folder, ["fault.json", "--save", "other"], "\n"), (told, "", 0)
    dim = "You wake.\x1b[2m # dawn\x1b[0m\n" + CHOICES
    yield "dimmed tags", run(program, folder, ["story.json", "--no-autosave", "--tags", "--save", "none"], "", TERM="xterm"), (dim, "", 0)
    plain = dim.replace("\x1b[2m", "").replace("\x1b[0m", "")
    for env in ({"TERM": "dumb"}, {"TERM": "xterm", "NO_COLOR": "1"}):
        yield "tags that are not dimmed %s" % env, run(program, folder, ["story.json", "--no-autosave", "--tags", "--save", "none"], "", **env), (plain, "", 0)
    yield "no words", run(program, folder, [], ""), ("", WORDS, 2)
    with open(os.path.join(folder, "bad.json"), "w", encoding="utf-8") as out:
        json.dump(dict(STORY, root=["done", {"k": ["^a", 1.5, None]}]), out)
    yield "a story that is refused", run(program, folder, ["bad.json"], ""), ("", BAD, 2)
    with open(os.path.join(folder, "bad.json"), "w", encoding="utf-8") as out:
        json.dump(dict(STORY, root=["done", {"k\x1b[31m\x9b2J": ["^a", "b\x9b2J", None]}]), out)
    told = BAD.replace("k.1", "k [31m 2J.1").replace("1.5", '"b 2J"')
    yield "a refused story with control characters", run(program, folder, ["bad.json"], ""), ("", told, 2)
    with open(os.path.join(folder, "marked.json"), "w", encoding="utf-8-sig") as out:
        json.dump(dict(STORY, root=["done", {"k": ["^a", 1.5, None]}]), out)
    yield "a refused story behind a byte order mark", run(program, folder, ["marked.json"], ""), ("", BAD, 2)


def main():
    program = os.path.abspath(sys.argv[1]) if len(sys.argv) > 1 else os.path.join(toolchain.TOP, "inkread")
    with tempfile.TemporaryDirectory() as folder:
        run(program, folder, [], "")  # built
        came = list(runs(program, folder))
    wrong = [it for it in came if it[1] != it[2]]
    for name, got, wanted in wrong:
        print("%s: came %r, wanted %r" % (name, got, wanted))
    print("%d of %d hold" % (len(came) - len(wrong), len(came)))
    return 1 if wrong else 0


if __name__ == "__main__":
    sys.exit(main())
