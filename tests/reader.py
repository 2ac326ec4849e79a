#!/usr/bin/env python3
"""The reader for people, `inkread`: whole games in a terminal, and its save where a disk, a folder or a file does not do.

    tests/reader.py [--store] [PROGRAM]      the program is ./inkread unless another is named

Games are played in tmux, at 40, 80 and 200 columns and in a window that is made narrower on the way. What stands on the screen
after each line that is typed is compared with the text that is stored in tests/screens; --store stores it. Then the reader is
played through pipes: a save is cut at each of its bytes, is that of another story, no text, or too long; it cannot be written, since
the disk is full, the folder is read-only or the file is a folder; and 10,000 choices are made and taken back.

A full disk is a file system of its own, which takes root; without root, or without tmux, that part is left out, and it is said.

Prints what is wrong, and last how much holds; the status is 0 only where all does.
"""
import json
import os
import re
import shutil
import subprocess
import sys
import tempfile
import time

import toolchain

SCREENS = os.path.join(toolchain.TOP, "tests/screens")
SECONDS = 20
ROUNDS = 10000
MIB = 1 << 20
NOBODY = 65534

INN = os.path.join(toolchain.TOP, "crates/inkread/data/story.json")
WIDE = os.path.join(SCREENS, "wide.json")

# a story that counts its rounds
LOOP = json.dumps({"inkVersion": 21, "root": [[{"->": "loop"}, None], "done", {
    "loop": ["ev", {"VAR?": "n"}, 1, "+", {"VAR=": "n", "re": True}, "/ev", "^Round ", "ev", {"VAR?": "n"}, "out", "/ev", "^.", "\n",
             "ev", "str", "^Again.", "/str", "/ev", {"*": "loop", "flg": 4}, "ev", "str", "^Enough.", "/str", "/ev", {"*": "last", "flg": 4}, "done", None],
    "last": ["^That is all.", "\n", "end", None],
    "global decl": ["ev", 0, {"VAR=": "n"}, "/ev", "end", None]}], "listDefs": {}})

GOES_ON = "There is a save. Go on with it? (n begins anew; the next save takes its place)\n> "
NOT_WRITTEN = "The save could not be written; what was saved before stays.\n"
NO_SAVE = "The save is cut, or is no save; it stays as it is.\n"
CHOICES = "\n1. Again.\n2. Enough.\n> "


# ---- screens

# name, story, words, columns, and what is typed, of which a number stands for new columns of the window
GAMES = [
    ("inn-%d" % columns, INN, ["--watch", "gold", "--tags"], columns,
     ["Blue Heron", "v gold", "1", "Red Lion", "s", "b", "9", "3", "b", "4", "what", "?", "b", "l", "2", "q"])
    for columns in (40, 80, 200)
] + [
    ("wide-%d" % columns, WIDE, ["--tags"], columns, ["1", "1", "v steps", "b", "b", "b", "2", "r", "2", "q"])
    for columns in (40, 80, 200)
] + [
    ("wide-resized", WIDE, [], 80, ["1", 50, "1", 120, "b", "2", "q"]),
    ("inn-again", INN, [], 80, ["Blue Heron", "1", "Red Lion", "q", None, "", "b", "1", "The Swan", "q", None, "n", "Old Oak", "2", "q"]),
]


class Terminal:
    """A terminal of so many columns, in a tmux server of its own."""

    def __init__(self, folder, columns):
        self.command = ["tmux", "-S", os.path.join(folder, "tmux"), "-f", os.devnull]
        self.environment = dict(os.environ, LC_ALL="C.UTF-8", LANG="C.UTF-8")
        self.environment.pop("TMUX", None)
        self.tmux("-u", "new-session", "-d", "-x", str(columns), "-y", "60", "-s", "reader", "cat")
        self.tmux("set-option", "-g", "status", "off")
        self.tmux("set-option", "-g", "window-size", "manual")
        self.resize(columns)

    def __enter__(self):
        return self

    def __exit__(self, *_):
        self.tmux("kill-server")

    def tmux(self, *words):
        done = subprocess.run(self.command + list(words), env=self.environment, stdout=subprocess.PIPE, stderr=subprocess.PIPE)
        return done.stdout.decode(errors="replace")

    def start(self, words, columns):
        quoted = " ".join("'%s'" % word for word in words)
        line = "env -u NO_COLOR COLUMNS=%d TERM=screen-256color %s; echo \"status $?\"; exec sleep %d" % (columns, quoted, 60 * SECONDS)
        self.tmux("respawn-pane", "-k", "-t", "reader", "sh", "-c", line)
        self.tmux("clear-history", "-t", "reader")

    def resize(self, columns):
        self.tmux("resize-window", "-t", "reader", "-x", str(columns), "-y", "60")

    def type(self, line):
        if line:
            self.tmux("send-keys", "-t", "reader", "-l", line)
        self.tmux("send-keys", "-t", "reader", "Enter")

    def screen(self):
        """What stands on the screen once it waits for a line or the program has ended."""
        end = time.monotonic() + SECONDS
        last, same = None, 0
        while time.monotonic() < end:
            # (-e keeps the codes that dim; those of colours are tmux's own)
            text = re.sub("\x1b\\[[34]9m", "", self.tmux("capture-pane", "-p", "-e", "-t", "reader"))
            lines = [line.rstrip() for line in text.split("\n")]
            while lines and not lines[-1]:
                lines.pop()
            waits = lines and re.search("^(\x1b\\[0m)?>$|=$|^status ", lines[-1])
            same = same + 1 if waits and lines == last else 0
            if same == 2:
                return "\n".join(lines)
            last = lines
            time.sleep(0.02)
        return "\n".join(last or []) + "\n(waits for nothing)"


def play(program, folder, story, words, columns, typed):
    """The screens of a game, as one text."""
    shutil.copy(story, os.path.join(folder, "story.json"))
    call = [program, os.path.join(folder, "story.json")] + words
    screens = []
    with Terminal(folder, columns) as terminal:
        terminal.start(call, columns)
        screens.append("-- begun\n" + terminal.screen())
        for line in typed:
            if line is None:
                terminal.start(call, columns)
            elif isinstance(line, int):
                terminal.resize(line)
            else:
                # each line on a screen of its own: what came before is wiped away
                terminal.tmux("send-keys", "-t", "reader", "-R")
                terminal.tmux("clear-history", "-t", "reader")
                terminal.type(line)
            what = "begun again" if line is None else "made %d columns wide" % line if isinstance(line, int) else "typed: %s" % line
            screens.append("-- %s\n%s" % (what, terminal.screen()))
    return "\n".join(screens).replace("\x1b", "\\e") + "\n"


def screens(program, stores):
    if not shutil.which("tmux"):
        print("reader: no tmux: games in a terminal are left out")
        return
    for name, story, words, columns, typed in GAMES:
        with tempfile.TemporaryDirectory() as folder:
            found = play(program, folder, story, words, columns, typed)
        path = os.path.join(SCREENS, name + ".txt")
        if stores:
            with open(path, "w", encoding="utf-8") as file:
                file.write(found)
        with open(path, encoding="utf-8") as file:
            yield "screens of %s" % name, found, file.read()


# ---- pipes and saves

def read(program, words, text, user=None, **environment):
    """What is written to standard output and to standard error, and the status."""
    kept = {name: value for name, value in os.environ.items() if name not in ("COLUMNS", "NO_COLOR", "TERM")}
    text = text if isinstance(text, bytes) else text.encode()
    done = subprocess.run([program] + words, input=text, env=dict(kept, **environment), user=user, stdout=subprocess.PIPE, stderr=subprocess.PIPE)
    return done.stdout.decode(errors="replace"), done.stderr.decode(errors="replace"), done.returncode


class Folder:
    """A folder with the story that counts, and its save."""

    def __init__(self, path):
        self.path, self.story, self.save = path, os.path.join(path, "loop.json"), os.path.join(path, "loop.json.save")
        write(self.story, LOOP)

    def files(self):
        return sorted(os.listdir(self.path))


def write(path, text):
    with open(path, "wb") as file:
        file.write(text if isinstance(text, bytes) else text.encode())


def bytes_of(path):
    with open(path, "rb") as file:
        return file.read()


def fill(path):
    """Writes a file for which the disk has no end."""
    with open(path, "wb", buffering=0) as file:
        try:
            while file.write(b"x" * 512):
                pass
        except OSError:
            pass


def pipes(program, at):
    yield "a game", read(program, [at.story], "1\n2\nq\n"), ("Round 1.\n" + CHOICES + "Round 2.\n" + CHOICES + "That is all.\nThe story ends here.\n> ", "", 0)
    save = bytes_of(at.save)
    yield "the save of the last choice", read(program, [at.story], "\nv n\nq\n"), (GOES_ON + CHOICES + "[n = 2]\n> ", "", 0)
    yield "which stays", bytes_of(at.save), save
    yield "the end of the input", read(program, [at.story], "n\n1\n"), (GOES_ON + "Round 1.\n" + CHOICES + "Round 2.\n" + CHOICES, "", 0)
    yield "no answer whether to go on", read(program, [at.story], ""), (GOES_ON, "", 0)
    yield "no autosave", read(program, [at.story, "--no-autosave"], "n\n1\n1\nq\n")[2], 0
    yield "the save is as it was", bytes_of(at.save), save
    yield "the end of a story is saved when asked", read(program, [at.story], "\n2\ns\nq\n"), (GOES_ON + CHOICES + "That is all.\nThe story ends here.\n> Saved.\n> ", "", 0)
    yield "and read", read(program, [at.story], "\nq\n"), (GOES_ON + "The story ends here.\n> ", "", 0)
    os.remove(at.save)
    yield "no save is left beside", at.files(), ["loop.json"]
    with open("/dev/full", "wb") as full:
        done = subprocess.run([program, at.story], input=b"1\n", stdout=full, stderr=subprocess.PIPE)
    yield "output that is full", (done.stderr.decode(), done.returncode), ("inkread: reading or writing failed; what was saved stays\n", 1)
    yield "a folder as the story", read(program, [at.path], "")[2], 2
    yield "lines that are no text", read(program, [at.story, "--no-autosave"], b"\xff\n\xc0\x80\nq\n")[0], "Round 1.\n" + CHOICES + "That was not understood; ? shows what is.\n> " * 2
    for name, environment, dims in (
            ("a terminal", {"TERM": "xterm"}, True), ("no terminal", {}, False), ("a dumb one", {"TERM": "dumb"}, False),
            ("NO_COLOR", {"TERM": "xterm", "NO_COLOR": "1"}, False), ("an empty NO_COLOR", {"TERM": "xterm", "NO_COLOR": ""}, True)):
        yield "dims in %s" % name, "\x1b[2m" in read(program, [INN, "--no-autosave"], "Ada\nq\n", **environment)[0], dims
    for columns in ("0", "-1", "x", "65536", ""):
        yield "%r columns" % columns, read(program, [INN, "--no-autosave"], "Ada\nq\n", COLUMNS=columns), read(program, [INN, "--no-autosave"], "Ada\nq\n", COLUMNS="80")


def cuts(program, at):
    """A save that is cut at each byte, that is of another story, no text, or too long."""
    read(program, [at.story], "1\n1\nq\n")
    save = bytes_of(at.save)
    begun = "Round 1.\n" + CHOICES
    for end in range(len(save)):
        write(at.save, save[:end])
        found = read(program, [at.story], "\n1\nq\n")
        yield "a save of %d bytes" % end, (found, bytes_of(at.save)), ((GOES_ON + NO_SAVE + begun + "Round 2.\n" + CHOICES, "", 0), save[:end])
    write(at.save, save)
    yield "the whole save", read(program, [at.story], "\nv n\nq\n"), (GOES_ON + CHOICES + "[n = 3]\n> ", "", 0)
    read(program, [INN, "--save", at.save], "n\nAda\nq\n")
    other = bytes_of(at.save)
    long = save + b" " * (64 * MIB + 1 - len(save))
    too_long = "The save is longer than 64 MiB, so it is not read; it stays as it is.\n"
    for name, text, told in (
            ("another story's", other, "That is no save of this story.\n"), ("an empty one", b"", NO_SAVE), ("no text", save[:-1] + b"\xc3}", NO_SAVE),
            ("one too long", long, too_long), ("one of the most bytes", long[:-1], None)):
        write(at.save, text)
        found = read(program, [at.story], "\nq\n")
        yield name, found, (GOES_ON + ((told + begun) if told else CHOICES), "", 0)
        yield "%s stays" % name, bytes_of(at.save) == (text if told else save), True
        if told:
            yield "%s is saved over when asked" % name, read(program, [at.story], "\ns\nl\nq\n")[0], GOES_ON + told + begun + "Saved.\n> " + CHOICES
    os.remove(at.save)


def story_of_long_texts():
    """A story with so many globals of one long text that its save has more than 64 MiB."""
    declared = ["ev", "str", "^" + "a" * MIB, "/str", {"VAR=": "a"}]
    for number in range(64):
        declared += [{"VAR?": "a"}, {"VAR=": "a%d" % number}]
    return {"inkVersion": 21, "root": [["^Long.", "\n", "done", None], "done", {"global decl": declared + ["/ev", "end", None]}]}


def refusals(program, at):
    """Where the save cannot be written, what was saved stays."""
    long = os.path.join(at.path, "long.json")
    write(long, json.dumps(story_of_long_texts()).encode())
    told = "The save would be longer than 64 MiB; what was saved before stays.\n"
    yield "a save that would be too long", read(program, [long, "--no-autosave"], "s\nq\n"), ("Long.\nThe story ends here.\n> " + told + "> ", "", 0)
    yield "nothing of it is kept", at.files(), ["long.json", "loop.json"]
    os.remove(long)
    os.mkdir(at.save)
    yield "a folder as the save", read(program, [at.story], "\ns\n1\nq\n"), (GOES_ON + "The save could not be read; it stays as it is.\nRound 1.\n" + CHOICES + NOT_WRITTEN + "> Round 2.\n" + CHOICES, "", 0)
    yield "the folder stays", at.files(), ["loop.json", "loop.json.save"]
    os.rmdir(at.save)
    none = os.path.join(at.path, "none", "save")
    yield "no folder for the save", read(program, [at.story, "--save", none], "1\nq\n"), ("Round 1.\n\n1. Again.\n2. Enough.\n%s> Round 2.\n\n1. Again.\n2. Enough.\n%s> %s" % (NOT_WRITTEN, NOT_WRITTEN, NOT_WRITTEN), "", 0)
    if os.geteuid() != 0:
        print("reader: not root: the read-only folder and the full disk are left out")
        return
    read(program, [at.story], "1\nq\n")
    save = bytes_of(at.save)
    os.chmod(at.path, 0o555)
    yield "a read-only folder", read(program, [at.story], "\n1\nq\n", user=NOBODY), (GOES_ON + CHOICES[:-2] + NOT_WRITTEN + "> Round 3.\n" + CHOICES[:-2] + NOT_WRITTEN + "> " + NOT_WRITTEN, "", 0)
    os.chmod(at.path, 0o755)
    yield "its save stays", (bytes_of(at.save), at.files()), (save, ["loop.json", "loop.json.save"])
    os.remove(at.save)
    disk = os.path.join(at.path, "disk")
    os.mkdir(disk)
    if subprocess.run(["mount", "-t", "tmpfs", "-o", "size=64k", "tmpfs", disk], stderr=subprocess.DEVNULL).returncode != 0:
        print("reader: no file system can be mounted: the full disk is left out")
        return
    try:
        path = os.path.join(disk, "save")
        words = [at.story, "--save", path]
        read(program, words, "1\nq\n")
        save = bytes_of(path)
        fill(os.path.join(disk, "other"))
        yield "a full disk", read(program, words, "\n1\ns\nq\n"), (GOES_ON + CHOICES[:-2] + NOT_WRITTEN + "> Round 3.\n" + CHOICES[:-2] + NOT_WRITTEN + "> " + NOT_WRITTEN + "> " + NOT_WRITTEN, "", 0)
        yield "its save stays whole", (bytes_of(path), sorted(os.listdir(disk))), (save, ["other", "save"])
        os.remove(os.path.join(disk, "other"))
        yield "and is written once there is room", read(program, words, "\n1\nq\n"), (GOES_ON + CHOICES + "Round 3.\n" + CHOICES, "", 0)
    finally:
        subprocess.run(["umount", disk])
        os.rmdir(disk)


def rounds(program, at):
    """Very many choices, all taken back."""
    words = [at.story, "--no-autosave"]
    typed = "1\n" * ROUNDS + "v n\n" + "b\n" * ROUNDS + "b\nv n\nq\n"
    written = "".join("Round %d.\n" % n + CHOICES for n in range(1, ROUNDS + 2)) + "[n = %d]\n> " % (ROUNDS + 1)
    written += CHOICES * ROUNDS + "There is no choice to take back.\n> [n = 1]\n> "
    found = read(program, words, typed)
    yield "%d choices taken back" % ROUNDS, (found[0] == written, found[1:]), (True, ("", 0))


def main():
    words = sys.argv[1:]
    stores = "--store" in words
    words = [word for word in words if word != "--store"]
    program = os.path.abspath(words[0] if words else os.path.join(toolchain.TOP, "inkread"))
    holds = wrong = 0
    with tempfile.TemporaryDirectory() as folder:
        os.chmod(folder, 0o755)
        at = Folder(folder)
        for part in (screens(program, stores), pipes(program, at), cuts(program, at), refusals(program, at), rounds(program, at)):
            for name, found, wanted in part:
                if found == wanted:
                    holds += 1
                else:
                    wrong += 1
                    print("reader: %s\n  found:  %r\n  wanted: %r" % (name, found, wanted))
    print("%d hold, %d wrong" % (holds, wrong))
    return 1 if wrong else 0


if __name__ == "__main__":
    sys.exit(main())
