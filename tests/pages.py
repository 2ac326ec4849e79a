#!/usr/bin/env python3
"""What the pages show is what comes of it: each block with lines `$ COMMAND` of README.md and docs/, and the scripts of HOST.md and
DIFFERENCES.md. And what the scripts tell of themselves by `--help`, and how the program ends when nobody reads its answers.

    tests/pages.py [PROGRAM]      the program is ./inkplay unless another is named

The commands of a page are run one after another in a folder of their own. A file that a block shows by `$ cat FILE` is written
first. What a person types is not run here: the blocks of `./inkread` (tests/reader_runs.py has such runs).

Prints each command that gives something else, and last how many hold; the status is 0 only where all do.
"""
import glob
import json
import os
import re
import subprocess
import sys
import tempfile

import toolchain


def blocks(text):
    """The indented blocks of a page that show commands, each a list of commands with the lines that they print."""
    found = []
    for block in re.findall(r"(?m)^(?:    .*\n)+", text):
        lines = [line[4:] for line in block.splitlines()]
        if not lines[0].startswith("$ "):
            continue
        shown = []
        for line in lines:
            if line.startswith("$ "):
                shown.append((line[2:], []))
            else:
                shown[-1][1].append(line)
        found.append(shown)
    return found


def played(command, folder):
    """What a command prints in a folder, where the program is on the path and beside it, its status, and what it says of errors."""
    words = dict(os.environ, PATH=folder + os.pathsep + os.environ["PATH"])
    ran = subprocess.run(["bash", "-c", command], cwd=folder, env=words, capture_output=True, stdin=subprocess.DEVNULL)
    return ran.stdout.decode(), ran.returncode, ran.stderr.decode()


def fenced(page, language):
    """The code blocks of a language in a page."""
    return re.findall(r"(?s)```%s\n(.*?)```" % language, page)


# A story that a game in another language can play: it has gold and a name, and one choice.
GAME = {"inkVersion": 21, "root": ["^Hello.", "\n", "ev", "str", "^Go.", "/str", "/ev", {"*": "gone", "flg": 4}, "done",
                                   {"gone": ["^Gone.", "\n", "end", None],
                                    "global decl": ["ev", 1, {"VAR=": "gold"}, "str", "^Bo", "/str", {"VAR=": "name"}, "/ev", "end", None]}]}
# A story that is refused, at kitchen.0.12.
REFUSED = {"inkVersion": 21, "root": ["done", {"kitchen": [["\n"] * 12 + [1.5, None], None]}]}


def try_scripts(judge):
    """What the scripts tell of themselves: first the words that the page has."""
    for script, page in (("inkplay", "PROGRAM.md"), ("inkread", "READER.md")):
        with open(os.path.join(toolchain.TOP, "docs", page), encoding="utf-8") as file:
            usage = re.search(r"(?m)^    (%s .*\n)" % script, file.read()).group(1)
        told, status, error = played("./%s --help" % script, toolchain.TOP)
        judge(page, "./%s --help" % script, (told[:len(usage)], status, error), (usage, 0, ""))
    for command, wanted in (("./start", 0), ("./start --help", 0), ("./start no_program", 2)):
        judge("HOST.md", command, played(command, toolchain.TOP)[1], wanted)
    left = [os.path.join(folder, name) for folder, _, names in os.walk(os.path.join(toolchain.TOP, "out"))
            for name in names if name in ("crates.txt", ".git") or name.endswith((".rt", ".antt"))]
    judge("DECISIONS.md", "what start leaves in out/ keeps no ./check from beginning", left, [])


def try_lost_reader(judge, program):
    """How the program ends where nobody reads its answers any more."""
    with tempfile.TemporaryDirectory() as folder:
        os.symlink(program, os.path.join(folder, "inkplay"))
        with open(os.path.join(folder, "input"), "w", encoding="utf-8") as file:
            file.write(json.dumps(GAME) + "\n" + "get gold\n" * 100000)
        seen = played("./inkplay < input | head -1; exit ${PIPESTATUS[0]}", folder)
    judge("PROTOCOL.md", "answers that nobody reads", seen, ('{"value":1}\n', 1, "inkplay: run fault: Write\n"))


def main():
    program = os.path.abspath(sys.argv[1]) if len(sys.argv) > 1 else toolchain.player()
    held = wrong = 0

    def judge(name, command, seen, wanted):
        nonlocal held, wrong
        if seen == wanted:
            held += 1
        else:
            wrong += 1
            print("%s: %s\n  wanted %r\n  seen   %r" % (name, command, wanted, seen))

    pages = [os.path.join(toolchain.TOP, "README.md")] + sorted(glob.glob(os.path.join(toolchain.TOP, "docs/*.md")))
    for path in pages:
        with open(path, encoding="utf-8") as file:
            page = file.read()
        name = os.path.basename(path)
        with tempfile.TemporaryDirectory() as folder:
            os.symlink(program, os.path.join(folder, "inkplay"))
            for command, lines in (shown for block in blocks(page) for shown in block):
                if command.startswith("./inkread"):
                    continue
                wanted = "".join(line + "\n" for line in lines)
                if command.startswith("cat "):
                    with open(os.path.join(folder, command[4:]), "w", encoding="utf-8") as file:
                        file.write(wanted)
                judge(name, command, played(command, folder)[0], wanted)
        with tempfile.TemporaryDirectory() as folder:
            os.symlink(program, os.path.join(folder, "inkplay"))
            story = os.path.join(folder, "story.json")
            for code in fenced(page, "python"):
                script = os.path.join(folder, "game.py")
                with open(script, "w", encoding="utf-8") as file:
                    file.write(code + '\nprint(passage["text"] + ask("through")["text"], end="")\n')
                with open(story, "w", encoding="utf-8") as file:
                    json.dump(GAME, file)
                judge(name, "the game in Python", played("python3 game.py", folder)[:2], ("Hello.\nGone.\n", 0))
                # A refused story ends the program with status 2: the game is told so, whether or not it could still write.
                with open(story, "w", encoding="utf-8") as file:
                    json.dump(REFUSED, file)
                for _ in range(5):
                    seen = played("python3 game.py", folder)[2].splitlines()[-1:]
                    judge(name, "the game in Python, of a refused story", seen, ["EOFError: 2"])
            for code in fenced(page, "sh"):
                with open(story, "w", encoding="utf-8") as file:
                    json.dump(REFUSED, file)
                judge(name, "the script that shows what stands there", played(code, folder)[:2], ("1.5\n", 0))
                told = played("./inkplay story.json", folder)
                judge(name, "where the story is refused", told[2], "inkplay: story refused: Unsupported at kitchen.0.12\n")
    try_scripts(judge)
    try_lost_reader(judge, program)
    print("%d hold, %d do not" % (held, wrong))
    return 1 if wrong or not held else 0


if __name__ == "__main__":
    sys.exit(main())
