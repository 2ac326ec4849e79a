#!/usr/bin/env python3
"""Sessions written by hand, by two who knew the rules alone and not the code.

    tests/written.py [PROGRAM]      the program is ./inkplay unless another is named

tests/written.jsonl has one of them in each line: its name, the program's words (a word that is the name of one of its files stands
for that file's path), the whole input, and what has to come of it: the lines of output, the status and standard error. Bytes that
are no text stand in hexadecimal. Each that differs is told; last comes how many hold, and the status is 0 only where all do.
"""
import json
import os
import subprocess
import sys
import tempfile

import toolchain

SECONDS = 20


def bytes_of(told):
    """The bytes of a text, or of hexadecimal digits."""
    return bytes.fromhex(told["hex"]) if isinstance(told, dict) else told.encode()


def outcome(program, case):
    """What the program writes, its status, and what it writes to standard error."""
    with tempfile.TemporaryDirectory() as folder:
        paths = {}
        for name, content in case.get("files", {}).items():
            paths[name] = os.path.join(folder, name)
            with open(paths[name], "wb") as file:
                file.write(bytes_of(content))
        words = [paths.get(word, word) for word in case.get("words", [])]
        ran = subprocess.run([program] + words, input=bytes_of(case["input"]), stdout=subprocess.PIPE, stderr=subprocess.PIPE, timeout=SECONDS)
    return ran.stdout.decode(), ran.returncode, ran.stderr.decode(errors="replace")


def wanted(case):
    return "".join(line + "\n" for line in case["output"]), case.get("status", 0), case.get("error", "")


def main():
    program = os.path.abspath(sys.argv[1]) if len(sys.argv) > 1 else os.path.join(toolchain.TOP, "inkplay")
    with open(os.path.join(toolchain.TOP, "tests/written.jsonl"), encoding="utf-8") as file:
        cases = [json.loads(line) for line in file]
    wrong = 0
    for case in cases:
        found = outcome(program, case)
        if found != wanted(case):
            wrong += 1
            print("%s: %r in place of %r" % (case["name"], found, wanted(case)))
    print("%d of %d sessions hold" % (len(cases) - wrong, len(cases)))
    return 1 if wrong else 0


if __name__ == "__main__":
    sys.exit(main())
