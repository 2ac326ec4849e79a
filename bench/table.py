#!/usr/bin/env python3
"""What work costs, in one table: instructions a unit, and the ratio to those of the last release.

    bench/table.py [--program PROGRAM]... [--only WORD]... [--store]
        ./inkplay, unless others are named; of more than one, the first is told and compared with each other one

A row is the difference of two sessions by its number of units: one with the work and one without it, so that starting the
program and reading the story do not count. Instructions are counted by valgrind; they are the same in each run, whatever else
the machine does. The last line tells what an instruction takes on this machine. bench/released.json has the instructions of
the last release, which CHANGES.md names, and --store writes them anew. docs/SPEED.md reads the table.
"""
import argparse
import json
import os
import re
import shutil
import subprocess
import sys

TOP = os.path.dirname(os.path.dirname(os.path.abspath(__file__)))
sys.path.insert(0, os.path.join(TOP, "bench"))
import bench

STORED = os.path.join(TOP, "bench/released.json")

def session(story, lines="", words=()):
    return story + "\n" + lines, list(words)


def hopping(count, divert):
    """A loop through so many diverts and one more, 1,000 times; a variable leads to each."""
    knots = ",".join('"hop%d":[%s,null]' % (hop, divert % (hop + 1) if hop < count else '{"->":"loop"}') for hop in range(count + 1))
    declared = "".join('{"^->":"hop%d"},{"VAR=":"v%d"},' % (hop, hop) for hop in range(count + 1))
    return ('{"inkVersion":21,"root":[[{"->":"loop"},null],"done",{"loop":["ev",{"VAR?":"x"},1,"-",{"VAR=":"x","re":true},{"VAR?":"x"},0,">","/ev",{"->":"hop0","c":true},"end",null],'
            '%s,"global decl":["ev",1000,{"VAR=":"x"},%s"/ev","end",null]}]}' % (knots, declared))


def hops(divert, count=10):
    return session(hopping(count, divert), "through\n"), session(hopping(0, divert), "through\n"), 1000 * count


def calls(name, count=2000, depth=1):
    body, knots = bench.CALLS[name]
    return (session(bench.looping(body, knots, count, depth), "through\n"), session(bench.looping("", "", count, depth), "through\n"), count)


def sections(content, count=1000):
    """A loop with this in it, beside one without."""
    return (session(bench.looping(content, "", count, 1), "through\n"), session(bench.looping("", "", count, 1), "through\n"), count)


def more(story, line, count, words=(), before=""):
    """So many lines to a session, beside none."""
    return session(story, before + line * count, words), session(story, before, words), count


def saved(count):
    story, save = bench.counted(count)
    return json.dumps(story, separators=(",", ":")), json.dumps(save, separators=(",", ":"), sort_keys=True)


def rows():
    """Work, unit, and the two sessions with the number of units."""
    steps = 14 * 2000
    yield "arithmetic with a global", "step", (session(bench.arithmetic(steps), "through\n"), session(bench.arithmetic(steps)), steps)
    yield "a divert", "divert", hops('{"->":"hop%d"}')
    yield "a divert by a variable", "divert", hops('{"->":"v%d","var":true}')
    for name in bench.CALLS:
        yield name, "call", calls(name)
    yield "a thread, in 50 functions", "call", calls("a thread", 2000, 50)
    yield "a string", "string", sections('"ev","str","^Go on","/str","pop","/ev",')
    yield "a tag", "tag", sections('"#","^grey","/#",')
    yield "a line of text", "line", (session(bench.long_texts(1 << 18).replace('",', '","\\n",'), "through\n"), session(bench.long_texts(1 << 18).replace('",', '","\\n",')), (1 << 18) // 203)
    yield "a line of a loop, in one passage", "line", (session(looped(1000), "through\n"), session(looped(1), "through\n"), 999)
    yield "a line of a loop, by `continue`", "line", more(bench.of_lines(""), "continue\n", 1000, before="continue\n")
    yield "the same beside 1,000 globals", "line", more(bench.of_lines("", [("g%d" % n, n) for n in range(1000)]), "continue\n", 1000, before="continue\n")
    yield "a turn: two choices, one taken", "turn", more(bench.crossings(1 << 16), "through\nchoose 1\n", 500)
    yield "a turn with 80 choices", "turn", more(bench.offering(1), "choose 5\nthrough\n", 20, before="through\n")
    story = '{"inkVersion":21,"root":["done",{"global decl":["ev",1,{"VAR=":"x"},"/ev","end",null]}]}'
    yield "`get`", "line", more(story, "get x\n", 2000)
    yield "`set`", "line", more(story, "set x 7\n", 2000)
    body = '1,true,{"x()":"f","exArgs":2},"pop",' * 10
    turn, pure = ("--answer", "f=[" + ",".join(["7"] * 10000) + "]"), ("--table", 'f={"[1,true]":7}')
    for name, words in (("a host's turn function", turn), ("a host's pure function", pure)):
        yield name, "call", (session(bench.calling(body, 200), "through\n", words), session(bench.calling("", 200), "through\n", words), 2000)
    story, save = saved(1000)
    yield "a save: 1,000 containers, 100 globals", "save", more(story, "save\n", 20, before="load %s\n" % save)
    yield "its load", "load", more(story, "load %s\n" % save, 20, before="load %s\n" % save)
    large = bench.realistic(1 << 19)
    yield "a story", "KiB read", (session(large), session(bench.realistic(1 << 10)), (len(large) - (1 << 10)) / 1024)
    yield "`restart` of a story of 512 KiB", "restart", more(large, "restart\n", 20, before="restart\n")
    yield "the program", "start", (session('{"inkVersion":21,"root":["done",null]}'), None, 1)


def looped(count):
    """Lines of a loop that ends, in one passage."""
    return bench.of_lines("", knots='"end":["end",null],').replace('%s{"->":"lines"},null]', "").replace(
        '"^ of many.","\\n",{"->":"lines"},null]', '"^ of many.","\\n","ev",{"VAR?":"i"},%d,"<","/ev",{"->":"lines","c":true},"end",null]' % count)


def instructions(program, session_):
    """The instructions of a session."""
    text, words = session_
    told = subprocess.run(["valgrind", "--tool=callgrind", "--callgrind-out-file=/dev/null", program] + words, input=text.encode(), stdout=subprocess.DEVNULL, stderr=subprocess.PIPE)
    found = re.search(rb"Collected : (\d+)", told.stderr)
    if not found:
        sys.exit("table: valgrind failed: %s" % told.stderr.decode()[-500:])
    return int(found[1])


def nanoseconds(program):
    """What an instruction takes: of a long run, the least processor time of three."""
    long, short = (session(bench.looping("", "", count, 1), "through\n") for count in (80000, 8))
    took = bench.best(program, long[0])[0] - bench.best(program, short[0])[0]
    return took * 1e6 / (instructions(program, long) - instructions(program, short))


def ratio(one, other):
    return "%.2f" % (one / other) if other else "-"


def main():
    parser = argparse.ArgumentParser(description=__doc__, formatter_class=argparse.RawDescriptionHelpFormatter)
    parser.add_argument("--program", action="append")
    parser.add_argument("--only", action="append")
    parser.add_argument("--store", action="store_true")
    words = parser.parse_args()
    programs = words.program or [os.path.join(TOP, "inkplay")]
    if not shutil.which("valgrind"):
        sys.exit("table: there is no valgrind, which counts the instructions")
    released = json.load(open(STORED)) if os.path.exists(STORED) else {}
    found = {}
    print("%-40s %-9s %14s %9s" % ("work", "unit", "instructions", "released") + "".join("%9s" % ("to %d." % (at + 2)) for at in range(len(programs) - 1)))
    for work, unit, (with_it, without, count) in rows():
        if words.only and not any(word in work for word in words.only):
            continue
        costs = [(instructions(program, with_it) - (instructions(program, without) if without else 0)) / count for program in programs]
        found[work] = round(costs[0], 1)
        line = "%-40s %-9s %14s %9s" % (work, unit, "{:,.0f}".format(costs[0]), ratio(costs[0], released.get(work)))
        print(line + "".join("%9s" % ratio(costs[0], cost) for cost in costs[1:]), flush=True)
    print("an instruction took %.3f ns, of a run of a million steps" % nanoseconds(programs[0]))
    if words.store:
        with open(STORED, "w") as stored:
            json.dump(found, stored, indent=1)
            stored.write("\n")
    return 0


if __name__ == "__main__":
    sys.exit(main())
