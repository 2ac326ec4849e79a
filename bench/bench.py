#!/usr/bin/env python3
"""Times reading, checking and running stories of 1, 4 and 16 MiB, long arithmetic, long passages, command lines, calls,
visits, choices, objects of a host, saves and lines, and prints the times side by side.

    bench/bench.py [--program PROGRAM] [--worker WORKER] [reading] [arithmetic] [passages] [commands] [calls] [visits] [choices]
                   [hosts] [saves] [lines]
        ./inkplay, crates/inkbench and all of them, unless others are named

Each time is the least of three runs, in milliseconds, with the program's start in it. The last column is the time at
16 MiB over that at 4 MiB: work that grows with the bytes alone grows about four times. Machines are noisy, so compare
within one run.
"""
import argparse
import json
import os
import subprocess
import sys
import threading
import time

TOP = os.path.dirname(os.path.dirname(os.path.abspath(__file__)))
sys.path.insert(0, os.path.join(TOP, "tests"))
import toolchain

MIB = 1 << 20
SIZES = (1, 4, 16)
HEAD = '{"inkVersion":21,"root":['
TAIL = ',"done",null],"listDefs":{}}'


def flat(size, element):
    """Elements in one list, up to the size."""
    count = (size - len(HEAD) - len(TAIL)) // (len(element) + 1)
    return HEAD + ",".join([element] * count) + TAIL


def long_texts(size):
    """Texts of 200 bytes, of which even 16 MiB have fewer than 100,000."""
    return flat(size, '"^' + "word " * 40 + '"')


def short_texts(size):
    return flat(size, '"^abcd"')


def nested(size):
    """Towers of containers, as deep as they may be: the root is the first of 120."""
    return flat(size, "[" * 119 + "null]" + ",null]" * 118)


def huge_texts(size):
    """Texts of just under 1 MiB."""
    return flat(size, '"^' + "x" * (MIB - 64) + '"')


def knot(number, of):
    """Containers of 20 elements as a compiled story has them: text, evaluation, a choice, diverts, a named container."""
    return ('"knot_%d":[["^You are at the crossing number %d, and it rains.","\\n","ev",{"VAR?":"gold"},3,">","/ev",'
            '{"->":".^.^.g-0","c":true},"ev","str","^Go on ","/str","/ev",{"*":".^.^.c-0","flg":20},"^It rains.","\\n",'
            '{"->":"knot_%d"},"nop","nop","nop",null],{"c-0":["\\n",{"->":".^.^.g-0"},{"#f":5}],"g-0":["^Night falls.","\\n","done",null],"#f":1}]'
            % (number, number, (number * 7 + 1) % of))


def realistic(size):
    """Knots, each with a list of 20 elements, named containers and four diverts."""
    count = (size - 100) // (len(knot(99999, 100000)) + 1)
    return '{"inkVersion":21,"root":["done",{' + ",".join(knot(n, count) for n in range(count)) + "}]}"


ARITHMETIC = '"ev",7,3,"*",5,"+",4,"%",{"VAR=":"x"},{"VAR?":"x"},2,"<","pop","/ev"'


def arithmetic(steps):
    """A long list of arithmetic on integers and a global, with nothing written."""
    return HEAD + ",".join([ARITHMETIC] * (steps // 14)) + TAIL


def best(program, lines, words=()):
    """The least time of three runs, and what was written."""
    times, written = [], b""
    for _ in range(3):
        begun = time.perf_counter()
        done = subprocess.run([program, *words], input=lines.encode(), stdout=subprocess.PIPE, stderr=subprocess.PIPE)
        times.append(time.perf_counter() - begun)
        if done.returncode != 0:
            sys.exit("bench: %s" % done.stderr.decode().strip())
        written = done.stdout
    return min(times) * 1000, written


def best_work(worker, words, text=""):
    """The least time of three runs of the worker, in milliseconds."""
    times = []
    for _ in range(3):
        begun = time.perf_counter()
        done = subprocess.run([worker] + [str(word) for word in words], input=text.encode(), stdout=subprocess.DEVNULL)
        times.append(time.perf_counter() - begun)
        if done.returncode != 0:
            sys.exit("bench: %s failed" % words[0])
    return min(times) * 1000


def row(name, times):
    print("%-34s %s %8.2f" % (name, " ".join("%9.1f" % t for t in times), times[-1] / times[-2]))


def reading(program, worker):
    """Stories of three sizes, read and checked."""
    print("%-34s %s %8s" % ("ms", " ".join("%5d MiB" % s for s in SIZES), "16 / 4"))
    for name, make in (("texts of 200 bytes", long_texts), ("texts of 4 bytes", short_texts),
                       ("containers nested to the limit", nested), ("texts of just under 1 MiB", huge_texts)):
        stories = [make(s * MIB) for s in SIZES]
        times = [best(program, s + "\n")[0] for s in stories]
        row(name + ", read", times)
        if make is long_texts:
            ran = []
            for story in stories:
                took, written = best(program, story + "\nthrough\n")
                if b'"text":"word word' not in written:
                    sys.exit("bench: %r" % written[:200])
                ran.append(took)
            row("  .. and run through", ran)
    stories = [realistic(s * MIB) for s in SIZES]
    row("knots of 20 elements, read, checked", [best_work(worker, ["story"], s) for s in stories])
    row("  .. the same bytes by serde_json", [best_work(worker, ["json"], s) for s in stories])


def steps(program, _worker):
    """Steps of arithmetic, without the time that reading takes."""
    print("%-34s %9s %9s %9s" % ("arithmetic, run through", "steps", "ms", "ns a step"))
    for count in (14 * 15000, 14 * 60000):
        story = arithmetic(count)
        read = best(program, story + "\n")[0]
        took, written = best(program, story + "\nthrough\n")
        if b'"text":""' not in written:
            sys.exit("bench: %r" % written[:200])
        print("%-34s %9d %9.1f %9.0f" % ("", count, took - read, (took - read) * 1e6 / count))


def passages(_program, worker):
    """Marks, written and shown; strings and tags, opened, written and closed."""
    print("%-34s %9s %9s %9s" % ("a passage, written and shown", "marks", "ns a mark", "asked"))
    start = best_work(worker, ["marks", 0, 0])
    for marks, rounds in ((25000, 80), (100000, 20)):
        plain, asked = (best_work(worker, [what, marks, rounds]) - start for what in ("marks", "asked"))
        print("%-34s %9d %9.0f %9.2f" % ("", marks, plain * 1e6 / (marks * rounds), asked / plain))
    print("%-34s %9s %9s" % ("strings and tags, closed", "of each", "ns each"))
    for what in ("strings", "tags"):
        for count, rounds in ((1000, 1000), (50000, 20)):
            took = best_work(worker, [what, count, rounds]) - start
            print("%-34s %9d %9.0f" % ("  " + what, count, took * 1e6 / (count * rounds)))


def piped(program, story, lines):
    """The least processor time of three runs, in seconds, with the answers read from a pipe."""
    times = []
    for _ in range(3):
        player = subprocess.Popen([program], stdin=subprocess.PIPE, stdout=subprocess.PIPE)
        feeder = threading.Thread(target=feed, args=(player.stdin, (story + "\n" + lines).encode()))
        feeder.start()
        while player.stdout.read(1 << 20):
            pass
        feeder.join()
        _, status, used = os.wait4(player.pid, 0)
        player.returncode = status
        times.append(used.ru_utime + used.ru_stime)
        if status != 0:
            sys.exit("bench: the program failed")
    return min(times)


def feed(pipe, text):
    with pipe:
        pipe.write(text)


def commands(program, _worker):
    """Lines of `get` and `set`, whose answers are read through a pipe."""
    story = '{"inkVersion":21,"root":["done",{"global decl":["ev",1,{"VAR=":"x"},"str","^word","/str",{"VAR=":"t"},"/ev","end",null]}]}'
    start = piped(program, story, "")
    print("%-34s %9s %12s" % ("lines, answers through a pipe", "lines", "ns each, processor"))
    for line in ("get x", "get t", "set x 7", 'set t "stone"', "get y", "look"):
        for count in (20000, 200000):
            took = piped(program, story, (line + "\n") * count) - start
            print("%-34s %9d %12.0f" % ("  " + line, count, took * 1e9 / count))


# what a loop does each time, with the knots for it
CALLS = {
    "a function": ('{"f()":"f"},', '"f":["nop",null]'),
    "a function with a value": ('"ev",{"f()":"v"},"pop","/ev",', '"v":["ev",1,"/ev","~ret",null]'),
    "a function with a reference": ('"ev",{"^var":"x"},{"f()":"r"},"/ev",',
                                    '"r":[{"temp=":"p"},"ev",{"VAR?":"p"},{"temp=":"p","re":true},"/ev","~ret",null]'),
    "a tunnel": ('{"->t->":"t"},', '"t":["ev","void","/ev","->->",null]'),
    "a thread": ('"thread",{"->":"a"},', '"a":["done",null]'),
}
# the steps of the loop itself
LOOP_STEPS = 12


def looping(body, knots, count, depth):
    """A loop with this in it, so many times, in so many functions."""
    return ('{"inkVersion":21,"root":[[{"->":"down"},null],"done",{%s"down":["ev",{"VAR?":"n"},1,"-",{"VAR=":"n","re":true},{"VAR?":"n"},0,">","/ev",{"f()":"down","c":true},{"->":"loop"},null],'
            '"loop":["ev",{"VAR?":"x"},1,"-",{"VAR=":"x","re":true},"/ev",%s"ev",{"VAR?":"x"},0,">","/ev",{"->":"loop","c":true},"end",null],'
            '"global decl":["ev",%d,{"VAR=":"x"},%d,{"VAR=":"n"},"/ev","end",null]}]}' % (knots + "," if knots else "", body, count, depth))


def calls(program, _worker):
    """Calls with their returns, in loops at some depths of calls."""
    rounds = 30
    print("%-34s %9s %9s %9s %12s" % ("calls with their returns", "depth", "calls", "ns each", "plain steps"))
    for depth in (1, 50, 400):
        for count in (10000, 40000):
            def loop(body, knots):
                story = looping(body, knots, count, depth) + "\n"
                return best(program, story + "through\nrestart\n" * rounds)[0] - best(program, story)[0]
            plain = loop("", "")
            step = plain / LOOP_STEPS
            for name, (body, knots) in CALLS.items():
                took = loop(body, knots) - plain
                print("%-34s %9d %9d %9.0f %12.1f" % ("  " + name, depth, count, took * 1e6 / (count * rounds), took / step))


def through_knot(containers, count, flags):
    """A loop through a knot with these flags, so many times, in a story with so many other containers that are counted."""
    others = ",".join('"c%d":["^a","done",{"#f":3}]' % number for number in range(containers))
    return ('{"inkVersion":21,"root":[[{"->":"loop"},null],"done",{%s,"loop":["ev",{"VAR?":"x"},1,"-",{"VAR=":"x","re":true},"/ev",'
            '"ev",{"VAR?":"x"},0,">","/ev",{"->":"z","c":true},"end",null],"z":[{"->":"loop"},%s],'
            '"global decl":["ev",%d,{"VAR=":"x"},"/ev","end",null]}]}' % (others, flags, count))


def visits(program, _worker):
    """Turns of a loop through a knot that is counted, and through one that is not."""
    rounds, count = 20, 40000
    print("%-34s %9s %9s %12s" % ("turns through a knot", "counted", "ns a turn", "not counted"))
    for containers in (10, 10000):
        def loop(flags):
            story = through_knot(containers, count, flags) + "\n"
            return (best(program, story + "through\nrestart\n" * rounds)[0] - best(program, story)[0]) * 1e6 / (count * rounds)
        print("%-34s %9d %9.0f %12.0f" % ("", containers, loop('{"#f":3}'), loop("null")))


def offering(depth, threads=40):
    """Threads that offer two choices each, in so many functions; each choice leads back to them."""
    return ('{"inkVersion":21,"root":[[{"->":"down"},null],"done",{"down":["ev",{"VAR?":"n"},1,"-",{"VAR=":"n","re":true},{"VAR?":"n"},0,">","/ev",{"f()":"down","c":true},{"->":"offer"},null],'
            '"offer":[%s"done",null],"t":["ev","str","^one","/str","/ev",{"*":"go","flg":4},"ev","str","^two","/str","/ev",{"*":"go","flg":4},"done",null],'
            '"go":["^.",{"->":"offer"},null],"global decl":["ev",%d,{"VAR=":"n"},"/ev","end",null]}]}' % ('"thread",{"->":"t"},' * threads, depth))


def crossings(size):
    """Knots with two choices each, which lead to others."""
    def crossing(number, of):
        return ('"knot_%d":[["^You are at the crossing number %d, and it rains.","\\n","ev","str","^Stay","/str","/ev",{"*":".^.^.c-0","flg":4},'
                '"ev","str","^Go on","/str","/ev",{"*":".^.^.c-1","flg":4},"done",null],{"c-0":["^You stay.","\\n",{"->":"knot_%d"},{"#f":5}],'
                '"c-1":["^You go on.","\\n",{"->":"knot_%d"},{"#f":5}],"#f":3}]' % (number, number, number, (number * 7 + 1) % of))
    count = (size - 100) // (len(crossing(99999, 100000)) + 1)
    return '{"inkVersion":21,"root":[[{"->":"knot_0"},null],"done",{' + ",".join(crossing(n, count) for n in range(count)) + "}]}"


def choices(program, _worker):
    """Turns with 80 choices, and a walk over a story of 1 MiB."""
    print("%-34s %9s %9s %12s" % ("turns with 80 choices", "depth", "turns", "us a turn"))
    for depth in (1, 50, 400):
        for turns in (50, 200):
            story = offering(depth) + "\nthrough\n"
            took = best(program, story + "choose 5\nthrough\n" * turns)[0] - best(program, story)[0]
            print("%-34s %9d %9d %12.0f" % ("", depth, turns, took * 1e3 / turns))
    print("%-34s %9s %12s" % ("a walk over a story of 1 MiB", "commands", "ns each"))
    story = crossings(MIB)
    start = best(program, story + "\n")[0]
    for count in (5000, 20000):
        took, written = best(program, story + "\n" + "through\nchoose 1\n" * (count // 2))
        if b"refused" in written or b"fault" in written:
            sys.exit("bench: %r" % written[:300])
        print("%-34s %9d %12.0f" % ("", count, (took - start) * 1e6 / count))


def calling(body, count):
    """A loop with this in it, so many times."""
    return ('{"inkVersion":21,"root":[[{"->":"loop"},null],"done",{"loop":["ev",{"VAR?":"x"},1,"-",{"VAR=":"x","re":true},%s{"VAR?":"x"},0,">","/ev",{"->":"loop","c":true},"end",null],'
            '"global decl":["ev",%d,{"VAR=":"x"},"/ev","end",null]}]}' % (body, count))


def many_globals(count):
    return '{"inkVersion":21,"root":["done",{"global decl":["ev",%s"/ev","end",null]}]}' % "".join('0,{"VAR=":"g%d"},' % n for n in range(count))


def hosts(program, _worker):
    """Calls of functions that a host has bound, and globals that are set, of which one is watched."""
    print("%-34s %9s %9s" % ("calls with two arguments", "calls", "ns each"))
    # a word holds some 60,000 answers at the most, and a passage has at most 1,000,000 steps
    body = "".join('1,true,{"x()":"%s","exArgs":2},"pop",' % name for name in "fg" * 10)
    for name, option, bound in (("a turn function", "--answer", "[" + ",".join(["7"] * 50000) + "]"), ("a pure function", "--table", '{"[1,true]":7}')):
        words = (option, "f=" + bound, option, "g=" + bound)
        for rounds in (500, 5000):
            with_calls, without = (best(program, calling(part, rounds) + "\nthrough\n", words)[0] for part in (body, ""))
            count = rounds * 20
            print("%-34s %9d %9.0f" % ("  " + name, count, (with_calls - without) * 1e6 / count))
    print("%-34s %9s %12s" % ("set, one global watched", "globals", "ns a command"))
    lines = "".join("set g0 %d\n" % (n + 1) for n in range(10000))
    for count in (1, 100, 10000):
        story = many_globals(count) + "\n"
        took = best(program, story + lines, ("--watch", "g0"))[0] - best(program, story, ("--watch", "g0"))[0]
        print("%-34s %9d %12.0f" % ("", count, took * 1e6 / 10000))


def with_knots(count):
    """A story with so many containers that are counted, half of them in the others, and their places in order."""
    names = sorted("knot_%d" % number for number in range(count // 2))
    story = {"inkVersion": 21, "root": ["done", dict.fromkeys(names, ["^a", ["^b", {"#f": 3}], {"#f": 3}])]}
    places = [place for name in names for place in ([name], [name, 1])]
    return story, places


def frame(kind, place, temps):
    return {"depth": 0, "eval": False, "fresh": False, "kind": kind, "place": place, "temps": temps}


def save_of(choices=(), **other):
    flow = {"choices": list(choices), "name": "DEFAULT_FLOW", "safe": False, "stack": [], "threads": [{"frames": [frame("base", [0], {})], "previous": None}]}
    return dict({"current": "DEFAULT_FLOW", "flows": [flow], "format": 2, "globals": [], "turn": 0, "turns": [], "visits": []}, **other)


def counted(count):
    """A story, and a save with so many containers that were visited, and a tenth as many globals."""
    story, places = with_knots(count)
    values = (7, -123456, True, "a word or two", "^")
    return story, save_of(globals=[["global_%d" % number, values[number % len(values)]] for number in range(count // 10)],
                          turns=[[place, number % 1000] for number, place in enumerate(places)], visits=[[place, number % 50 + 1] for number, place in enumerate(places)])


def waiting(count, frames):
    """A story, and a save with so many choices, each with so many frames."""
    story, places = with_knots(1000)
    temps = {"hero": "Ada", "here": {"ci": 1, "var": "hero"}, "gold": 12}
    def choice(number):
        calls = [frame("tunnel" if level else "base", places[(number + level) % len(places)], temps) for level in range(frames)]
        return {"hidden": False, "tags": [], "target": places[number % len(places)], "text": "Go to the crossing", "thread": {"frames": calls, "previous": places[0]}}
    return story, save_of(choices=[choice(number) for number in range(count)])


def saves(program, worker):
    """Saves and loads by their commands, beside what the JSON library takes to print and to parse the same values."""
    print("%-34s %9s %9s %9s %9s %9s %9s %9s" % ("ms", "KiB", "saved", "printed", "times", "loaded", "parsed", "times"))
    sizes = [("%d visited, %d globals" % (count, count // 10), counted(count)) for count in (1000, 10000, 100000)]
    sizes += [("%d choices of %d frames" % (count, frames), waiting(count, frames)) for count, frames in ((10, 10), (1000, 10), (10, 1000))]
    for name, (story, save) in sizes:
        text = json.dumps(save, separators=(",", ":"), sort_keys=True)
        load = "load %s\n" % text
        begun = json.dumps(story, separators=(",", ":")) + "\n" + load
        rounds = max(1, (20 * MIB) // len(text))
        def each(line):
            return (best(program, begun + line * rounds)[0] - best(program, begun)[0]) / rounds
        def by_library(what):
            return (best_work(worker, [what, rounds], text) - best_work(worker, [what, 0], text)) / rounds
        saved, loaded = each("save\n"), each(load)
        printed, parsed = by_library("print"), by_library("parse")
        print("%-34s %9.0f %9.3f %9.3f %9.2f %9.3f %9.3f %9.2f" % (name, len(text) / 1024, saved, printed, saved / printed, loaded, parsed, loaded / parsed))


# a loop of short lines, each with its number
LINES = ('"lines":["^Line ","ev",{"VAR?":"i"},"out",{"VAR?":"i"},1,"+",{"VAR=":"i","re":true},"/ev","^ of many.","\\n",%s{"->":"lines"},null]')


def of_lines(start, declared=(), silent="", knots=""):
    """A story that begins so and then says lines without an end, with such content behind each newline."""
    values = ",".join('%s,{"VAR=":"%s"}' % (value, name) for name, value in [("i", 0)] + list(declared))
    return '{"inkVersion":21,"root":[[%s{"->":"lines"},null],"done",{%s%s,"global decl":["ev",%s,"/ev","end",null]}]}' % (start, knots, LINES % silent, values)


def lines(program, _worker):
    """Lines one at a time, whose answers are read through a pipe, by how much the story has to keep while it looks past a newline."""
    def row_of(name, size, story, count):
        line = "continue\n"
        took = piped(program, story, line * (count + 1)) - piped(program, story, line)
        print("%-34s %9s %9d %12.0f" % (name, size, count, took * 1e9 / count), flush=True)

    print("%-34s %9s %9s %12s" % ("lines one at a time", "size", "lines", "ns each, processor"))
    for count in (20000, 80000):
        listed = '{"inkVersion":21,"root":[' + '"^You go on along the road.","\\n",' * (count + 2) + '"done",null]}'
        row_of("  of a list of lines", "", listed, count)
        row_of("  of a loop", "", of_lines(""), count)
    for size in (10, 100, 1000, 10000):
        count = 20000 if size < 1000 else 2000
        row_of("  beside globals", size, of_lines("", [("g%d" % n, n) for n in range(size)]), count)
        row_of("  behind counted containers", size, of_lines('["nop",{"#f":3}],' * size), count)
    for size in (10, 100, 990):
        row_of("  beside choices", size, of_lines('"ev","str","^Go on","/str","/ev",{"*":"lines","flg":4},' * size), 2000)
        tunnels = ('"down":["ev",{"VAR?":"n"},1,"-","du",{"VAR=":"n","re":true},"/ev",{"temp=":"t"},"ev",{"VAR?":"n"},0,">","/ev",{"->":".^.in","c":true},{"->":"lines"},'
                   '{"in":[{"->t->":"down"},"ev","void","/ev","->->",null]}],')
        row_of("  in tunnels with a temporary", size, of_lines('{"->t->":"down"},', [("n", size)], knots=tunnels), 2000)
    for size in (10, 100, 1000):
        row_of("  with silent steps behind", size, of_lines("", silent='"nop",' * size), 2000)


BENCHES = {"reading": reading, "arithmetic": steps, "passages": passages, "commands": commands, "calls": calls, "visits": visits, "choices": choices, "hosts": hosts,
           "saves": saves, "lines": lines}


def main():
    parser = argparse.ArgumentParser()
    parser.add_argument("--program", default=os.path.join(TOP, "inkplay"))
    parser.add_argument("--worker")
    parser.add_argument("names", nargs="*", metavar="NAME", help=" or ".join(BENCHES))
    words = parser.parse_args()
    for name in words.names:
        if name not in BENCHES:
            parser.error("there is no %s" % name)
    worker = words.worker or toolchain.program("inkbench")
    best(words.program, '{"inkVersion":21,"root":["done",null]}\n')  # built, and in the cache
    for place, name in enumerate(words.names or BENCHES):
        if place:
            print()
        BENCHES[name](words.program, worker)


if __name__ == "__main__":
    main()
