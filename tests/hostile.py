"""Shapes of stories, saves and command lines that are made to take long or much, which tests/shapes.py runs.

READING has stories of a size that are only read. The others are played: each has a story, the lines behind it, about how many steps
they take, and the program's words where it has some.
"""
import itertools
import json
import random

MIB = 1 << 20
MOST_STEPS = 1000000
HEAD, TAIL = '{"inkVersion":21,"root":[', "null]}"


# ---- names that are hashed alike: the hasher of `IndexMap` has a fixed seed and multiplies 16 bytes at a time

MULTIPLIER, SEED, WORD = 0x9e3779b97f4a7c15, 0x243f6a8885a308d3, (1 << 64) - 1


def hashed(state, first, second):
    """The hasher's state after 16 bytes, as two numbers."""
    product = (first ^ state) * (second ^ MULTIPLIER)
    return product & WORD ^ product >> 64


def some_word(chance, difference):
    """Eight letters that are letters too where they differ so."""
    letters = [[letter for letter in range(0x30, 0x7b) if letter != 0x5c and 0x20 <= letter ^ byte < 0x7f and letter ^ byte not in b'"\\'] for byte in difference.to_bytes(8, "little")]
    return int.from_bytes(bytes(map(chance.choice, letters)), "little")


def colliding(count):
    """So many names of one length and one hash, a power of two: the two factors of a multiplication can be exchanged."""
    chance, pairs = random.Random(1), count.bit_length() - 1
    blocks, state = [], SEED + 16 * (pairs + 1) & WORD
    while len(blocks) <= pairs:
        difference = state ^ MULTIPLIER
        while True:
            first, second = [some_word(chance, difference if blocks else 0) for _ in range(2)]
            after = hashed(state, first, second)
            if first != second ^ difference and (len(blocks) == pairs or not (after ^ MULTIPLIER) & 0x8080808080808080):
                break
        both = [(first, second), (second ^ difference, first ^ difference)][:2 if blocks else 1]
        blocks.append([b"".join(word.to_bytes(8, "little") for word in words).decode() for words in both])
        state = after
    return ["".join(words) for words in itertools.product(*blocks)]


# ---- stories that are read

def flat(size, element):
    """An element over and over in the root's list."""
    return filled(size, HEAD, TAIL, element)


def filled(size, head, tail, element):
    """An element between two ends as often as the size has room for it; № is the number of each."""
    count = (size - len(head) - len(tail)) // len(element.replace("№", "%07d" % 0))
    pieces = element.split("№")
    return head + (element * count if len(pieces) == 1 else "".join(("%07d" % n).join(pieces) for n in range(count))) + tail


def knots(size):
    return filled(size, '{"inkVersion":21,"root":["done",{"k":[null]', "}]}",
                  ',"k№":[["^You are at the crossing, and it rains.","\\n","ev",{"VAR?":"gold"},3,">","/ev",{"->":".^.^.g-0","c":true},{"->":"k"},"nop",null],{"g-0":["^Night.","\\n","done",null],"#f":1}]')


def ignored(size, element):
    return filled(size, '{"inkVersion":21,"root":["done",null],"x":[0', "]}", element)


def leading(size, content, head, tail, divert):
    """Containers, between two ends, and as many diverts that lead to them, each to one."""
    count = (size - len(head) - len(tail)) // len((content + divert).replace("№", "%07d" % 0))
    return head.join(("", "".join(divert.replace("№", "%07d" % n) for n in range(count)))) + "".join(content.replace("№", "%07d" % n) for n in range(count)) + tail


def of_one_hash(size):
    """Assignments to variables with names of one hash."""
    return HEAD + "".join('{"VAR=":"%s"},' % name for name in colliding(1 << (size // 300).bit_length() - 1)) + TAIL


def falling_keys(size):
    count = (size - 100) // 18
    return '{"inkVersion":21,"root":["done",{' + ",".join('"k%07d":[null]' % n for n in range(count, 0, -1)) + "}]}"


READING = {
    "knots (plain)": knots,
    "integers": lambda size: flat(size, "1,"),
    "long integers": lambda size: flat(size, "-1234567890,"),
    "booleans": lambda size: flat(size, "true,"),
    "words": lambda size: flat(size, '"ev",'),
    "empty texts": lambda size: flat(size, '"^",'),
    "short texts": lambda size: flat(size, '"^abcd",'),
    "texts of escapes": lambda size: flat(size, '"^' + "\\u0061" * 20 + '",'),
    "texts of newlines": lambda size: flat(size, '"^' + "\\n" * 1000 + '",'),
    "texts of 1 MiB": lambda size: flat(size, '"^' + "x" * (MIB - 8) + '",'),
    "empty containers side by side": lambda size: flat(size, "[null],"),
    "containers nested to the limit": lambda size: flat(size, "[" * 119 + "null]" + ",null]" * 118 + ","),
    "containers by key": lambda size: filled(size, '{"inkVersion":21,"root":["done",{"k":[null]', "}]}", ',"k№":[null]'),
    "containers by key, falling": falling_keys,
    "containers with names": lambda size: flat(size, '[{"#n":"n№"}],'),
    "counted containers": lambda size: flat(size, '["^",{"#f":7}],'),
    "one key over and over": lambda size: filled(size, '{"inkVersion":21,"root":["done",{"k":[null]', "}]}", ',"k":[null]'),
    "one option over and over": lambda size: filled(size, '{"inkVersion":21,"root":[{"VAR=":"x"', "},null]}", ',"re":true'),
    "diverts": lambda size: flat(size, '{"->":"0"},'),
    "diverts up and down": lambda size: HEAD + "[" * 118 + filled(size - 900, "", "", '{"->":"' + ".^" * 118 + ".0" * 118 + '"},') + "null]" + ",null]" * 117 + "," + TAIL,
    "diverts by names": lambda size: leading(size, '["^",{"#n":"n№"}],', HEAD, TAIL, '{"->":"n№"},'),
    "diverts by keys": lambda size: leading(size, ',"k№":[null]', HEAD, "}]}", '{"->":"k№"},').replace('},,"k0', '},{"k0', 1),
    "a path of zeros": lambda size: HEAD + '{"->":"' + "0" * (size - 50) + '"},' + TAIL,
    "a path up and down": lambda size: HEAD + '[{"->":"' + ".^.^" + ".0.^" * ((size - 80) // 4) + '.0"},null],' + TAIL,
    "names of variables": lambda size: flat(size, '{"VAR=":"v№"},'),
    "one name of a variable": lambda size: flat(size, '{"VAR=":"v"},'),
    "a name of 8 MiB twice": lambda size: HEAD + ('{"VAR=":"' + "v" * (size // 2 - 40) + '"},') * 2 + TAIL,
    "names of one hash": of_one_hash,
    "names of temporaries": lambda size: flat(size, '{"temp=":"v№"},'),
    "calls of functions of a host": lambda size: flat(size, '{"x()":"f№","exArgs":1},'),
    "choice points": lambda size: flat(size, '{"*":"0","flg":4},'),
    "pushed targets": lambda size: flat(size, '{"^->":"0"},'),
    "texts, each another": lambda size: flat(size, '"^№",'),
    "counts of a knot": lambda size: filled(size, HEAD, '"done",{"k":["^",{"#f":1}]}]}', '{"CNT?":"k"},'),
    "choices of a knot, once only": lambda size: filled(size, HEAD, '"done",{"k":["^",{"#f":1}]}]}', '{"*":"k"},'),
    "calls of a knot": lambda size: filled(size, HEAD, '"done",{"k":[null]}]}', '{"f()":"k"},'),
    "tags given whole, version 20": lambda size: flat(size, '{"#":"t№"},').replace("21", "20", 1),
    "names with one beginning of 1 KiB": lambda size: flat(size, '{"VAR=":"' + "v" * 1024 + '№"},'),
    "ignored integers": lambda size: ignored(size, ",1"),
    "ignored brackets": lambda size: ignored(size, "," + "[" * 125 + "]" * 125),
    "ignored keys": lambda size: filled(size, '{"inkVersion":21,"root":["done",null],"x":{"":0', "}}", ',"№":0'),
    "a number of 16 MiB": lambda size: '{"inkVersion":21,"root":["done",null],"x":0.' + "1" * (size - 60) + "}",
    "numbers between two floats": lambda size: ignored(size, ",9007199254740993" + "0" * 300 + "1e-301"),
    "numbers near nothing": lambda size: ignored(size, ",2.4703282292062327208e-324"),
    "spaces": lambda size: '{"inkVersion":21,"root":["done",null]' + " " * (size - 60) + "}",
    "open brackets": lambda size: "[" * size,
    "a bad byte at the end": lambda size: knots(size - 40)[:-3] + "\udcff]}",
    "a bad number at the end": lambda size: flat(size - 4, '"^abcd",')[:-len(TAIL)] + "1.5," + TAIL,
    "a bad number at the front": lambda size: HEAD + "1.5," + flat(size - 4, '"^abcd",')[len(HEAD):],
    "a bad path at the end": lambda size: flat(size - 20, '{"->":"0"},')[:-len(TAIL)] + '{"->":"m"},' + TAIL,
}


# ---- stories that run

def named(root, **knots):
    """A story with these contents at its root, and these containers by key."""
    rest = ",".join('"%s":[%s,null]' % (name.replace("_", " "), body) for name, body in knots.items())
    return HEAD + root + ",{" + rest + "}]}" if knots else HEAD + root + "," + TAIL


def deep(body, depth=900, **knots):
    """A loop in so many functions."""
    return named('{"->":"down"}', down='"ev",{"VAR?":"n"},1,"-",{"VAR=":"n","re":true},{"VAR?":"n"},0,">","/ev",{"f()":"down","c":true},{"->":"loop"}', loop=body + ',{"->":"loop"}',
                 global_decl='"ev",%d,{"VAR=":"n"},"/ev","end"' % depth, **knots)


def counted(body, count, after='"done"', extra="", **knots):
    """A loop that is gone through so many times, and then what stands behind it."""
    return named('{"->":"loop"}', loop=body + ',"ev",{"VAR?":"n"},1,"-",{"VAR=":"n","re":true},{"VAR?":"n"},0,">","/ev",{"->":"loop","c":true},' + after,
                 global_decl='"ev",%d,{"VAR=":"n"}%s,"/ev","end"' % (count, extra), **knots)


LONG = '"^' + "x" * MIB + '"'
NEARLY = '"^' + "x" * (MIB - 1) + '"'
HALF_A = '"^' + "a" * (MIB // 2) + '"'
HARD = '"^' + "a" * (MIB // 2 - 1) + 'b"'
BLANKS = '"^' + "x " * (MIB // 2) + '"'
THROUGH = "through\n"


def texts(first, second):
    return ',"str",%s,"/str",{"VAR=":"a"},"str",%s,"/str",{"VAR=":"b"}' % (first, second)


def comparing(operator, first=LONG, second=LONG):
    return named('"ev",{"VAR?":"a"},{"VAR?":"b"},"%s","pop","/ev",{"->":"0"}' % operator, global_decl='"ev"' + texts(first, second) + ',"/ev","end"')


def tower(size, divert):
    """Containers around one another, each counted, that are left and landed in again and again."""
    deep_in = "0" + ".0" * size
    return HEAD + "[" * size + divert + ',{"#f":1}]' * size + ',{"->":"%s"},' % deep_in[:-2] + TAIL


NAME = "v" * (4 * MIB)


def declaring(names):
    return HEAD + '"done",{"global decl":["ev",' + "".join('1,{"VAR=":"%s"},' % name for name in names) + '"/ev","end",null]}]}'


UP_AND_DOWN = "0" + ".^.0" * (MIB // 4)


def many_temporaries(count):
    """Temporaries that are declared in falling order of their names."""
    return HEAD + '"ev",' + "".join('1,{"temp=":"t%06d"},' % n for n in range(count, 0, -1)) + '"/ev","done",' + TAIL


# name: story, lines, steps, and the program's words where it has some
RUNNING = {
    "a loop of arithmetic (plain)": (named('"ev",{"VAR?":"x"},3,"+",{"VAR=":"x","re":true},"/ev",{"->":"0"}', global_decl='"ev",1,{"VAR=":"x"},"/ev","end"'), THROUGH, MOST_STEPS),
    "a divert to itself": (named('{"->":"0"}'), THROUGH, MOST_STEPS),
    "a thread in a loop": (deep('"thread",{"->":"a"}', 1, a='"done"'), THROUGH, MOST_STEPS),
    "a thread in a loop, 900 frames": (deep('"thread",{"->":"a"}', 900, a='"done"'), THROUGH, MOST_STEPS),
    "choices in a loop, 900 frames": (deep('{"*":"loop","flg":0}', 900), THROUGH, 20000),
    "1,000 choices of 900 frames, saved": (deep('{"*":"loop","flg":0},"ev","choiceCnt",999,"<","!","/ev",{"->":"out","c":true}', 900, out='"done"'), THROUGH + "save\n", 20000),
    "a function in a loop, 900 frames": (deep('{"f()":"f"}', 900, f='"nop"'), THROUGH, MOST_STEPS),
    "a tunnel in a loop, 900 frames": (deep('{"->t->":"t"}', 900, t='"ev","void","/ev","->->"'), THROUGH, MOST_STEPS),
    "calls down and up": (named('"ev",900,{"VAR=":"n","re":true},"/ev",{"f()":"f"},{"->":"0"}', f='"ev",{"VAR?":"n"},1,"-",{"VAR=":"n","re":true},{"VAR?":"n"},0,">","/ev",{"f()":"f","c":true}',
                                global_decl='"ev",1,{"VAR=":"n"},"/ev","end"'), THROUGH, MOST_STEPS),
    "strings open, a function in each": (named('{"->":"f"}', f='"ev","str",{"f()":"f"}'), THROUGH, 5000),
    "equal texts of 1 MiB compared": (comparing("=="), THROUGH, MOST_STEPS),
    "texts of 1 MiB, another last letter": (comparing("!=", NEARLY[:-1] + 'y"', NEARLY[:-1] + 'z"'), THROUGH, MOST_STEPS),
    "the same text of 1 MiB compared": (named('"ev",{"VAR?":"a"},{"VAR?":"a"},"==","pop","/ev",{"->":"0"}', global_decl='"ev"' + texts(LONG, '"^"') + ',"/ev","end"'), THROUGH, MOST_STEPS),
    "a text looked for in one of 1 MiB": (comparing("?", '"^' + "a" * MIB + '"', '"^b"'), THROUGH, MOST_STEPS),
    "half a text looked for, in vain": (comparing("?", '"^' + "a" * MIB + '"', HARD), THROUGH, MOST_STEPS),
    "half a text looked for, periodic": (comparing("?", '"^' + ("a" * 1023 + "b") * 1024 + '"', '"^' + ("a" * 1023 + "b") * 511 + "a" * 1024 + '"'), THROUGH, MOST_STEPS),
    "texts of 1 MiB joined with nothing": (comparing("+", LONG, '"^"'), THROUGH, MOST_STEPS),
    "texts of 1 MiB as truth": (comparing("&&"), THROUGH, MOST_STEPS),
    "a text of 1 MiB written into a string": (named('"ev","str",%s,"/str","pop","/ev",{"->":"0"}' % LONG), THROUGH, MOST_STEPS),
    "the same, each second byte a blank": (named('"ev","str",%s,"/str","pop","/ev",{"->":"0"}' % BLANKS), THROUGH, MOST_STEPS),
    "a text of 1 MiB written into a tag": (counted('"#",%s,"/#"' % NEARLY, 200), THROUGH, 2800),
    "a value of 1 MiB written into a string": (named('"ev","str","ev",{"VAR?":"a"},"out","/ev","/str","pop","/ev",{"->":"0"}', global_decl='"ev"' + texts(LONG, '"^"') + ',"/ev","end"'), THROUGH, MOST_STEPS),
    "a value of 1 MiB written 200 times": (counted('"ev",{"VAR?":"a"},"out","/ev"', 200, '"end"', texts(LONG, '"^"')), THROUGH, 2800),
    "a value of 1 MiB written 60,000 times": (counted('"ev",{"VAR?":"a"},"out","/ev"', 60000, '"end"', texts(LONG, '"^"')), THROUGH, MOST_STEPS),
    "10,000 texts of 1 MiB on the stack": (named('"ev",{"VAR?":"a"},{"VAR?":"b"},"+","/ev",{"->":"0"}', global_decl='"ev"' + texts(LONG, '"^"') + ',"/ev","end"'), THROUGH, 60000),
    "a text doubled to its limit": (named('"ev",{"VAR?":"x"},{"VAR?":"x"},"+",{"VAR=":"x","re":true},"/ev",{"->":"0"}', global_decl='"ev","str","^ab","/str",{"VAR=":"x"},"/ev","end"'), THROUGH, 200),
    "newlines and glue in turn": (named(",".join(['"\\n","<>"'] * 49999) + ',"^x","done"'), THROUGH, 100000),
    "functions that write newlines": (counted('{"f()":"f"}', 24000, f='"\\n"'), THROUGH, 360000),
    "blanks in functions": (counted('{"f()":"f"}', 24000, f='"^ "'), THROUGH, 360000),
    "marks and a look to the end": (counted('"^x"', 90000, '"\\n",{"->":"on"}', on='"ev",1,"pop","/ev",{"->":"on"}'), "continue\n" * 2, 2 * MOST_STEPS),
    "looks past lines that say nothing": (named('"^A","\\n",{"->":"on"}', on='"ev",{"VAR?":"x"},3,"+",{"VAR=":"x","re":true},"/ev",{"->":"on"}', global_decl='"ev",1,{"VAR=":"x"},"/ev","end"'),
                                          ("continue\nrestart\n") * 3, 3 * MOST_STEPS),
    "looks that assign texts of 1 MiB": (named('"^A","\\n",{"->":"on"}', on='"ev",{"VAR?":"x"},{"VAR?":"b"},"+",{"VAR=":"x","re":true},"/ev",{"->":"on"}',
                                            global_decl='"ev",1,{"VAR=":"x"}' + texts(LONG, '"^"') + ',{"VAR?":"a"},{"VAR=":"x","re":true},"/ev","end"'), "continue\n", MOST_STEPS),
    "20,000 falling temporaries": (many_temporaries(20000), THROUGH, 40000),
    "100,000 falling temporaries": (many_temporaries(100000), THROUGH, 200000),
    "499,000 falling temporaries": (many_temporaries(499000), THROUGH, 998000),
    "a fork beside 100,000 temporaries": (many_temporaries(100000).replace('"done",null]}', '"thread",{"->":"k"},{"->":"l"},{"k":["done",null],"l":["thread",{"->":"k"},{"->":"l"},null]}]}'), THROUGH, MOST_STEPS),
    "499,000 globals": (declaring("v%06d" % n for n in range(499000)), THROUGH, 998000),
    "16,384 globals with names of one hash": (declaring(colliding(16384)), THROUGH, 32768),
    "visits of 400,000 containers": (flat(6 * MIB, '["^",{"#f":7}],'), THROUGH, 400000),
    "texts in strings, 900 functions": (deep('"ev","str","^x","/str","pop","/ev"', 900), THROUGH, MOST_STEPS),
    "texts, 900 functions": (deep('"^x"', 900), THROUGH, 200000),
    "a divert into 118 counted containers": (tower(118, '{"->":"1"}'), THROUGH, MOST_STEPS),
    "a divert by a variable, a path of 1 MiB": (named('{"->":"v","var":true}', global_decl='"ev",{"^->":"%s"},{"VAR=":"v"},"/ev","end"' % UP_AND_DOWN), THROUGH, MOST_STEPS),
    "a count by a target, a path of 1 MiB": (named('["ev",{"VAR?":"v"},"readc","pop","/ev",{"->":"0"},{"#f":1}]', global_decl='"ev",{"^->":"%s"},{"VAR=":"v"},"/ev","end"' % UP_AND_DOWN), THROUGH, MOST_STEPS),
    "equal targets of 1 MiB compared": (named('"ev",{"VAR?":"v"},{"VAR?":"w"},"==","pop","/ev",{"->":"0"}', global_decl='"ev",{"^->":"%s"},{"VAR=":"v"},{"^->":"%s"},{"VAR=":"w"},"/ev","end"' % (UP_AND_DOWN, UP_AND_DOWN)), THROUGH, MOST_STEPS),
    "a global with a name of 4 MiB, read": (named('"ev",{"VAR?":"%s"},"pop","/ev",{"->":"0"}' % NAME, global_decl='"ev",1,{"VAR=":"%s"},"/ev","end"' % NAME), THROUGH, MOST_STEPS),
    "a global with a name of 4 MiB, assigned": (named('"ev",1,{"VAR=":"%s","re":true},"/ev",{"->":"0"}' % NAME, global_decl='"ev",1,{"VAR=":"%s"},"/ev","end"' % NAME), THROUGH, MOST_STEPS),
    "the same through a pointer": (named('"ev",{"VAR?":"p"},"pop","/ev",{"->":"0"}', global_decl='"ev",1,{"VAR=":"%s"},{"^var":"%s","ci":0},{"VAR=":"p"},"/ev","end"' % (NAME, NAME)), THROUGH, MOST_STEPS),
    "a temporary with a name of 4 MiB": (named('"ev",1,{"temp=":"%s"},"/ev","ev",{"VAR?":"%s"},"pop","/ev",{"->":"4"}' % (NAME, NAME)), THROUGH, MOST_STEPS),
    "a host's function with a name of 4 MiB": (named('"ev",{"x()":"%s"},"pop","/ev",{"->":"0"}' % NAME, **{NAME: '"ev",1,"/ev","~ret"'}), THROUGH, MOST_STEPS),
    "texts of 1 MiB in 1,000 choices": (counted('"ev","str",%s,"/str","/ev",{"*":"loop","flg":4}' % NEARLY, 999), THROUGH, 16000),
    "1,000 strings open, a text of 1 MiB in each": (named('{"->":"f"}', f='"ev","str",%s,{"->":"f"}' % LONG), THROUGH, 5000),
    "lines of 1 MiB": (counted('%s,"\\n"' % NEARLY, 60), "continue\n" * 60, 700),
    "49,999 lines, one at a time": (counted('"^x","\\n"', 49999), "continue\n" * 49999, 2 * 550000),
    "lines in 900 functions, one at a time": (deep('"^x","\\n"', 900), "continue\n" * 10000, 2 * 30000),
    "lines with a look of 1,000 steps": (counted('"^x","\\n",{"->":"on"}', 100, on='"ev",{"VAR?":"m"},1,"-",{"VAR=":"m","re":true},{"VAR?":"m"},0,">","/ev",{"->":"on","c":true},"ev",100,{"VAR=":"m","re":true},"/ev",{"->":"loop"}',
                                         extra=',100,{"VAR=":"m"}'), "continue\n" * 99, 2 * 100 * 1000),
    "visits of 400,000 containers, saved": (flat(6 * MIB, '["^",{"#f":7}],'), THROUGH + "save\n", 400000),
    "threads of 900 frames to their limit": (deep('"thread",{"->":"a"}', 900, a='{"->":"loop"}'), THROUGH, 10000),
    "choices in 99 flows, 900 frames, saved": (deep('{"*":"loop","flg":0},"ev","choiceCnt",99,"<","!","/ev",{"->":"out","c":true}', 900, out='"done"'),
                                              "".join("flow f%d\nset n 900\nthrough\n" % n for n in range(99)) + "save\n", 99 * 9000),
    "lines beside 1,000 choices of 900 frames": (deep('{"*":"loop","flg":0},"ev","choiceCnt",999,"<","!","/ev",{"->":"out","c":true}', 900, out='"^x","\\n",{"->":"out"}'),
                                                 "continue\n" * 5000, 20000 + 2 * 20000),
    "1,000 restarts beside 400,000 counted containers": (flat(6 * MIB, '["^",{"#f":7}],'), "restart\n" * 1000, 0),
    "pops of an empty stack in choices": (named('{"*":"0","flg":1}'), THROUGH + "restart\n" * 1000, 1000),
}


def frame(kind, place, **temps):
    return {"depth": 0, "eval": False, "fresh": False, "kind": kind, "place": place, "temps": temps}


def save(frames, choices=(), stack=(), **other):
    flow = {"choices": list(choices), "name": "DEFAULT_FLOW", "safe": False, "stack": list(stack), "threads": [{"frames": frames, "previous": None}]}
    made = dict({"current": "DEFAULT_FLOW", "flows": [flow], "format": 2, "globals": [], "turn": 0, "turns": [], "visits": []}, **other)
    return "load " + json.dumps(made, separators=(",", ":"), sort_keys=True) + "\n"


def threads_saved(lengths):
    """A save of threads with so many frames each."""
    made = json.loads(save([frame("base", [0])])[len("load "):])
    made["flows"][0]["threads"] = [{"frames": [frame("base", [0])] + [frame("function", [0])] * (length - 1), "previous": None} for length in lengths]
    return "load " + json.dumps(made, separators=(",", ":"), sort_keys=True) + "\n"


def flows_saved(count):
    """A save of so many flows."""
    made = json.loads(save([frame("base", [0])])[len("load "):])
    made["flows"] += [dict(made["flows"][0], name="f%d" % n) for n in range(1, count)]
    return "load " + json.dumps(made, separators=(",", ":"), sort_keys=True) + "\n"


def chain(length):
    """Frames, each with a pointer to that of the one below."""
    return [frame("base", [0], p=1)] + [frame("function", [0], p={"ci": n, "var": "p"}) for n in range(1, length)]


PLAIN_SAVED = named('"ev",{"VAR?":"p"},"pop","/ev",{"->":"0"}')
LOADED = {
    "a chain of 1,000 pointers, read": (PLAIN_SAVED, save(chain(1000)) + THROUGH, MOST_STEPS),
    "a chain of 1,000 pointers, written": (named('"ev",1,{"temp=":"p","re":true},"/ev",{"->":"0"}'), save(chain(1000)) + THROUGH, MOST_STEPS),
    "a chain of 1,000 globals, read": (PLAIN_SAVED, save([frame("base", [0])] + [frame("function", [0])] * 999, globals=[["p", {"ci": 0, "var": "p0"}]]
                                       + [["p%d" % n, {"ci": 0, "var": "p%d" % (n + 1)}] for n in range(990)] + [["p990", 1]]) + THROUGH, MOST_STEPS),
    "a save of 1 MiB, loaded 16 times": (named('"done"'), save([frame("base", [0])], globals=[["v%05d" % n, n] for n in range(60000)]) * 16, 0),
    "the same in falling order of keys": (named('"done"'), save([frame("base", [0], **{"v%05d" % n: n for n in range(60000)})]) * 16, 0),
    "a save with a long path": (named('"done"'), save([frame("base", [0])], stack=[{"->": ".".join(["0"] * 500000)}]) * 16, 0),
    "a save of 11 threads of 900 frames": (named('"done"'), threads_saved([900] * 11) * 16, 0),
    "a save of 100 flows": (named('"done"'), flows_saved(100) * 16, 0),
    "a save of 4,096 globals with names of one hash": (named('"done"'), save([frame("base", [0])], globals=[[name, 1] for name in colliding(4096)]) * 16, 0),
    "a save of temporaries with names of one hash": (named('"done"'), save([frame("base", [0], **{name: 1 for name in colliding(4096)})]) * 16, 0),
    "a save with a text of 1 MiB": (named('"done"'), save([frame("base", [0])], stack=["x" * (MIB - 1000)]) * 16, 0),
    "a save with a bad last member": (named('"done"'), save([frame("base", [0])], globals=[["v%05d" % n, n] for n in range(60000)], visits=0) * 16, 0),
}
LINES = {
    "a million empty lines": (named('"done"'), "\n" * 1000000, 0),
    "a million lines that get": (named('"done"'), "get x\n" * 1000000, 0),
    "jumps by long paths": (named('"done"'), ("jump " + "0." * 500000 + "0\n") * 16, 0),
    "jumps by zeros": (named('"done"'), ("jump " + "0" * 1000000 + "\n") * 16, 0),
    "jumps up and down": (named('[["^",null],null],"done"'), ("jump " + "0.^." * 250000 + "0\n") * 16, 0),
    "visits by long paths": (named('[["^",null],null],"done"'), ("visits " + "0.^." * 250000 + "0\n") * 16, 0),
    "gets of long names": (named('"done"'), ("get " + "x" * 1000000 + "\n") * 16, 0),
    "flows of long names": (named('"done"'), "".join("flow " + "%02d" % n * 500000 + "\n" for n in range(16)) + "save\n", 0),
    "to a flow and back, 200,000 times": (named('"done"'), "flow a\nflow DEFAULT_FLOW\n" * 200000, 0),
    "a flow made and dropped, 200,000 times": (named('"done"'), "flow a\ndrop a\n" * 200000, 0),
    "choosing, 100,000 times": (named('"ev","/ev",{"*":"0","flg":0},"done"'), "through\nchoose 0\n" * 100000, 400000),
    "saves of 10,000 globals, 100 times": (declaring("v%d" % n for n in range(10000)), "save\n" * 100, 20000),
    "sets of escapes": (named('"done"'), ('set x "' + "\\u0061" * 170000 + '"\n') * 16, 0),
    "sets of brackets": (named('"done"'), ("set x " + "[" * 1000000 + "\n") * 16, 0),
    "loads of brackets": (named('"done"'), ("load " + "[" * 1000000 + "\n") * 16, 0),
    "a watched global among 100,000, set": (declaring("v%06d" % n for n in range(100000)), "set v050000 1\nset v050000 2\n" * 100000, 200000, ("--watch", "v050000")),
    "calls of a host's function with 9,000 arguments": (named('"ev",' + "1," * 9000 + '{"x()":"f","exArgs":9000},"pop","/ev",{"->":"0"}'), THROUGH, MOST_STEPS, ("--answer", "f=[%s]" % ",".join("1" * 2000))),
    "calls of a host's function": (named('"ev",{"x()":"f"},"pop","/ev",{"->":"0"}'), THROUGH, MOST_STEPS, ("--table", 'f={"[]":1}')),
    "a text of 1 MiB, got 200 times": (named('"done"', global_decl='"ev"' + texts(LONG, '"^"') + ',"/ev","end"'), "get a\n" * 200, 0),
    "1,000 restarts of 10,000 globals": (named('"done"', global_decl='"ev",' + ",".join('1,{"VAR=":"v%d"}' % n for n in range(10000)) + ',"/ev","end"'), "restart\n" * 1000, 20000000),
}
