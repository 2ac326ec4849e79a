#!/usr/bin/env python3
"""Refuses each request for memory in turn, and looks at what is answered: by the program that plays stories, and by the
libraries' public calls, which inktest, marktest and playtest make.

    tests/refuse_memory.py [--seconds N] [--program PROGRAM] [TABLE..]
        for the tables some 480 seconds; the program is ./inkplay's, the tables are those of these programs unless others are
        named; those of twintest say nothing of memory

A small library, built here with cc and loaded in front of the C library, refuses the n-th request. For each story below n
goes from 1 on until no request is left to refuse. Each run has to end as docs/PROTOCOL.md says: the named error for want of
memory, or the same answers as with ample memory up to the command that found none, the fault OutOfMemory there, and what a
broken player answers to the lines after it.

Then each table is run by its program, and with each request that is refused a case holds, or it found no memory. Where want of memory
is an answer (`short CALL`), that case may have another one, and so may those behind it of the same player. Where a table makes
more requests than the time allows, every k-th is refused. Printed is how many of how many; the status is 0 only where all
holds.
"""
import argparse
import json
import os
import re
import subprocess
import sys
import tempfile
import time
from concurrent.futures import ThreadPoolExecutor

import toolchain
from given_saves import flow, frame, save, save_1, thread

SHIM = r"""
#define _GNU_SOURCE
#include <dlfcn.h>
#include <stdio.h>
#include <stdlib.h>
#include <unistd.h>
static long left = -1, made;
static int refuses(void) {
  made++;
  if (left < 0) { const char *n = getenv("REFUSE"); left = n ? atol(n) : 0; }
  if (left > 0 && --left == 0) { (void)!write(atoi(getenv("TELL")), "x", 1); return 1; }
  return 0;
}
void *malloc(size_t size) {
  static void *(*real)(size_t);
  if (!real) real = dlsym(RTLD_NEXT, "malloc");
  return refuses() ? 0 : real(size);
}
void *realloc(void *at, size_t size) {
  static void *(*real)(void *, size_t);
  if (!real) real = dlsym(RTLD_NEXT, "realloc");
  return refuses() ? 0 : real(at, size);
}
__attribute__((destructor)) static void count(void) {
  if (getenv("COUNT")) dprintf(atoi(getenv("TELL")), "%ld", made);
}
"""

HELLO = '{"inkVersion":21,"root":[["^Hello, world!","\\n",["done",{"#n":"g-0"}],null],"done",null],"listDefs":{}}'
EVERY_FORM = json.dumps({"inkVersion": 21, "root": [
    "^t", "\n", "<>", 1, True, "void", "ev", "/ev", "out", "pop", "->->", "~ret", "du", "str", "/str", "nop", "choiceCnt", "turn", "turns",
    "readc", "visit", "thread", "done", "end", "#", "/#", "+", "-", "/", "*", "%", "_", "==", ">", "<", ">=", "<=", "!=", "!", "&&", "||",
    "MIN", "MAX", "FLOOR", "CEILING", "INT", "?", "!?", {"^->": "k"}, {"^var": "a"}, {"^var": "a", "ci": 0}, {"->": "k"},
    {"->": ".^.k.0", "c": True}, {"->": "v", "var": True}, {"f()": "k"}, {"f()": "v", "var": True, "c": True}, {"->t->": "k", "c": True},
    {"x()": "f"}, {"x()": "g", "exArgs": 2, "c": True}, {"VAR=": "x"}, {"VAR=": "x", "re": True}, {"temp=": "t"}, {"temp=": "t", "re": True},
    {"VAR?": "x"}, {"CNT?": "k"}, {"*": "k"}, {"*": ".^.k", "flg": 0}, ["^in", {"#n": "g", "#f": 5}],
    {"k": ["^a", {"#f": 1}], "#f": 3}]})
STORIES = (
    (EVERY_FORM, ("through",)),
    ('{"inkVersion":21,"root":[{"->":"m"},null]}', ("through",)),
    ('{"inkVersion":21,"root":["ev",{"^->":"k"},{"VAR=":"v"},true,"/ev",{"->":"v","var":true,"c":true},null,{"k":["^in",{"->":".^.^.g"},{"#f":1}],"g":["\\n","^out","end",null]}]}'.replace(",null,{", ",{"),
     ("through", "get v", "restart", "through")),
    ('{"inkVersion":21,"root":["^A","#","^ x  y ","#","^z","/#","\\n","<>","ev","str","^s","#","^t","/#","/str",{"VAR=":"v"},"pop","/ev","^B","\\n","end",null]}',
     ("through", "get v")),
    ('{"inkVersion":20,"root":["^A",{"#":" x  y "},"#","^z",{"#":"w"},"\\n","ev","str","^s","#","^t",{"#":" u "},"/str",{"VAR=":"v"},"pop",{"VAR=":"g"},{"#":"e"},"/ev","^B","\\n",{"#":"f"},"end",null]}',
     ("continue", "get v", "get g", "through", "save", "restart", "through")),
    (HELLO, ("through", "through", "bye", "through")),
    ("\ufeff" + HELLO, ("bye", "through")),
    ('{"inkVersion":21,"root":["done",null],"listDefs":{}}', ("through", "through", "bye")),
    ('{"inkVersion":21,"root":["^A",null],"listDefs":{}}', ("through",)),
    ('{"inkVersion":21,"root":[["^  a  b","\\n","\\n","^\\tc ","\\n",["done",{"#n":"g-0"}],null],"done",null],"listDefs":{}}', ("through",)),
    ('{"inkVersion":21,"root":[["\\n","^\\n\\nA\\n \\n",["done",{"#n":"g-0"}],{"k":["^never",null]}],"done",null],"listDefs":{}}', ("through",)),
    ('{"inkVersion":21,"root":[[1.5,["done",{"#n":"g-0"}],null],"done",null],"listDefs":{}}', ("through",)),
    ('{"inkVersion":21,"root":[["^A","\\n","ev",{"VAR?":"x"},"out","/ev","\\n",["done",{"#n":"g-0"}],null],"done",{"global decl":["ev",1,{"VAR=":"x"},"/ev","end",null]}]}',
     ("set x 7", "through", "get x", "get y", "set y 1", "set y 1.5", "restart", "get x", 'set x "a b"', "through", "get x")),
    ('{"inkVersion":21,"root":[["ev","^ab","^c","+","du",{"VAR=":"t"},"out",-7,2,"/","out",true,"^x","+","out","/ev","\\n",["done",{"#n":"g"}],null],"done",null]}',
     ("through", "get t", "restart", "get t")),
    ('{"inkVersion":21,"root":[["^A","\\n","ev",1,0,"/","out","/ev","\\n",["done",{"#n":"g-0"}],null],"done",null]}',
     ("through", "through", "restart", "through")),
    ('{"inkVersion":21,"root":["ev",{"VAR?":"x"},2,"*",{"VAR=":"x","re":true},"/ev","done",{"global decl":["ev",3,{"VAR=":"x"},"/ev","end",null]}]}',
     ("set x 7", "get x", "through", "get x", "restart", "get x")),
    ('{"inkVersion":21,"root":[["^[","ev",{"f()":"f"},"out",{"f()":"g"},"pop","/ev","^]","\\n","end",null],"done",{"f":["\\n","^x","\\n","ev",3,"/ev","~ret",null],"g":["^ y",{"f()":"f"},null]}]}',
     ("through", "restart", "through")),
    ('{"inkVersion":21,"root":[["^a",{"->t->":"t"},"^c",{"->t->":"v","var":true},"^no",null],"done",{"t":["^b",{"->t->":"s"},"ev","void","/ev","->->",null],"s":["ev","void","/ev","->->",null],"u":["ev",{"^->":"e"},"/ev","->->",null],"e":["^e","end",null],"global decl":["ev",{"^->":"u"},{"VAR=":"v"},"/ev","end",null]}]}',
     ("through", "get v", "restart", "get v")),
    ('{"inkVersion":21,"root":[["thread",{"->":"a"},"thread",{"->":"b"},"^C","\\n","done",null],"done",{"a":["^A",{"f()":"f"},"done",null],"b":["^B",null],"f":["thread",{"->":".^.^.a.0"},null]}]}',
     ("through", "through", "restart")),
    ('{"inkVersion":21,"root":[["ev","str",{"f()":"f"},"^-",{"f()":"f"},"/str",{"VAR=":"x","re":true},"/ev","#",{"f()":"f"},"/#","end",null],"done",{"f":["\\n","^x","\\n","ev","str","^s","/str","out","/ev",null],"global decl":["ev",{"f()":"g"},{"VAR=":"x"},"/ev","end",null],"g":["ev",7,"/ev","~ret",null]}]}',
     ("through", "get x", "restart", "get x")),
    ('{"inkVersion":21,"root":[[{"f()":"f"},"^b",null],"done",{"f":["ev",{"VAR?":"n"},1,"-",{"VAR=":"n","re":true},{"VAR?":"n"},"/ev",{"f()":"f","c":true},{"f()":"r"},null],"r":["~ret",null],"global decl":["ev",9,{"VAR=":"n"},"/ev","end",null]}]}',
     ("through", "through", "restart", "get n")),
    ('{"inkVersion":21,"root":[["ev",5,{"temp=":"t"},{"^var":"t"},{"f()":"f"},"pop",{"VAR?":"t"},"out",{"VAR?":"t"},{"VAR=":"x"},"/ev","\\n","end",null],"done",{"f":[{"temp=":"r"},"ev",{"^var":"r"},{"f()":"g"},"/ev",null],"g":[{"temp=":"q"},"ev",{"VAR?":"q"},1,"+",{"temp=":"q","re":true},"str","^s","/str",{"temp=":"u"},{"VAR?":"u"},"out","/ev",null]}]}',
     ("through", "get x", "restart", "get x")),
    ('{"inkVersion":21,"root":[["ev",{"^var":"x"},{"VAR=":"p"},{"^var":"p"},{"VAR=":"q"},4,{"VAR=":"q","re":true},{"f()":"f"},{"VAR=":"gone"},{"VAR?":"gone"},"/ev",null],"done",{"f":["ev",1,{"temp=":"t"},{"^var":"t"},"/ev","~ret",null],"global decl":["ev",3,{"VAR=":"x"},"/ev","end",null]}]}',
     ("get x", "through", "get x", "get p", "get gone", "visits f", "restart", "get p")),
    ('{"inkVersion":21,"root":[["ev",{"VAR?":"n"},1,"+",{"VAR=":"n","re":true},"/ev",{"->":"k.a"},null],"done",{"k":["^x",{"a":["ev",{"CNT?":"k"},"out",{"CNT?":".^"},"out",{"VAR?":"n"},3,"<","/ev",{"->":"0","c":true},["^e","end",{"#f":3}],{"#f":7}],"#f":1}],"global decl":["ev",0,{"VAR=":"n"},{"f()":"c"},"/ev","end",null],"c":["nop",{"#f":3}]}]}',
     ("visits k", "through", "visits k", "visits k.a", "visits k.a.10", "visits .k", "visits c", "restart", "visits k.a")),
    ('{"inkVersion":21,"root":[[{"f()":"s"},{"f()":"s"},{"f()":"s"},"ev",{"^->":"s"},"du","readc","out","turns","out","turn","out","/ev","end",null],"done",{"s":["ev","visit",1,"MIN","/ev",{"->":".^.b","c":true},"^first","ev","void","/ev","~ret",{"b":["^later ",{"#f":1}],"#f":7}]}]}',
     ("through", "visits s", "visits s.b", "visits nowhere")),
    ('{"inkVersion":21,"root":[["ev",{"^->":"k.1"},{"temp=":"t"},"/ev",{"->":"t","var":true},null],"done",{"k":["^a",["^b","ev",{"^->":"k"},"readc","turn",{"VAR=":"v"},"visit","/ev",{"#f":1}],"^c",{"#f":3}]}]}',
     ("through", "get v", "visits k", "restart", "visits k", "get v")),
    ('{"inkVersion":21,"root":[["^Q","\\n","ev","str","^ A ","#","^t","/#","/str","str","^ only","/str",true,"/ev",{"*":"0.a","flg":23},"ev","str","^B","/str","/ev",{"*":"k","flg":4},"ev","/ev",{"*":"k","flg":8},"done",{"a":["^chosen","\\n","end",{"#f":1}]}],"done",{"k":["^K",["^in",{"#f":3}],"end",{"#f":7}]}]}',
     ("choose 0", "through", "choose 2", "choose 0", "visits 0.a", "through", "restart", "through", "choose 1", "through", "visits k")),
    ('{"inkVersion":21,"root":[[{"->t->":"t"},"^after","end",null],"done",{"t":["ev",4,{"temp=":"x"},"/ev",{"f()":"f"},"ev","str","^go","/str","/ev",{"*":"t.a","flg":4},"done",{"#f":1,"a":["^a","ev",{"VAR?":"x"},"out","void","/ev","->->",{"#f":1}]}],"f":["ev",9,{"temp=":"y"},"/ev","^f",null]}]}',
     ("through", "choose 0", "through", "visits t.a")),
    ('{"inkVersion":21,"root":[["thread",{"->":"a"},"thread",{"->":"b"},"^main",{"->":"a"},null],"done",{"a":["ev","str","^x","/str","/ev",{"*":".^.c","flg":4},"done",{"c":["^one","ev","turn","out","/ev","done",{"#f":3}],"#f":3}],"b":["ev","/ev",{"*":"a.c","flg":8},"done",{"#f":1}]}]}',
     ("through", "choose 1", "through", "visits a.c", "jump b", "through", "visits b", "jump a.c", "through", "visits a")),
    ('{"inkVersion":21,"root":[[{"->":"k"},null],"done",{"k":["^k","ev","/ev",{"*":"k.in.deep"},"ev","/ev",{"*":"out","flg":8},"done",{"#f":1,"in":["^no",{"#f":1,"deep":["^deep",{"->":"k"},{"#f":1}]}]}],"out":["^out","end",{"#f":2}]}]}',
     ("through", "choose 0", "visits k.in", "through", "visits k.in", "visits k.in.deep", "choose 0")),
    ('{"inkVersion":21,"root":[["^a","done",null],"done",{"k":["^k",["^b",["^c","done",{"#f":1}],{"#f":1}],{"#f":3}],"global decl":["ev","str","^d","/str","/ev",{"*":"k","flg":4},"ev",1,{"VAR=":"x"},"/ev","end",null]}]}',
     ("jump k.1.1.0", "visits k", "visits k.1", "visits k.1.1", "through", "jump .k", "jump k.9", "get x", "jump k", "through", "visits k")),
)

# saves of a story: one with calls, one with threads, one with choices and temporaries, one with counts, and one with texts on the stack
SAVED = json.dumps({"inkVersion": 21, "root": [["^a", "\n", ["^b", {"#n": "g", "#f": 3}], "done", {"#f": 1}], "done", {
    "t": ["^t", "ev", {"VAR?": "p"}, "out", "void", "/ev", "->->", {"#f": 3, "in": ["^i", {"#f": 7}]}],
    "f": ["^f", "ev", {"VAR?": "q"}, "/ev", "~ret", None], "s": ["out", "out", "/ev", "^.", "end", None],
    "global decl": ["ev", 1, {"VAR=": "x"}, "/ev", "end", None]}]})


def line_of(given):
    return "load " + json.dumps(given, separators=(",", ":"), sort_keys=True)


def load(**other):
    """A line that loads such a save in layout 2."""
    return line_of(save(**other))


STAY = thread([0, 2], frame("base", [0, 2, 0], a="z", b={"ci": 1, "var": "a"}))
SAVES = (
    load(threads=[thread([0, 3], frame("base", [0, 1]), frame("tunnel", ["t", 0], p="word"), frame("function", ["f", 0], q={"ci": 2, "var": "p"}))]),
    load(threads=[STAY, thread(["t", 1], frame("base", [0, 2]), frame("tunnel", ["t", 0]))], safe=True),
    load(threads=[thread([0, 3], frame("base", None))], choices=[
        {"hidden": False, "tags": ["one", "two"], "target": ["t", "in", 0], "text": "go", "thread": STAY},
        {"hidden": True, "tags": [], "target": ["f", 0], "text": "", "thread": STAY}]),
    load(turns=[[[0, 2], 3], [["t", "in"], 2]], visits=[[[0], 1], [[0, 2], 4], [["t"], 2147483647]], turn=7),
    load(stack=["", "word", {"tag": "t"}, {"->": "t.in"}, "a", "b"], threads=[thread(None, frame("base", ["s", 0], evaluating=True))],
         globals=[["y", "text"], ["x", {"ci": 0, "var": "y"}], ["z", {"tag": "t"}]]),
    # one in layout 1
    line_of(save_1(threads=[STAY, thread(["t", 1], frame("base", [0, 2]), frame("tunnel", ["t", 0]))], globals=[["x", "a"]], visits=[[["t"], 2]], choices=[
        {"hidden": False, "tags": ["one"], "target": ["t", "in", 0], "text": "go", "thread": STAY}])),
    # and one of three flows
    line_of(dict(save(turn=1, visits=[[[0], 1]]), current="side", flows=[
        flow("DEFAULT_FLOW", threads=[thread([0, 3], frame("base", None))], choices=[{"hidden": False, "tags": ["t"], "target": ["t", "in", 0], "text": "go", "thread": STAY}]),
        flow("side", threads=[STAY, thread(["t", 1], frame("base", [0, 2]), frame("tunnel", ["t", 0], p="word"))]), flow("é", stack=["a", {"tag": "t"}])])),
)
STORIES += tuple((SAVED, (text, "save", "get x", "through", "save", "choose 0", "through", "save", text, "through", "visits t")) for text in SAVES)
STORIES += ((SAVED, ("save", "load {}", "load [", "through", "save")),)

# flows that are made, gone to, dropped, saved and loaded: with choices and counts in a story of turns, and with calls and lines in one of lines
STORIES += (
    ('{"inkVersion":21,"root":[[{"->":"k"},null],"done",{"k":["^K","ev",{"CNT?":"k"},"out",{"VAR?":"x"},"out","/ev","\\n","ev","str","^go","#","^t","/#","/str",{"temp=":"s"},"/ev","ev","str","^more","/str","/ev",{"*":"c","flg":4},"done",{"#f":3}],"c":["^C","ev","turn","out","choiceCnt","out","/ev","\\n","ev",7,{"VAR=":"x","re":true},"/ev",{"->":"k"},{"#f":3}],"global decl":["ev",1,{"VAR=":"x"},"/ev","end",null]}]}',
     ("continue", "flow a", "flow a", "continue", "choose 0", "flow DEFAULT_FLOW", "choose 0", "through", "save", "flow b", "drop a", "flow a", "through", "visits k", "drop a", "drop a",
      "drop DEFAULT_FLOW", "save", "restart", "drop b", "flow a", "through", "save")),
    (SAVED, ("flow side", "through", "flow two", "continue", "save", SAVES[6], "save", "through", "flow é", "save", "drop side", "flow DEFAULT_FLOW", "choose 0", "through", SAVES[5], "flow two",
             "save", "through", "flow DEFAULT_FLOW", "choose 0", "save")),
    ('{"inkVersion":21,"root":["^A","\\n","ev",1,0,"/","/ev",null]}', ("continue", "flow a", "continue", "flow DEFAULT_FLOW", "continue", "flow a", "drop a", "restart", "drop a", "flow a", "continue")),
)

SECOND_LINE = '{"choices":[],"format":1,"globals":[],"safe":false,"stack":[],"threads":[{"frames":[{"depth":0,"eval":false,"fresh":false,"kind":"base","place":[0,2],"temps":{}}],"previous":[0,1]}],"turn":0,"turns":[],"visits":[]}'
# the stories of two threads with a choice each, of a save between lines, of tags and of a choice with a tag
STORIES += (
    ('{"inkVersion":21,"root":[["thread",{"->":"a"},"thread",{"->":"b"},"done",null],"done",{"a":["ev","str","^A","/str","/ev",{"*":".^.c-0","flg":20},"done",{"c-0":["^a","\\n","end",{"#f":5}]}],"b":[{"->t->":"c"},"^Back","\\n","end",null],"c":["ev","str","^C","/str","/ev",{"*":".^.c-0","flg":20},"done",{"c-0":["^c","\\n","ev","void","/ev","->->",{"#f":5}]}]}],"listDefs":{}}', ("through", "choose 2", "choose 1", "through")),
    ('{"inkVersion":21,"root":[["^A","\\n","^B","\\n",["done",{"#n":"g-0"}],null],"done",null],"listDefs":{}}',
     ("continue", "save", "restart", "load " + SECOND_LINE, "continue", 'load {"format":1', "continue")),
    ('{"inkVersion":21,"root":[["^Hi ","#","^calm","/#","\\n",["done",{"#n":"g-0"}],null],"done",null],"listDefs":{}}', ("continue", "restart", "through")),
    ('{"inkVersion":21,"root":["ev","str","^Go ","#","^red","/#","/str","/ev",{"*":".^.c-0","flg":4},"done",{"c-0":["end",null]}],"listDefs":{}}', ("through", "choose 0", "through")),
)

# stories with objects: the words that bind them, the story and the commands
GIVING = ["--answer", 'f=[1,"a",null]', "--table", 'g={"[1,\\"b\\"]":"c","[]":2}', "--watch", "x", "--watch", "y"]
# a line behind another: what it looks at past a newline is strings, calls, threads, choices, visits and globals that are declared
BY_LINES = ("continue", "get x", "continue", "get x", "through", "get x", "restart", "continue", "get x")
STORIES += (
    ('{"inkVersion":21,"root":["^A","\\n","^B","\\n","^C","\\n","done",null]}', ("continue", "continue", "continue", "continue", "restart", "continue", "through")),
    ('{"inkVersion":21,"root":["^A","\\n","ev","str","^s","#","^t","/#","/str",{"VAR=":"x","re":true},"pop","/ev","<>","^B","\\n","#","^u","/#","^C",{"global decl":["ev","str","^word","/str",{"VAR=":"x"},"/ev","end",null]}]}',
     BY_LINES),
    ('{"inkVersion":21,"root":["^A","\\n","ev","str","^ one","/str",{"VAR=":"x"},4,{"VAR=":"y"},"/ev","^B","\\n","ev","str","^two","/str",{"VAR=":"x","re":true},"/ev","^C","\\n","ev",{"VAR?":"x"},"out","/ev","done",null]}',
     BY_LINES),
    ('{"inkVersion":21,"root":[["^A",{"f()":"f"},"^B","\\n",{"->t->":"t"},"thread",{"->":"a"},"^C","\\n","done",null],{"f":["^x","\\n","ev",1,{"temp=":"p"},"/ev","^y","\\n","nop",null],"t":["^in","\\n","ev","void","/ev","->->",null],"a":["ev","str","^s","/str",{"temp=":"q"},"/ev","^th","\\n","nop",null]}]}',
     ("continue", "continue", "continue", "continue", "continue", "restart", "continue", "through")),
    ('{"inkVersion":21,"root":[["^A","\\n",{"->":"k"},null],{"k":["ev","str","^go","#","^t","/#","/str","/ev",{"*":"c","flg":20},"^B","\\n","ev",{"CNT?":"k"},"out","/ev","\\n","ev","/ev",{"*":"d","flg":8},"done",{"#f":3}],"c":["^C","\\n","ev","turn","out","/ev","\\n","end",{"#f":3}],"d":["end",{"#f":1}]}]}',
     ("continue", "visits k", "continue", "visits k", "continue", "choose 0", "visits c", "continue", "continue", "visits c", "jump k", "continue", "visits k")),
    ('{"inkVersion":21,"root":["^A","\\n","ev","str","^one","/str",{"VAR=":"x"},"/ev","ev",1,0,"/","/ev",null]}', ("continue", "get x", "continue", "continue", "get x", "restart", "continue")),
    (SAVED, ("save", "continue", "save", "continue", "save", "restart", "continue", SAVES[0], "continue", "save", SAVES[4], "continue", "get y")),
)

OBJECTS = (
    (GIVING, '{"inkVersion":21,"root":["ev",7,"^b",{"x()":"f","exArgs":2},"out",{"x()":"f"},{"VAR=":"x","re":true},1,"^b",{"x()":"g","exArgs":2},{"VAR=":"y","re":true},{"VAR?":"y"},"out",{"x()":"g"},"out","/ev","\\n","end",{"global decl":["ev","^s",{"VAR=":"x"},0,{"VAR=":"y"},"/ev","end",null]}]}',
     ("through", "get x", "set y 3", 'set x "t"', "restart", "get y", "through", "get x")),
    (GIVING, '{"inkVersion":21,"root":["ev",{"x()":"h","exArgs":0},"out",{"x()":"f"},"out","/ev","end",{"h":["^<","ev",{"x()":"g"},"/ev","~ret",null]}]}',
     ("through", "restart", "through", "restart", "through", "restart", "through")),
    (["--watch", "x", "--watch", "y"], '{"inkVersion":21,"root":["ev","str","^a","^b","/str",{"VAR=":"x","re":true},4,{"VAR=":"z"},{"^->":"k"},{"VAR=":"y"},"/ev","end",{"k":["^k",null],"global decl":["ev","^s",{"VAR=":"x"},"/ev","end",null]}]}',
     ("through", "get x", "get y", "set y 5", "restart", "get x")),
    (GIVING, '{"inkVersion":21,"root":["^A","\\n","ev",7,"^b",{"x()":"f","exArgs":2},{"VAR=":"x","re":true},"/ev","<>","^B","\\n","ev",1,"^b",{"x()":"g","exArgs":2},{"VAR=":"y","re":true},{"x()":"g"},"out","/ev","\\n",{"x()":"f"},"^C","\\n","end",{"global decl":["ev","^s",{"VAR=":"x"},0,{"VAR=":"y"},"/ev","end",null]}]}',
     ("continue", "get x", "continue", "get x", "get y", "continue", "continue", "get y", "restart", "continue", "continue")),
    (["--table", 'g={"[]":"word"}', "--watch", "x", "--watch", "y"], '{"inkVersion":21,"root":["ev",{"x()":"g"},{"VAR=":"x","re":true},"/ev","^A","\\n","ev",{"x()":"g"},{"VAR=":"y"},"/ev","^B","\\n","end",{"global decl":["ev","^s",{"VAR=":"x"},"/ev","end",null]}]}',
     ("continue", "get x", "get y", "continue", "get y", "restart", "continue", "through")),
    (["--watch", "x", "--watch", "y"], SAVED, ("through", SAVES[4], "get y", SAVES[3], "save", "through")),
    # a call behind a newline, and a global that is watched
    (["--answer", "f=[3]"], '{"inkVersion":21,"root":[["^A","\\n","ev",{"x()":"f"},"pop","/ev","<>","^B","\\n",["done",{"#n":"g-0"}],null],"done",null],"listDefs":{}}', ("continue", "continue", "restart", "continue")),
    (["--table", 'f={"[]":3}'], '{"inkVersion":21,"root":[["^A","\\n","ev",{"x()":"f"},"pop","/ev","<>","^B","\\n",["done",{"#n":"g-0"}],null],"done",null],"listDefs":{}}', ("continue", "restart", "continue")),
    (["--watch", "x"], '{"inkVersion":21,"root":[["^A","\\n","ev",{"VAR?":"x"},"out","/ev","\\n",["done",{"#n":"g-0"}],null],"done",{"global decl":["ev",1,{"VAR=":"x"},"/ev","end",null]}]}', ("continue", "set x 7", "continue", "get x", "restart", "continue")),
)

BROKEN = b'{"fault":"OutOfMemory","refused":"Broken"}'
BAD_COMMAND = b'{"refused":"BadCommand"}'
BAD_SAVE = b'{"refused":"BadSave"}'
NO_FLOW = b'{"refused":"NoSuchFlow"}'


def play(words, text, shim=None, refuse=0):
    """Status, lines of output, standard error, and whether a request was refused."""
    with tempfile.TemporaryFile() as told:
        env = dict(os.environ, LD_PRELOAD=shim, REFUSE=str(refuse), TELL=str(told.fileno())) if shim else None
        done = subprocess.run(words, input=text.encode(), stdout=subprocess.PIPE, stderr=subprocess.PIPE, env=env,
                              pass_fds=(told.fileno(),))
        told.seek(0)
        return done.returncode, done.stdout.splitlines(), done.stderr, bool(told.read())


NO_MEMORY = b'{"refused":"OutOfMemory"}'


def is_right(words, story, commands, ample, status, lines, error):
    """Is this what the program may answer where one request was refused?"""
    ample_status, ample_lines, ample_error = ample
    if (status, lines, error) == ample:
        return True
    if status == 2 and not lines:
        return error in (b"inkplay: words refused\n", b"inkplay: story refused: OutOfMemory\n", b"inkplay: story fault: OutOfMemory\n")
    if status == 1:
        return error == b"inkplay: run fault: OutOfMemory\n" and is_run(words, story, commands[:len(lines)], ample_lines, lines)
    return (status, error) == (ample_status, ample_error) and len(lines) == len(ample_lines) and is_run(words, story, commands, ample_lines, lines)


def parsed(line):
    """An answer as JSON, or none where the line is none."""
    try:
        return json.loads(line)
    except ValueError:
        return None


def events_of(line):
    """The events that an answer tells; none where it tells none."""
    return (parsed(line) or {}).get("events", [])


def is_fault(command, line, ample_line):
    """Whether an answer tells the want of memory while the story ran, or while its watchers were told: the events up to it are
    those of the answer with ample memory, of which some that a watcher was to see may be missing."""
    answer = parsed(line)
    if command not in ("continue", "through", "restart") and not command.startswith(("set ", "load ")) or not answer or answer.get("fault") != "OutOfMemory" or "refused" in answer:
        return False
    calls, ample_calls = [[e for e in events_of(each) if "call" in e] for each in (line, ample_line)]
    seen, ample_seen = [[(e["saw"], e["value"]) for e in events_of(each) if "saw" in e] for each in (line, ample_line)]
    rest = iter(ample_seen)
    return calls == ample_calls[:len(calls)] and all(each in rest for each in seen) and (command in ("continue", "through") or len(seen) < len(ample_seen))


def is_run(words, story, commands, ample_lines, lines):
    """The answers with ample memory, but for one that tells of the want of memory, and then those of a player from there."""
    for k, line in enumerate(lines):
        if line != ample_lines[k]:
            before, command, after = commands[:k], commands[k], commands[k + 1:]
            if is_fault(command, line, ample_lines[k]):
                used = sum("call" in event for each in lines[:k + 1] for event in events_of(each))
                rest = broken_from(words, story, before, command, after, used, stamp_after(lines[:k + 1]))
            elif line == NO_MEMORY and (command.split()[0] in ("set", "get", "restart", "visits", "choose", "jump", "save", "load") or makes_flow(words, story, before, command)):
                rest = [(line,) for line in answers(words, story, before + after)[k:]]
            else:
                return False
            return all(line in allowed for line, allowed in zip(lines[k + 1:], rest))
    return True


def makes_flow(words, story, before, command):
    """Whether a command makes a flow, after others: one of that name cannot be dropped there."""
    return command.startswith("flow ") and answers(words, story, before + ("drop " + command[len("flow "):],))[-1] == NO_FLOW


def stamp_after(lines):
    """The stamp of the event after those that some answers tell."""
    return sum(len(events_of(line)) for line in lines)


def answers(words, story, commands):
    return play(words, "\n".join((story,) + commands) + "\n")[1]


def broken_from(words, story, before, command, after, used, stamp):
    """What a player may answer that a command after others has broken, once it has made so many calls and told so many events.
    Its globals are those of some moment of the run: in these stories as they were before it or as they are after it. Of what a
    line looked at past its newline nothing is left."""
    rest = []
    for k, line in enumerate(after):
        word = line.split()[0]
        if word == "restart" or word == "load" and answers(words, story, (line,))[0] != BAD_SAVE:
            return rest + restarted(words, story, before + (command,), after[:k], after[k:], used, stamp)
        if word == "get":
            rest.append([answers(words, story, before + way + (line,))[-1] for way in ((), (command,))])
        elif word == "load":
            rest.append((BAD_SAVE,))
        else:
            rest.append((BROKEN,) if word in ("continue", "through", "set", "visits", "choose", "jump", "save", "flow", "drop") else (BAD_COMMAND,))
    return rest


def restarted(words, story, before, broken, after, used, stamp):
    """What is answered from a restart or a load on. A player that has called and watches nothing is as one that has just been
    opened. Where functions have given answers nothing is known of what they give next; and a watcher is told of what the command
    before has left, so that of its answers all but the events is looked at."""
    fresh = answers(words, story, after)
    if has_functions(words):
        return [Any() if used or stamp else (line,) for line in fresh]
    return [Apart(line) for line in fresh] if "--watch" in words else [(line,) for line in fresh]


def has_functions(words):
    return "--answer" in words


class Apart:
    """Allows each line that is this one apart from its events."""

    def __init__(self, line):
        self.line = line

    def __contains__(self, line):
        return without_events(line) == without_events(self.line)


def without_events(line):
    """An answer as JSON, without its events."""
    return {key: value for key, value in (parsed(line) or {}).items() if key != "events"}


class Any:
    """Allows every line."""

    def __contains__(self, line):
        return True


def shim_in(folder):
    """The library that refuses requests, built."""
    source, shim = os.path.join(folder, "shim.c"), os.path.join(folder, "shim.so")
    with open(source, "w") as f:
        f.write(SHIM)
    subprocess.run(["cc", "-shared", "-fPIC", "-O1", "-o", shim, source, "-ldl"], check=True)
    return shim


def wrong_stories(program, shim):
    """How many runs of the program there were, and how many of them were wrong."""
    wrong = runs = 0
    for options, story, commands in [([], story, commands) for story, commands in STORIES] + list(OBJECTS):
        words = [program] + options
        text = "\n".join((story,) + commands) + "\n"
        ample = play(words, text)[:3]
        for n in range(1, 100000):
            status, lines, error, refused = play(words, text, shim, n)
            if not refused:
                break
            runs += 1
            if not is_right(words, story, commands, ample, status, lines, error):
                wrong += 1
                print("request %d of %s: status %d, %r, %r" % (n, story[:60], status, lines, error))
    return runs, wrong


# ---- tables

HELD = re.compile(r"\d+ cases, \d+ failed(, \d+ out of memory)?")


def run_table(worker, table, shim, **env):
    """Status, the lines of output, and what the library tells."""
    with tempfile.TemporaryFile() as told:
        env = dict(os.environ, LD_PRELOAD=shim, TELL=str(told.fileno()), **env)
        done = subprocess.run([worker, table], stdin=subprocess.DEVNULL, stdout=subprocess.PIPE, env=env, pass_fds=(told.fileno(),))
        told.seek(0)
        return done.returncode, done.stdout.decode(errors="replace").splitlines(), told.read().decode()


def players_of(table):
    """The lines of a table by players; where it names no stories, each line has a player of its own."""
    with open(table, encoding="utf-8") as it:
        text = it.read()
    return [part.split("\n") for part in text.split("\n= ")[1:]] or [[line] for line in text.split("\n")]


def are_excused(table, told):
    """Whether cases differ because a call found no memory where that is an answer, too: they are of one player, and such a call is
    the first of them or stands before it."""
    differing = [line[len(table) + 2:].rpartition(": came ")[0] for line in told]
    for player in players_of(table):
        at, found = 0, []
        for line in differing:
            if line not in player[at:]:
                break
            found.append(player.index(line, at))
            at = found[-1] + 1
        if len(found) == len(differing) and any(line.startswith("short ") for line in player[:found[0] + 1]):
            return True
    return False


def is_held(worker, table, shim, n):
    """Whether no case fails where the n-th request is refused, but for want of memory."""
    status, lines, told = run_table(worker, table, shim, REFUSE=str(n))
    counts = HELD.fullmatch(lines[-1]) if lines else None
    holds = counts is not None and (len(lines) == 1 or are_excused(table, lines[:-1]))
    if not holds:
        print("request %d of %s: status %d, %s" % (n, os.path.basename(table), status, " | ".join(lines)[:300]), flush=True)
    return holds and status in (0, 1) and told == "x"


def wrong_requests(worker, table, shim, seconds, jobs):
    """How many requests of a table were refused, and how many of these runs were wrong."""
    begun = time.monotonic()
    status, lines, told = run_table(worker, table, shim, COUNT="1")
    took = time.monotonic() - begun
    if status != 0 or not told:
        print("%s with ample memory: status %d, %s" % (table, status, " | ".join(lines)[:300]))
        return 1, 1
    total = int(told)
    step = max(1, -(-total // max(1, int(seconds * jobs / took))))
    with ThreadPoolExecutor(jobs) as pool:
        held = list(pool.map(lambda n: is_held(worker, table, shim, n), range(1, total + 1, step)))
    print("%s: %d of %d requests refused, %d wrong" % (os.path.basename(table), len(held), total, held.count(False)), flush=True)
    return len(held), held.count(False)


def main():
    parser = argparse.ArgumentParser()
    parser.add_argument("--seconds", type=float, default=480)
    parser.add_argument("--program")
    parser.add_argument("tables", nargs="*")
    words = parser.parse_args()
    program = words.program or toolchain.player()
    workers = toolchain.table_programs()
    folders = [os.path.join(toolchain.TOP, "crates", name, "data") for name in workers]
    tables = words.tables or [os.path.join(data, name) for data in folders for name in sorted(os.listdir(data)) if not name.startswith("twins")]
    jobs = os.cpu_count() or 1
    with tempfile.TemporaryDirectory() as folder:
        shim = shim_in(folder)
        runs, wrong = wrong_stories(program, shim)
        print("stories: %d requests refused, %d wrong" % (runs, wrong), flush=True)
        for table in tables:
            more, failed = wrong_requests(workers[toolchain.program_of(table)], table, shim, words.seconds / len(tables), jobs)
            runs, wrong = runs + more, wrong + failed
    print("%d runs, %d wrong" % (runs, wrong))
    return 1 if wrong or not runs else 0


if __name__ == "__main__":
    sys.exit(main())
