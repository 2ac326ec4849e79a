#!/usr/bin/env python3
"""Where each rule of docs/ stands: its sentence, its definition, the contracts that carry it, their proofs, cases, and wrong bodies.

    tests/rules.py [NAME..]      all rules, or those of these names, and of these what wrong bodies change; and the rules that have
                                 all words of one of these in their name or sentence

A rule is a sentence, or a row of a table, of a page of docs/, with its name behind it in brackets: 'Empty lines do not pile
up. [empty-line]'. tests/rules/PAGE.txt has a paragraph for each rule of a page, in the order of the page: the name, and then
such lines, the names in one parted by ', ', but for cases, which have a line each:

    definition FILE.NAME           of crates/ink_model/specs/FILE.antt; CRATE/FILE.NAME of another crate
    contract CRATE FUNCTION CLAUSE   a function or TYPE::FUNCTION of crates/CRATE/src; without CLAUSE the clause has no name; the
                                   nearest function comes first, and what the machine or the player promises last
    case TABLE: TEXT               of crates/*/data/TABLE.txt, or long/NAME of tests/long/NAME.txt. TEXT is the name of a session,
                                   the comment above some cases, or the question of one
    case FILE.py: TEXT             the line of tests/FILE.py with this text
    case example: FILE.NAME        an example of specs/, which the prover computes
    case CRATE: TEXT               the first such line that the program of a crate prints (crates/CRATE/stdout)
    edit CRATE/NAME                crates/CRATE/must-fail/NAME.edit, or of more-edits

Prints for each rule where these stand, as FILE:LINE, with a contract the files of its proof, and of a wrong body the code that it
changes. A rule that lacks one of the four is a gap. The status is 0 only where each rule has all four, each name leads to one
place, and pages and tables have the same rules in the same order.
"""
import functools
import glob
import os
import re
import sys

TOP = os.path.dirname(os.path.dirname(os.path.abspath(__file__)))
# a name in brackets behind a sentence or in a row; a link's text has a parenthesis behind it
MARK = re.compile(r"(?<=[\w.)\]\"`:;,?!] )\[([a-z0-9]+(?:-[a-z0-9]+)*)\](?![(:])")
FUNCTION = re.compile(r" *(?:pub(?:\([a-z]+\))? )?(?:const )?fn (\w+)")
OWNER = re.compile(r"(?:pub(?:\([a-z]+\))? )?(?:impl|trait)(?:<.*?>+)? (?:.* for )?(\w+)")


class Wrong(Exception):
    """A name that leads nowhere, or to more than one place."""


@functools.cache
def lines_of(path):
    """The lines of a file; none where there is no such file."""
    try:
        with open(os.path.join(TOP, path), encoding="utf-8") as it:
            return it.read().split("\n")
    except OSError:
        raise Wrong("there is no %s" % path) from None


def only(path, found, what):
    """FILE:LINE of the one line that was found."""
    if len(found) != 1:
        raise Wrong("%s stands %s in %s" % (what, "%d times" % len(found) if found else "nowhere", path))
    return "%s:%d" % (path, found[0])


def definition(name, form=r"^ *(?:abbrev |unfoldable )?pub (?:data |record )?%s(?![\w'])"):
    """Where a definition stands."""
    file, _, word = name.rpartition(".")
    crate, _, rest = file.partition("/")
    path = "crates/%s/specs/%s.antt" % ((crate, rest) if os.path.isdir(os.path.join(TOP, "crates", crate)) else ("ink_model", file))
    head = re.compile(form % re.escape(word))
    return only(path, [at for at, line in enumerate(lines_of(path), 1) if head.match(line)], word)


@functools.cache
def clauses_of(crate):
    """FILE:LINE of each line of a function that begins with 'ensures', with the owner, the function and the line."""
    clauses = []
    for path in sorted(glob.glob(os.path.join(TOP, "crates", crate, "src", "**", "*.rt"), recursive=True)):
        path = os.path.relpath(path, TOP)
        owner = function = ""
        for at, line in enumerate(lines_of(path), 1):
            head, of = FUNCTION.match(line), OWNER.match(line)
            owner = of[1] if of else "" if line == "}" else owner
            function = head[1] if head else function
            if line.lstrip().startswith("ensures "):
                clauses.append(("%s:%d" % (path, at), owner, function, line.strip()))
    return clauses


def contract(name):
    """Where a clause of a function's contract stands."""
    words = name.split()
    if len(words) not in (2, 3):
        raise Wrong("a contract is CRATE FUNCTION, or CRATE FUNCTION CLAUSE")
    owner, _, function = words[1].rpartition("::")
    clause = "ensures %s{" % (words[2] + " " if len(words) == 3 else "")
    found = [it[0] for it in clauses_of(words[0]) if it[1:3] == (owner, function) and it[3].startswith(clause)]
    if len(found) != 1:
        raise Wrong("the clause stands %s in crates/%s/src" % ("%d times" % len(found) if found else "nowhere", words[0]))
    return found[0]


def proof(name):
    """The files of the proof of a contract's function, as far as it is written: crates/CRATE/proofs/MODULE/FUNCTION or
    MODULE/TYPE/FUNCTION, by the module in which the type stands. What no file has, the prover finds."""
    crate, _, function = name.partition(" ")
    owner, _, last = function.split(" ")[0].rpartition("::")
    paths = glob.glob(os.path.join(TOP, "crates", crate, "proofs", "**", last, "*.antt"), recursive=True)
    above = [(path, os.path.basename(os.path.dirname(os.path.dirname(path)))) for path in paths]
    found = sorted(path for path, folder in above if (folder == owner if owner else folder[:1].islower()))
    return ", ".join(os.path.relpath(path, TOP) for path in found) or "the prover finds it"


def case(name):
    """Where a case stands, or the comment that says what some cases show."""
    table, _, text = name.partition(": ")
    if table == "example":
        return definition(text, r"^%s :")
    if table.endswith(".py"):
        path = "tests/" + table
        return only(path, [at for at, line in enumerate(lines_of(path), 1) if text in line], "the case")
    if os.path.isfile(os.path.join(TOP, "crates", table, "stdout")):
        path = "crates/%s/stdout" % table
        return only(path, [at for at, line in enumerate(lines_of(path), 1) if text in line][:1], "the case")
    if table.startswith("long/"):
        paths = ["tests/%s.txt" % table]
    else:
        paths = [os.path.relpath(it, TOP) for it in glob.glob(os.path.join(TOP, "crates", "*", "data", table + ".txt"))]
    if len(paths) != 1 or not text:
        raise Wrong("there is no table %s" % table)
    return only(paths[0], [at for at, line in enumerate(lines_of(paths[0]), 1) if line in ("= " + text, "// " + text) or line.startswith(text + " => ")], "the case")


def lines_of_edit(name):
    """The lines of a wrong body."""
    crate, _, file = name.partition("/")
    paths = ["crates/%s/%s/%s.edit" % (crate, folder, file) for folder in ("must-fail", "more-edits")]
    found = [path for path in paths if os.path.isfile(os.path.join(TOP, path))]
    if len(found) != 1:
        raise Wrong("there is no wrong body of this name")
    return lines_of(found[0])


def edit(name):
    """Where the code stands that a wrong body changes first."""
    crate, lines = name.partition("/")[0], lines_of_edit(name)
    source = next(line[len("file: "):] for line in lines if line.startswith("file: "))
    old = next(line[len("old: "):] for line in lines if line.startswith("old: "))
    path = "crates/%s/%s" % (crate, source)
    return only(path, [at for at, line in enumerate(lines_of(path), 1) if old in line], "what it changes")


PLACES = {"definition": definition, "contract": contract, "case": case, "edit": edit}


def sentence(before, head):
    """The last sentence of a text, with the one before it where it begins with a word that needs one. What stands in a list comes
    behind the sentence that heads the list."""
    sentences = re.split(r"(?<=[.:?]) (?=[A-Z`_])", MARK.sub("", before).replace("  ", " ").strip(" -*"))
    leans = re.match(r"(It|Its|That|This|They|Their|These|Those|So|One|Such|Then|There|Else|Both|Each|After|None)\b", sentences[-1])
    return " ".join([head] * bool(head) + sentences[-2 if leans and not head else -1:])


def rules_of_page(path):
    """The rules that a page names: each name with FILE:LINE and the sentence or row."""
    rules, head = [], ""
    for at, line in enumerate(lines_of(path), 1):
        if line and not line.startswith("- "):
            head = "" if line.startswith(("#", "|", "  ")) or line.endswith((".", "]")) else sentence(line, "")
        for it in MARK.finditer(line):
            in_list = head if line.startswith("- ") else ""
            text = MARK.sub("", line.strip("| ")) if line.startswith("|") else sentence(line[:it.start()], in_list)
            rules.append((it[1], "%s:%d" % (path, at), text.strip()))
    return rules


def rules_of_table(path):
    """The rules of a table: each name with FILE:LINE and pairs of a kind and a name."""
    rules = []
    for at, line in enumerate(lines_of(path), 1):
        kind, _, names = line.strip().partition(" ")
        if line.startswith("    ") and rules:
            rules[-1][2].extend((kind, name) for name in ([names] if kind == "case" else names.split(", ")))
        elif line.strip() and not line.startswith("//"):
            rules.append((line.strip(), "%s:%d" % (path, at), []))
    return rules


def show(rule, names, whole):
    """Prints where the names of a rule lead, and the whole of its wrong bodies where it is asked for. What it lacks, and what is
    wrong with its names."""
    name, where, text = rule
    wrong = []
    print("%s: %s\n    %-10s %s" % (name, text, "page", where))
    for kind, of in names:
        try:
            if kind not in PLACES:
                raise Wrong("a line begins with none of %s" % ", ".join(PLACES))
            print("    %-10s %s  %s" % (kind, PLACES[kind](of), of))
            if kind == "contract":
                print("    %-10s %s" % ("proof", proof(of)))
            for line in lines_of_edit(of) if whole and kind == "edit" else []:
                sign, _, text = line.partition(":")
                if sign in ("old", "new"):
                    print("        %s %s" % ("-" if sign == "old" else "+", text.strip()))
        except Wrong as why:
            wrong.append("%s: %s %s: %s" % (name, kind, of, why))
    return ["%s has no %s" % (name, kind) for kind in PLACES if kind not in [it for it, _ in names]], wrong


def is_about(rule, words):
    """Whether the name and the sentence of a rule have all the words."""
    return all(word in (rule[0] + " " + rule[2]).lower() for word in words.lower().split())


def main():
    wanted = sys.argv[1:]
    rules, gaps, wrong, shown = {}, [], [], 0
    pages = {os.path.basename(it)[:-len(".md")] for it in glob.glob(os.path.join(TOP, "docs", "*.md"))}
    tables = {os.path.basename(it)[:-len(".txt")] for it in glob.glob(os.path.join(TOP, "tests", "rules", "*.txt"))}
    wrong += ["tests/rules/%s.txt: there is no docs/%s.md" % (it, it) for it in sorted(tables - pages)]
    rules_on = {page: rules_of_page("docs/%s.md" % page) for page in sorted(pages)}
    for page, named in rules_on.items():
        told = rules_of_table("tests/rules/%s.txt" % page) if page in tables else []
        if [it[0] for it in named] != [it[0] for it in told]:
            at = next((n for n, (one, other) in enumerate(zip(named, told)) if one[0] != other[0]), min(len(named), len(told)))
            wrong.append("docs/%s.md and tests/rules/%s.txt have not the same rules, from %s on" % (page, page, (named + told)[at][0]))
        names_of = {it[0]: it[2] for it in told}
        for rule in named:
            if rule[0] in rules:
                wrong.append("%s: [%s] stands at %s too" % (rule[1], rule[0], rules[rule[0]]))
            rules[rule[0]] = rule[1]
            if not wanted or any(is_about(rule, words) for words in wanted):
                lacking, false = show(rule, names_of.get(rule[0], []), bool(wanted))
                shown += 1
                gaps, wrong = gaps + lacking, wrong + false
    if wanted and not shown:
        wrong.append("there is no rule about %s; a part of a word finds more, as hid for hides and hidden" % ", ".join(wanted))
    for it in gaps + wrong:
        print(it)
    print("%d rules, gaps: %d, wrong: %d" % (len(rules), len(gaps), len(wrong)))
    return 1 if gaps or wrong else 0


if __name__ == "__main__":
    try:
        status = main()
        sys.stdout.flush()
    except BrokenPipeError:
        # Whoever reads has enough of it, as head does.
        os.dup2(os.open(os.devnull, os.O_WRONLY), 1)
        status = 141
    sys.exit(status)
