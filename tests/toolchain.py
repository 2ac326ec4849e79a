"""Where the toolchain is found, and the programs that it builds."""
import os
import shutil
import subprocess
import sys

TOP = os.path.dirname(os.path.dirname(os.path.abspath(__file__)))


def rt():
    """The path of rt, which the variable RT names, or which stands on the path. Ends with status 2 and one line where there
    is neither."""
    found = shutil.which(os.environ.get("RT") or "rt")
    if not found:
        print("%s: no toolchain: put rt on the path, or name it by the variable RT" % os.path.basename(sys.argv[0]), file=sys.stderr)
        sys.exit(2)
    return os.path.realpath(found)


def program(crate, words=(), lines=b""):
    """The path of a crate's program, which `start` proves and builds first where it is not up to date, and then runs with these
    words and lines. Ends with status 1 where it cannot be built."""
    built = os.path.join(TOP, "out", crate, crate)
    subprocess.run([os.path.join(TOP, "start"), crate, *words], cwd=os.path.join(TOP, "crates", crate), input=lines,
                   stdout=subprocess.DEVNULL)
    if not os.path.exists(built):
        sys.exit("%s: %s is not built" % (os.path.basename(sys.argv[0]), crate))
    return built


def player():
    """The path of the program that plays stories, built likewise."""
    return program("inkplay", lines=b'{"inkVersion":21,"root":["done",null]}\n')


# Which program runs the tables whose names begin so (docs/TABLES.md).
OF_TABLES = {"boxes": "playtest", "marks": "marktest", "parts": "marktest", "players": "playtest", "sessions": "playtest", "twins": "twintest"}


def program_of(table):
    """The program that runs a table."""
    name = os.path.basename(table)
    return next((of for beginning, of in OF_TABLES.items() if name.startswith(beginning)), "inktest")


def table_programs():
    """The path of each program that runs tables, by its name, built."""
    words = {"inktest": "data/operators.txt", "twintest": "data/twins_random.txt", "marktest": "data/marks.txt", "playtest": "data/boxes.txt"}
    return {name: program(name, [table]) for name, table in words.items()}
