#!/usr/bin/env python3
"""Writes a preprocessed C11 unit of at most so many MiB: a piece, as often as it fits, each time under other names.

Usage: bench/unit.py MIB [KIND] >FILE. The unit is the same each time, and gcc accepts it. KIND says what the piece is:
mixed (where none is given): the units of bench/units, with the line markers of gcc's preprocessor;
initialisers: arrays of 4,096 numbers, of 512 structs with strings, and of designated elements;
declarations: types, objects and functions, 20,000 declarations to the MiB.
Each name that a unit of bench/units declares at file scope, and each enumerator, begins with the unit's own name and an underscore.
"""
import os
import re
import sys

UNITS = ("clock", "device", "table", "calc", "list", "text", "main")
LIBRARY = "/usr/include/library.h"


def read(folder, name):
    with open(os.path.join(folder, name), encoding="ascii") as f:
        return f.read()


def heading(library):
    return f'# 0 "unit.c"\n# 0 "<built-in>"\n# 0 "<command-line>"\n# 1 "unit.c"\n# 1 "{LIBRARY}" 1 3 4\n{library}# 2 "unit.c" 2\n'


def renamed(text, number):
    """The text with the number behind each of the units' own names."""
    return re.sub(r"\b((?:" + "|".join(UNITS) + r")_\w+)", rf"\g<1>_{number}", text)


def repeated(sources, number):
    """The units once more, as one header after the other, between the markers that say so."""
    parts = []
    for line, (name, text) in enumerate(sources, 2):
        parts.append(f'# {line} "unit.c"\n# 1 "source/{name}_{number}.c" 1\n{renamed(text, number)}')
    return "".join(parts) + f'# {len(sources) + 2} "unit.c" 2\n'


def mixed():
    """The beginning, and the piece of a number."""
    folder = os.path.join(os.path.dirname(os.path.abspath(__file__)), "units")
    sources = [(name, read(folder, name + ".c")) for name in UNITS]
    return heading(read(folder, "library.h")), lambda number: repeated(sources, number)


def initialised(number):
    """Arrays with large initialisers."""
    numbers = ", ".join(str((number + i) * 7919 % 100003) for i in range(4096))
    rows = ", ".join(f'{{ {i}, {{ {i % 7}, -{i} }}, "row {i}" }}' for i in range(512))
    chosen = ", ".join(f"[{1023 - i}] = {i} + 1" for i in range(0, 1024, 3))
    return (
        f"int numbers_{number}[] = {{ {numbers} }};\n"
        f"static const struct row rows_{number}[512] = {{ {rows} }};\n"
        f"const struct row *first_{number} = rows_{number} + 1;\n"
        f"long chosen_{number}[1024] = {{ {chosen} }};\n"
    )


def initialisers():
    return "struct row { int key; short pair[2]; const char *name; };\n", initialised


def declared(number):
    """Fifteen declarations."""
    n = f"{number:05}"
    return (
        f"struct record_{n} {{ int key; long size; struct record_{n} *next; char name[16]; }};\n"
        f"typedef struct record_{n} *link_{n};\n"
        f"enum kind_{n} {{ none_{n}, some_{n} = 4, all_{n} }};\n"
        f"extern struct record_{n} first_{n}, last_{n};\n"
        f"extern enum kind_{n} kind_of_{n}(const struct record_{n} *r);\n"
        f"int count_{n}(link_{n} from, link_{n} to);\n"
        f"long size_of_{n}(const char *text, unsigned long n);\n"
        f"static unsigned char bytes_{n}[all_{n} * 8];\n"
        f"int (*compare_{n})(const void *, const void *);\n"
        f"void *made_{n}(unsigned long n, ...);\n"
        f"extern const char *const names_{n}[];\n"
        f"int total_{n}, most_{n};\n"
        f"void put_{n}(link_{n} r, int key);\n"
        f"link_{n} found_{n}(int key);\n"
        f"extern int x_{n};\n"
    )


def declarations():
    return "", declared


KINDS = {"mixed": mixed, "initialisers": initialisers, "declarations": declarations}


def unit(size, kind):
    beginning, piece = KINDS[kind]()
    parts = [beginning]
    room = size - len(parts[0])
    number = 0
    while len(part := piece(number)) <= room:
        parts.append(part)
        room -= len(part)
        number += 1
    return "".join(parts)


if __name__ == "__main__":
    sys.stdout.write(unit(int(sys.argv[1]) << 20, sys.argv[2] if len(sys.argv) > 2 else "mixed"))
