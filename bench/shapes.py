#!/usr/bin/env python3
"""Writes a unit of C11 of at most so many MiB of one shape alone, which gcc accepts: functions with long expressions, with nested calls or
with long chains of `else if`, objects with initialisers, or functions with such.

Usage: bench/shapes.py SHAPE MIB >FILE, SHAPE one of chains, calls, branches, images, locals. The unit is the same each time.
"""
import sys


def chain(n):
    return f"int f{n}(void) {{ return " + "+".join("abcd"[i % 4] for i in range(480)) + "; }\n"


def calls(n):
    return f"int f{n}(void) {{ return " + "g(" * 120 + "a" + ")" * 120 + "; }\n"


def branches(n):
    return f"void f{n}(void) {{ " + " else ".join(f"if (a == {i}) b = {i};" for i in range(120)) + " }\n"


def image(n):
    return f"int t{n}[] = {{ " + ", ".join(str((i * 7 + n) % 1000) for i in range(2000)) + " };\n"


def local(n):
    return f"void f{n}(void) {{ int t[] = {{ " + ", ".join(f"a + {i % 100}" for i in range(400)) + " }; b = t[a]; }\n"


SHAPES = {"chains": chain, "calls": calls, "branches": branches, "images": image, "locals": local}


def unit(shape, size):
    parts = ["int a, b, c, d, g(int);\n"]
    room = size - len(parts[0])
    number = 0
    while len(part := SHAPES[shape](number)) <= room:
        parts.append(part)
        room -= len(part)
        number += 1
    return "".join(parts)


if __name__ == "__main__":
    sys.stdout.write(unit(sys.argv[1], int(sys.argv[2]) << 20))
