#!/usr/bin/env python3
"""Writes the units of `cil sample SEED UNITS` into a folder, as sample-0.c and so on. Usage: bench/sample.py SEED UNITS FOLDER."""
import os
import sys

NODE = "struct node { struct node *next; struct list *owner; int value; };\n"
LIST = "struct list { struct node *head; int count; };\n"


def main():
    seed, units, folder = int(sys.argv[1]), int(sys.argv[2]), sys.argv[3]
    state = seed

    def draw():
        nonlocal state
        state = (state * 1103515245 + 12345) % 2**31
        return state // 65536

    for u in range(units):
        a, b = draw() % 50, draw() % 9 + 1
        lines = NODE + LIST if u % 2 == 0 else LIST + NODE
        lines += "extern struct list all;\n"
        lines += "static struct node cell = { 0, &all, %d };\n" % a
        lines += "static int twist(int x) { return x * %d + cell.value; }\n" % b
        lines += "int work_%d(int n) {\n" % u
        lines += "  struct node *p; int i, s = 0;\n"
        lines += "  cell.next = all.head; all.head = &cell; all.count++;\n"
        lines += "  for (i = 0; i < n; i++) s = (s + twist(i)) & 1023;\n"
        lines += "  for (p = all.head; p; p = p->next) s = (s + p->value) & 1023;\n"
        lines += "  return s;\n}\n"
        if u == 0:
            lines += "".join("int work_%d(int n);\n" % v for v in range(units))
            lines += "int putchar(int);\nstruct list all;\n"
            lines += "static void put(int v) { if (v > 9) put(v / 10); putchar('0' + v % 10); }\n"
            lines += "int main(void) {\n  int t = 0;\n"
            lines += "".join("  t = (t + work_%d(10)) & 1023; put(t); putchar('\\n');\n" % v for v in range(units))
            lines += "  return all.count;\n}\n"
        with open(os.path.join(folder, "sample-%d.c" % u), "w", encoding="ascii") as unit:
            unit.write(lines)


main()
