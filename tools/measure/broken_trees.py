"""Makes pairs of trees that break evolution rules, below the folder that is named, as KIND/N/old and KIND/N/new:

python3 tools/measure/broken_trees.py /tmp/broken
valgrind --tool=callgrind crates/aidl/out/aidl witness /tmp/broken/shown/1000/old /tmp/broken/shown/1000/new
valgrind --tool=callgrind crates/aidl/out/aidl judge /tmp/broken/shown/1000/old /tmp/broken/shown/1000/new
"""

import os
import sys

SIZES = (250, 500, 1000, 2000, 4090)
# A record has at most 511 fields, since its default has at most 512 nodes.
RECORD_SIZES = (64, 128, 256, 511)


def put(side, name, text):
    os.makedirs(f"{side}/m", exist_ok=True)
    with open(f"{side}/m/{name}.aidl", "w", encoding="utf-8") as file:
        file.write(f"package m; {text}\n")


def records(side, n, fields):
    for k in range(n):
        put(side, f"R{k}", f"parcelable R{k} {{ {fields} }}")


def interface(side, name, methods):
    put(side, name, f"interface {name} {{ {' '.join(methods)} }}")


def apart(side, n, fields):
    """Half as many records as N, each in a method of an interface of its own."""
    records(side, n // 2, fields)
    for k in range(n // 2):
        interface(side, f"I{k}", [f"void f(in R{k} r);"])


def together(side, n, fields):
    """N records, each in a method of one interface."""
    records(side, n, fields)
    interface(side, "I", (f"void f{k}(in R{k} r);" for k in range(n)))


def onto(side, n, fields):
    """One record that N methods of one interface take."""
    records(side, 1, fields)
    interface(side, "I", (f"void f{k}(in R0 r);" for k in range(n)))


def last(side, n, base):
    """One record of 510 fields and a last one, that N methods of one interface take."""
    onto(side, n, " ".join(f"int a{k};" for k in range(510)) + f" {base} z;")


def constants(side, n, value):
    """One record with N constants, and a method that takes it."""
    records(side, 1, "int a; " + " ".join(f"const int C{k} = {value};" for k in range(n)))
    interface(side, "I", ["void f(in R0 r);"])


def methods(side, n, form):
    """N methods of one interface."""
    interface(side, "I", (form.format(k) for k in range(n)))


def alternatives(side, n, name):
    """A union with N alternatives, and a method that takes it."""
    put(side, "U", f"union U {{ {' '.join(f'int {name}{k};' for k in range(n))} }}")
    interface(side, "I", ["void f(in U u);"])


def fields(side, n, name):
    """A record with N fields, and a method that takes it."""
    records(side, 1, " ".join(f"int {name}{k};" for k in range(n)))
    interface(side, "I", ["void f(in R0 r);"])


KINDS = {
    "alternatives": (alternatives, "a", "b"),
    "fields": (fields, "a", "b"),
    "hidden": (apart, "int a; String s;", "String s; int a;"),
    "shown": (apart, "int a; int b;", "int b; int a;"),
    "together": (together, "int a; int b;", "int b; int a;"),
    "onto": (onto, "int a; int b;", "int b; int a;"),
    "last": (last, "int", "long"),
    "constants": (constants, "1", "2"),
    "results": (methods, "int f{}();", "void f{}();"),
    "renamed": (methods, "void f{}();", "void g{}();"),
}


def main():
    for kind, (make, old, new) in KINDS.items():
        for n in RECORD_SIZES if make is fields else SIZES:
            make(f"{sys.argv[1]}/{kind}/{n}/old", n, old)
            make(f"{sys.argv[1]}/{kind}/{n}/new", n, new)


main()
