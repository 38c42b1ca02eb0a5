"""Makes the trees of the table "The largest trees of a kind" of PERFORMANCE.md, whole and half, below the folder that is named:

python3 tools/measure/largest_trees.py /tmp/trees
valgrind --tool=callgrind crates/aidl/out/aidl check /tmp/trees/fields
"""

import os
import sys


def put(tree, name, text, package="package m; "):
    os.makedirs(f"{tree}/m", exist_ok=True)
    with open(f"{tree}/m/{name}.aidl", "w", encoding="utf-8") as file:
        file.write(f"{package}{text}\n")


def parcelable(name, members):
    return f"parcelable {name} {{ {''.join(members)}}}"


def fields(tree, n):
    put(tree, "F", parcelable("F", (parcelable(f"P{k}", (f"int a{i};" for i in range(n))) for k in range(60))))


def files(tree, n):
    for k in range(n):
        put(tree, f"C{k}", parcelable(f"C{k}", [f"const int C = {k};"]))


def constants(tree, n, each=3900):
    def next_name(i):
        if i + 1 == n:
            return "1"
        return f"P{(i + 1) // each}.c{i + 1}" if (i + 1) % each == 0 else f"c{i + 1}"

    def part(k):
        return parcelable(f"P{k // each}", (f"const int c{i}={next_name(i)};" for i in range(k, min(n, k + each))))

    put(tree, "C", parcelable("C", (part(k) for k in range(0, n, each))))


def enumerators(tree, n):
    put(tree, "E", '@Backing(type="int") enum E { %s }' % ",".join(f"e{i}" for i in range(n)))


def parcelables(tree, n, each=4000):
    def field(i, k):
        if i + 1 == n:
            return []
        return [f"@nullable {'' if i + 1 < k + each else f'm.T{k + each}.'}P{i + 1} a;"]

    for k in range(0, n, each):
        put(tree, f"T{k}", parcelable(f"T{k}", (parcelable(f"P{i}", field(i, k)) for i in range(k, min(n, k + each)))))


def declarations(tree, n):
    each = n // 4
    for k in range(4):
        put(tree, f"T{k}", parcelable(f"T{k}", (f"parcelable P{i} {{}}" for i in range(k * each, (k + 1) * each - 1))))


def copies(tree, n):
    put(tree, "P", "import m.Q;" * n + "parcelable P {}", "package m;")
    put(tree, "Q", "parcelable Q {}")


def imports(tree, n):
    put(tree, "P", "".join(f"import a{i}.B;" for i in range(n)) + "parcelable P {}")


def inner(tree, n):
    put(tree, "O", parcelable("O", (parcelable(f"P{k}", (f"int a{i}; " for i in range(n))) for k in range(64))))


def nested(tree, n):
    names = [chr(ord("A") + level) + "a" * (n - 1) for level in range(15)]
    put(tree, "X", "".join(f"parcelable {name} {{ " for name in names) + "} " * 15)


def parts(tree, n):
    put(tree, "P", parcelable("P", (f"a{'.a' * 99} f{i};" for i in range(n))))


def unknown_behind_imports(tree, n):
    put(tree, "P", "".join(f"import a{i}.B;" for i in range(n)) + parcelable("P", (f"B.c{i} f{i};" for i in range(n // 2))))


def declared_behind_imports(tree, n):
    for i in range(n):
        put(f"{tree}/p{i}", "B", parcelable("B", [f"parcelable C{i} {{}}"]), f"package p{i}.m; ")
    put(tree, "P", "".join(f"import p{i}.m.B;" for i in range(n)) + parcelable("P", (f"B.C{i} f{i};" for i in range(n))))


def one_name_behind_imports(tree, n):
    put(tree, "T", parcelable("T", (f"parcelable A{i} {{ parcelable B {{}} }}" for i in range(n))))
    put(tree, "P", "".join(f"import a{i}.B;" for i in range(n)) + parcelable("P", (f"B f{i};" for i in range(n))))


def two_imports_each(tree, n):
    put(tree, "T", parcelable("T", (f"parcelable A{i} {{ parcelable B {{}} }}" for i in range(n))))
    for i in range(n):
        put(tree, f"P{i}", f"import a.B; import b.B; parcelable P{i} {{ B b; }}")


def joined(tree, n):
    names = [f"C{j}" for j in range(n)]
    for i in range(n):
        put(f"{tree}/q{i}", "B", parcelable("B", (f"parcelable {c} {{}}" for c in names)), f"package q{i}.m; ")
        used = "".join(f"import a{i}.p{k}.B;" for k in range(n)) + parcelable(f"P{i}", (f"B.{c} f{c};" for c in names))
        put(tree, f"P{i}", used)


KINDS = [
    (fields, 490),
    (files, 4096),
    (constants, 11700),
    (enumerators, 4095),
    (parcelables, 16000),
    (declarations, 16384),
    (copies, 23000),
    (imports, 15000),
    (inner, 400),
    (nested, 10000),
    (parts, 1200),
    (unknown_behind_imports, 8000),
    (declared_behind_imports, 4000),
    (one_name_behind_imports, 4000),
    (two_imports_each, 4000),
    (joined, 120),
]

for make, most in KINDS:
    make(f"{sys.argv[1]}/{make.__name__}", most)
    make(f"{sys.argv[1]}/{make.__name__}_half", most // 2)
