"""Makes the values of the tables of `decode` and `encode` in PERFORMANCE.md, and the tree of their records, below the folder that is named:

python3 tools/measure/largest_values.py /tmp/values
valgrind --tool=callgrind crates/aidl/out/aidl encode 'int[]' /tmp/values/ints.json
valgrind --tool=callgrind crates/aidl/out/aidl encode 'byte[]' /tmp/values/bytes.json
valgrind --tool=callgrind crates/aidl/out/aidl encode String /tmp/values/text.json
valgrind --tool=callgrind crates/aidl/out/aidl encode --tree /tmp/values/tree 'm.P[]' /tmp/values/records.json
valgrind --tool=callgrind crates/aidl/out/aidl encode --tree /tmp/values/enum 'm.E[]' /tmp/values/names.json

What `encode` prints is the file for `decode` of the same type. The parcels of records `m.W` of 511 ints that leave out all fields, or all but the first:

/usr/bin/time -f %M crates/aidl/out/aidl decode --tree /tmp/values/wide 'm.W[]' /tmp/values/none.hex
/usr/bin/time -f %M crates/aidl/out/aidl decode --tree /tmp/values/wide 'm.W[]' /tmp/values/first.hex

And objects that leave them out, the parcel of which would be too long:

/usr/bin/time -f %M crates/aidl/out/aidl encode --tree /tmp/values/wide 'm.W[]' /tmp/values/none.json
/usr/bin/time -f %M crates/aidl/out/aidl encode --tree /tmp/values/wide 'm.W[]' /tmp/values/first.json
/usr/bin/time -f %M crates/aidl/out/aidl encode --tree /tmp/values/wide 'm.W[]' /tmp/values/last.json
"""

import json
import os
import struct
import sys


def put(path, text):
    os.makedirs(os.path.dirname(path), exist_ok=True)
    with open(path, "w", encoding="utf-8") as file:
        file.write(f"{text}\n")


def values(folder):
    compact = {"separators": (",", ":")}
    ints = [k * 2654435761 % 2**32 - 2**31 for k in range(262_143)]
    put(f"{folder}/ints.json", json.dumps([ints], **compact))
    small = [k * 2654435761 % 2**32 // 2**24 - 128 for k in range(1_048_572)]
    put(f"{folder}/bytes.json", json.dumps([small], **compact))
    put(f"{folder}/text.json", json.dumps(["a" * 500_000]))
    records = [{"a": k, "b": k * 1_000_003, "c": f"record {k}"} for k in range(20_000)]
    put(f"{folder}/records.json", json.dumps([records], **compact))
    put(f"{folder}/tree/m/P.aidl", "package m; parcelable P { int a; long b; String c; }")
    put(f"{folder}/names.json", json.dumps([[f"e{k * 7919 % 4000}" for k in range(100_000)]], **compact))
    names = ", ".join(f"e{k}" for k in range(4000))
    put(f"{folder}/enum/m/E.aidl", f'package m; @Backing(type="int") enum E {{ {names} }}')


def short_records(folder):
    put(f"{folder}/wide/m/W.aidl", f"package m; parcelable W {{ {' '.join(f'int f{k};' for k in range(511))} }}")
    for name, body, count in (("few", b"", 16_383), ("none", b"", 131_071), ("first", struct.pack("<i", 7), 87_381)):
        record = struct.pack("<ii", 1, 4 + len(body)) + body
        put(f"{folder}/{name}.hex", struct.pack("<i", count).hex() + record.hex() * count)
    for name, text, count in (("none", "{}", 131_000), ("first", '{"f0":1}', 40_000), ("last", '{"f510":1}', 40_000)):
        put(f"{folder}/{name}.json", f"[[{','.join([text] * count)}]]")


values(sys.argv[1])
short_records(sys.argv[1])
