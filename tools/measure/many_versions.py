"""Makes an API of many versions with the same files, each with its `.hash` by recipe two, to measure commands on (docs/PERFORMANCE.md).

python3 tools/measure/many_versions.py TREE API COUNT      API is a folder that isn't there yet
"""

import hashlib
import pathlib
import sys


def main():
    tree, api, count = pathlib.Path(sys.argv[1]), pathlib.Path(sys.argv[2]), int(sys.argv[3])
    files = {str(it.relative_to(tree)).encode(): it.read_bytes() for it in tree.rglob("*.aidl")}
    lines = b"".join(b"%s  ./%s\n" % (hashlib.sha1(files[path]).hexdigest().encode(), path) for path in sorted(files))
    for number in range(1, count + 1):
        folder = api / str(number)
        for path, content in files.items():
            at = folder / path.decode()
            at.parent.mkdir(parents=True, exist_ok=True)
            at.write_bytes(content)
        (folder / ".hash").write_text(hashlib.sha1(lines + b"%d\n" % number).hexdigest() + "\n")


if __name__ == "__main__":
    main()
