"""The archive: from the same commit and the same program it has the same bytes, wherever and whenever it is made."""

from __future__ import annotations

import gzip
import io
import tarfile

from .contents import Entry, sums
from .manuals import Stamp


def packed(entries: dict[str, Entry], stamp: Stamp, folder: str) -> bytes:
    """The bytes of the archive, whose files are below one folder."""
    entries = {**entries, "SHA256SUMS": Entry(sums(entries))}
    raw = io.BytesIO()
    with tarfile.open(fileobj=raw, mode="w", format=tarfile.USTAR_FORMAT) as archive:
        for name in sorted(entries):
            entry = tarfile.TarInfo(f"{folder}/{name}")
            entry.size, entry.mtime, entry.mode = len(entries[name].data), stamp.seconds, 0o755 if entries[name].runs else 0o644
            archive.addfile(entry, io.BytesIO(entries[name].data))
    return gzip.compress(raw.getvalue(), 9, mtime=0)
