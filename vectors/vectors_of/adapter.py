"""An adapter: a program of any language that answers each line with a line. It is started anew after it ended, or was too slow."""
from __future__ import annotations

import os
import selectors
import subprocess
import time
from typing import Optional

from .frame import Fault

NO_ANSWER, LATE, LONG = "no answer", "no answer in time", "no end of a line"
MOST_BYTES = 1 << 24


class Adapter:
    """One running adapter for one tree."""

    def __init__(self, words: list[str], seconds: float):
        self.words, self.seconds = words, seconds
        self.process: Optional[subprocess.Popen[bytes]] = None
        self.rest = b""

    def ask(self, line: str) -> tuple[Optional[str], str]:
        """Its answer, or None and the reason."""
        process = self.process if self.process and self.process.poll() is None else self.start()
        assert process.stdin and process.stdout
        try:
            process.stdin.write(line.encode("utf-8") + b"\n")
            process.stdin.flush()
        except OSError:
            self.end()
            return None, NO_ANSWER
        answer, why = self.line(process.stdout.fileno())
        if answer is None:
            self.end()
        return answer, why

    def line(self, stream: int) -> tuple[Optional[str], str]:
        """The next line that it prints."""
        until = time.monotonic() + self.seconds
        with selectors.DefaultSelector() as ready:
            ready.register(stream, selectors.EVENT_READ)
            while b"\n" not in self.rest:
                if len(self.rest) > MOST_BYTES:
                    return None, LONG
                if not ready.select(max(0.0, until - time.monotonic())):
                    return None, LATE
                more = os.read(stream, 65536)
                if not more:
                    return None, NO_ANSWER
                self.rest += more
        first, _, self.rest = self.rest.partition(b"\n")
        return first.decode("utf-8", "backslashreplace").rstrip("\r"), ""

    def start(self) -> subprocess.Popen[bytes]:
        """Starts it."""
        self.end()
        try:
            self.process = subprocess.Popen(self.words, stdin=subprocess.PIPE, stdout=subprocess.PIPE, stderr=subprocess.DEVNULL)
        except OSError as why:
            raise Fault(f"{self.words[0]} can't be started: {why}") from why
        return self.process

    def end(self) -> None:
        """Ends it."""
        process, self.process, self.rest = self.process, None, b""
        if process:
            process.kill()
            process.communicate()
