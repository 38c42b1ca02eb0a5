"""What is being done, on standard error, where it takes more than two seconds."""

from __future__ import annotations

import sys
import time

PATIENCE = 2.0  # seconds


class Progress:
    """Says what is done from now on, once the patience is over and not more often."""

    def __init__(self, name: str):
        self.name, self.last = name, time.monotonic()

    def say(self, what: str) -> None:
        now = time.monotonic()
        if now - self.last >= PATIENCE and sys.stderr is not None:
            self.last = now
            print(f"{self.name}: {what}", file=sys.stderr, flush=True)
