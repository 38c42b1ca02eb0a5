"""The one table of rules, `rules.json`: what is said of each line of `check` and `judge`, from which `lines`, the report and the checks of the pages read."""

from __future__ import annotations

import functools
import json
import pathlib
from dataclasses import dataclass

TABLE = pathlib.Path(__file__).with_name("rules.json")


@dataclass(frozen=True)
class Rule:
    """A rule: its code as it is printed, a phrase, the reasons and what to do instead as its rows of the page have them, the page and the section;
    of a rule of evolution also whom a break hurts: `old clients`; `old senders`, whose parcels a new version reads; `both`, old and new clients; or
    `builds`, where no byte changes and only code that was compiled with the old text."""

    code: str
    phrase: str
    reasons: tuple[str, ...]
    insteads: tuple[str, ...]
    page: str
    title: str
    hurt: str = ""

    @property
    def reason(self) -> str:
        return "; or: ".join(self.reasons)

    @property
    def instead(self) -> str:
        return "; or: ".join(self.insteads)


@functools.lru_cache(maxsize=None)
def rules() -> dict[str, Rule]:
    """All rules by their codes: `lex 1` to `lex 4`, `syntax`, E1 to E24, C1 to C19."""
    table = json.loads(TABLE.read_text(encoding="utf-8"))
    return {code: Rule(code, row["phrase"], tuple(row["reason"]), tuple(row["instead"]), row["page"], row["title"], row.get("hurt", "")) for code, row in table.items()}


def phrase(code: str) -> str:
    """The phrase of a rule, or the empty text of one that isn't in the table."""
    found = rules().get(code)
    return found.phrase if found else ""
