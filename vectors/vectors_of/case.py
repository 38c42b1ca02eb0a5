"""A case: bytes with their types, before they are read. Its id depends on nothing but what the case is, so it stays where others are added."""
from __future__ import annotations

import hashlib
from dataclasses import dataclass, field
from typing import Any, Optional


@dataclass(frozen=True)
class Call:
    """The method and the transaction code that a request or a reply is of."""

    interface: str
    method: str
    code: int
    client: str

    def column(self) -> dict[str, Any]:
        return {"interface": self.interface, "method": self.method, "code": self.code, "client": self.client}


@dataclass(frozen=True)
class Case:
    """Bytes, with the tree and the types that they are read by. `more` has the columns that no reading gives."""

    kind: str
    tree: str
    types: str
    data: bytes
    why: str
    cause: str
    call: Optional[Call] = None
    is_request: bool = False
    is_damaged: bool = False
    more: dict[str, Any] = field(default_factory=dict)

    @property
    def id(self) -> str:
        """The kind, and ten digits of the SHA-256 of what is read."""
        call = f"{self.call.interface} {self.call.code} {self.is_request}" if self.call else ""
        text = "\n".join([self.tree, self.types, self.data.hex(), call])
        return f"{self.kind}-{hashlib.sha256(text.encode()).hexdigest()[:10]}"

    @property
    def bytes_read(self) -> tuple[str, str, bytes, Optional[Call], bool]:
        """What makes two cases the same."""
        return self.tree, self.types, self.data, self.call, self.is_request
