"""Why a request has no answer: a status of HTTP, and a line."""
from __future__ import annotations

from typing import Dict, List, Optional


class Refusal(Exception):
    """What ends a request: the status, a line for people, more lines below it, and headers."""

    def __init__(
        self, status: int, text: str, more: Optional[List[str]] = None, headers: Optional[Dict[str, str]] = None
    ) -> None:
        super().__init__(text)
        self.status, self.text, self.more, self.headers = status, text, more or [], headers or {}
