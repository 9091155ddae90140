"""Whose request runs next: short requests go before long ones, and of two clients the one with less that runs."""

from __future__ import annotations

import collections
import contextlib
import threading
import time
from typing import Iterator, NamedTuple, Optional


class Turn(NamedTuple):
    """A request that waits for its turn; requests have numbers in the order in which they came."""

    is_long: bool
    client: str
    number: int


class Turns:
    """Lets so many requests run at once, and not more than `most_long` long ones, so that short ones find room."""

    def __init__(self, most: int, most_long: int) -> None:
        self.changed = threading.Condition()
        self.free, self.free_long, self.count = most, most_long, 0
        self.running: "collections.Counter[str]" = collections.Counter()
        self.waiting: "list[Turn]" = []

    def next(self) -> Optional[Turn]:
        """The request that runs next, if there is room for one."""
        fitting = [turn for turn in self.waiting if self.free > 0 and (not turn.is_long or self.free_long > 0)]
        return min(fitting, key=lambda turn: (turn.is_long, self.running[turn.client], turn.number), default=None)

    def wait(self, turn: Turn, seconds: float) -> bool:
        """Waits until the turn comes, or so many seconds; answers whether it came."""
        end = time.monotonic() + seconds
        self.waiting.append(turn)
        has_come = self.changed.wait_for(lambda: self.next() == turn, end - time.monotonic())
        self.waiting.remove(turn)
        return has_come

    def enter(self, turn: Turn, way: int) -> None:
        """Counts a request that begins to run (1) or has run (-1)."""
        self.free -= way
        self.free_long -= way * turn.is_long
        self.running[turn.client] += way
        if not self.running[turn.client]:
            del self.running[turn.client]
        self.changed.notify_all()

    @contextlib.contextmanager
    def turn(self, client: str, is_long: bool, seconds: float) -> "Iterator[bool]":
        """Runs its block when the turn comes; gives it False, and no turn, where none came in time."""
        with self.changed:
            self.count += 1
            turn = Turn(is_long, client, self.count)
            has_come = self.wait(turn, seconds)
            if has_come:
                self.enter(turn, 1)
        try:
            yield has_come
        finally:
            if has_come:
                with self.changed:
                    self.enter(turn, -1)
