"""The votes of a room about programs, before the verdict is shown. They are kept in memory alone."""

from __future__ import annotations

import collections
import hashlib
import re
import threading
from typing import Optional

VOTES = ("accepted", "refused", "unsure")
VOTER = re.compile(r"[0-9a-f]{16}", re.ASCII)
MOST_SUBJECTS, MOST_VOTERS = 500, 1_000
TOKEN = re.compile(r"\w+|:=|\S")


def subject_of(*texts: str) -> bytes:
    """What is voted on: texts that differ only in comments and blanks are one."""
    read = [TOKEN.findall(re.sub(r"#[^\n]*", "", text)) for text in texts]
    return hashlib.sha256(repr(read).encode()).digest()


class Votes:
    """The last vote of each voter, for each of the latest subjects."""

    def __init__(self) -> None:
        self.lock = threading.Lock()
        self.subjects: "collections.OrderedDict[bytes, dict[str, str]]" = collections.OrderedDict()

    def count(self, subject: bytes, voter: str, vote: str) -> "dict[str, int]":
        """Takes a vote, if one is given, and answers how many there are of each kind."""
        with self.lock:
            cast: Optional["dict[str, str]"] = self.subjects.get(subject)
            if vote and cast is None:
                cast = self.subjects[subject] = {}
                while len(self.subjects) > MOST_SUBJECTS:
                    self.subjects.popitem(last=False)
            if vote and cast is not None and (voter in cast or len(cast) < MOST_VOTERS):
                cast[voter] = vote
                self.subjects.move_to_end(subject)
            kinds = list((cast or {}).values())
        return {kind: kinds.count(kind) for kind in VOTES}
