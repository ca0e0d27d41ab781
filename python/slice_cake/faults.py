"""What a command raises where its question couldn't be answered."""
from __future__ import annotations

from dataclasses import dataclass
from typing import Any, Dict, Optional

from . import words


class SliceError(Exception):
    """Whatever keeps a command from its answer."""


class SliceWarning(UserWarning):
    """What the program says beside its answer, as that it was made without its proofs."""


class ProgramNotFound(SliceError):
    """There is no program: neither in the variable SLICE, nor on the path, nor in a clone."""


class ProgramFailed(SliceError):
    """The program didn't come to an end that it tells of: it was killed, or its output broke off or isn't Slice's."""


@dataclass(frozen=True)
class Place:
    """A place in a protocol's text.

    offset: its byte, from 0. line and column: both from 1, the column in characters. text: the line that holds it.
    """

    offset: int
    line: int
    column: int
    text: str

    @classmethod
    def at(cls, text: bytes, offset: int) -> Place:
        """The place of that byte of the text."""
        before = text[:offset]
        begin = before.rfind(b"\n") + 1
        whole = text[begin:].split(b"\n", 1)[0].decode(errors="replace")
        column = len(before[begin:].decode(errors="replace")) + 1
        return cls(offset, before.count(b"\n") + 1, column, whole)

    def pointed(self) -> str:
        """The line, and a caret below this place. Of a long line, the part around it."""
        begin = max(0, self.column - 50)
        blank = "".join(sign if sign == "\t" else " " for sign in self.text[begin:self.column - 1])
        return f"    {self.text[begin:begin + 90]}\n    {blank}^"


class Refusal(SliceError):
    """The program refused.

    name: the refusal's name, such as `UsedTwice` (docs/REPORTS.md has them all). fields: the other keys of its line.
    status: the exit status, from 2 on. place: where in the protocol's text, or None; first: of a piece that is used
    twice, the place of the first use, or None.
    """

    def __init__(self, line: Dict[str, Any], status: int, text: bytes) -> None:
        self.name: str = line["refused"]
        self.fields: Dict[str, Any] = {key: value for key, value in line.items() if key != "refused"}
        self.status = status
        self.place: Optional[Place] = Place.at(text, line["at"]) if "at" in line else None
        self.first: Optional[Place] = Place.at(text, line["first"]) if "first" in line else None
        told = f"{words.meaning(self.name, self.fields, len(text))} ({self.name})"
        if self.place:
            told = f"line {self.place.line}, column {self.place.column}: {told}\n{self.place.pointed()}"
        if self.first:
            told += f"\nline {self.first.line}, column {self.first.column}: {words.said('places', 'first')}"
            told += f"\n{self.first.pointed()}"
        super().__init__(told)

    @property
    def line(self) -> Optional[int]:
        """The line of the protocol's text, from 1, where the program gives a place."""
        return self.place.line if self.place else None

    @property
    def column(self) -> Optional[int]:
        """The column in that line, in characters from 1."""
        return self.place.column if self.place else None


class ProtocolFault(Refusal):
    """The text is no program, or it breaks a rule: line and column say where."""


class InputFault(Refusal):
    """What was given beside the protocol has a fault: valuations, answers to cuts, or the length of a file."""


class LimitReached(Refusal):
    """A limit was reached, or a number doesn't fit into 128 bits: nothing was decided."""


class OutOfMemory(Refusal):
    """The program had not enough memory."""


def refusal(line: Dict[str, Any], status: int, text: bytes) -> Refusal:
    """The exception for the line of a refusal. `text` is the protocol's."""
    if status == 7:
        return OutOfMemory(line, status, text)
    if status == 6:
        return LimitReached(line, status, text)
    if status == 5:
        return (ProtocolFault if "at" in line else InputFault)(line, status, text)
    return Refusal(line, status, text)
