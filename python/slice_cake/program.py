"""Finds the program and has it work."""
from __future__ import annotations

import json
import os
import shutil
import signal
import subprocess
import sys
import tempfile
import warnings
from contextlib import ExitStack
from pathlib import Path
from types import TracebackType
from typing import IO, Any, Callable, Dict, Iterator, List, Optional, Sequence, Type, TypeVar, Union

from . import faults
from .results import Result

# A text, or the path of a file that holds it.
Content = Union[str, bytes, "os.PathLike[str]"]
# The object of a line, by its keys.
Object = Dict[str, Any]
R = TypeVar("R", bound=Result)
T = TypeVar("T")


def program() -> str:
    """The program: what the variable SLICE names; else `slice` or `slice_cli` on the path; else the `slice` of the clone
    that holds this package or the working folder.
    """
    named = os.environ.get("SLICE")
    if named:
        if os.access(named, os.X_OK) and os.path.isfile(named):
            return os.path.abspath(named)
        raise faults.ProgramNotFound(f"SLICE is {named}, which can't be run")
    found = shutil.which("slice") or shutil.which("slice_cli")
    if found:
        return os.path.abspath(found)
    for start in (Path(__file__).resolve(), Path.cwd() / "here"):
        for folder in start.parents:
            if (folder / "crates" / "slice_cli").is_dir() and os.access(folder / "slice", os.X_OK):
                return str(folder / "slice")
    raise faults.ProgramNotFound("there is no program: set SLICE to its path, put `slice` on the path, or work in a clone")


class Work:
    """A command at work. Its words are the command, the names of the files, and further words.

    A text that is given lies in a file of its own meanwhile. When the block of `with` is left, a program that still works
    is ended.
    """

    def __init__(self, command: str, files: Sequence[Content], words: Sequence[str] = ()) -> None:
        self._command = command
        self._files = files
        self._words = words
        self._stack = ExitStack()
        self._status: Optional[int] = None

    def __enter__(self) -> Work:
        self._program = program()
        with ExitStack() as stack:
            room = Path(stack.enter_context(tempfile.TemporaryDirectory(prefix="slice-")))
            names = [_named(content, room / f"{number}.txt") for number, content in enumerate(self._files)]
            self._beside: IO[bytes] = stack.enter_context(tempfile.TemporaryFile())
            try:
                self._process = subprocess.Popen(
                    [self._program, self._command, *names, *self._words], stdin=subprocess.DEVNULL, stdout=subprocess.PIPE,
                    stderr=self._beside, start_new_session=True)
            except OSError as fault:
                raise faults.ProgramNotFound(str(fault)) from fault
            stack.callback(self._end)
            self._stack = stack.pop_all()
        return self

    def __exit__(self, kind: Optional[Type[BaseException]], fault: Optional[BaseException],
                 trace: Optional[TracebackType]) -> None:
        self._stack.close()

    def _end(self) -> None:
        """Ends what still works, with what it started: `./slice` may be making the program."""
        if self._process.poll() is None:
            os.killpg(self._process.pid, signal.SIGTERM)
        assert self._process.stdout is not None
        self._process.stdout.close()
        self._process.wait()

    def lines(self) -> Iterator[bytes]:
        """The lines as they come, without their LF. Where the program refuses, that is raised after them."""
        assert self._process.stdout is not None
        refused: Optional[Object] = None
        for raw in self._process.stdout:
            if not raw.endswith(b"\n") or refused is not None:
                raise self.failed("its output breaks off", raw)
            if raw.startswith(b"{") and b'"refused":' in raw:
                refused = self.read(raw, lambda line: {**line, "refused": str(line["refused"])})
            else:
                yield raw[:-1]
        self._status = self._process.wait()
        self._warn()
        if refused is not None and self._status in (2, 3, 5, 6, 7):
            raise faults.refusal(refused, self._status, self._text() if "at" in refused else b"")
        if refused is not None or self._status not in (0, 1):
            raise self.failed(f"its status is {self._status}")

    def line(self) -> bytes:
        """The only line."""
        lines = list(self.lines())
        if len(lines) != 1:
            raise self.failed(f"it wrote {len(lines)} lines where one was wanted")
        return lines[0]

    def read(self, raw: bytes, make: Callable[[Object], T]) -> T:
        """What is made of the object of a line."""
        try:
            return make(json.loads(raw))
        except (ValueError, LookupError, TypeError, AttributeError, ArithmeticError) as fault:
            raise self.failed("it wrote a line that isn't understood", raw) from fault

    def object(self, raw: bytes) -> Object:
        """The object of a line."""
        return self.read(raw, lambda line: line)

    def ended(self, result: R) -> R:
        """The result, if the program ended with the status that belongs to it. All lines were taken before."""
        if self._status != (0 if result.good else 1):
            raise self.failed(f"its status is {self._status}, which isn't that of its answer")
        return result

    def _text(self) -> bytes:
        """The protocol's text."""
        content = self._files[0]
        return _bytes(content) if isinstance(content, (str, bytes)) else Path(content).read_bytes()

    def _told(self) -> List[str]:
        """The lines on standard error."""
        self._beside.seek(0)
        return self._beside.read().decode(errors="replace").splitlines()

    def _warn(self) -> None:
        for told in self._told():
            warnings.warn(told, faults.SliceWarning, stacklevel=_calls_inside())

    def failed(self, what: str, raw: bytes = b"") -> faults.ProgramFailed:
        """The exception that says what went wrong, with the line and what stands on standard error."""
        shown = [raw[:200].decode(errors="replace").rstrip("\n")] if raw else []
        return faults.ProgramFailed("\n".join([f"{self._program} {self._command}: {what}", *shown, *self._told()]))


def _calls_inside() -> int:
    """How many calls, from the caller's, lie in this package: a warning is to name the line that called it."""
    here, frame, count = os.path.dirname(__file__), sys._getframe(1), 1
    while frame.f_back is not None and os.path.dirname(frame.f_code.co_filename) == here:
        frame, count = frame.f_back, count + 1
    return count


def _bytes(content: Union[str, bytes]) -> bytes:
    return content.encode() if isinstance(content, str) else content


def _named(content: Content, file: Path) -> str:
    """The path of a file that holds the content: its own, or that of `file`, which is written."""
    if not isinstance(content, (str, bytes)):
        return os.fspath(content)
    if isinstance(content, str) and os.path.isfile(content):
        raise TypeError(f"{content!r} is the name of a file: give pathlib.Path({content!r}), or the file's text")
    file.write_bytes(_bytes(content))
    return str(file)
