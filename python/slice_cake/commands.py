"""The commands, each a function. A protocol or a certificate is given as a text (`str`, `bytes`), or as the path of a file
that holds it (`pathlib.Path`). What can't be answered is raised: see `slice_cake.faults`.

A further command takes one function here and one result in `results.py`: the function has a `Work` do it, reads the
lines, and gives the result through `Work.ended`, which compares it with the program's status.
"""
from __future__ import annotations

import json
import os
import time
from contextlib import contextmanager
from dataclasses import replace
from fractions import Fraction
from typing import IO, Callable, Iterable, Iterator, Mapping, Optional, Sequence, Tuple, Union

from . import results
from .faults import LimitReached
from .program import Content, Object, Work
from .results import (Accepted, Answer, Counterexample, Counts, Demo, EnvyFree, Goal, Progress, Refutation, Rejected,
                      Result, Run, Valuation)

# What an agent likes: a valuation, or an object with `ends` and `heights`, as files of valuations have it.
Taste = Union[Valuation, Mapping[str, Sequence[int]]]
# An answer to a cut: a point on the cake in part 0 of the piece, or with its part.
Point = Union[Answer, Fraction, int, str]
Watch = Callable[[Progress], None]
Save = Union[str, "os.PathLike[str]", IO[str]]
# Progress is told after so many seconds again.
PAUSE = 0.1


def check(text: Content) -> Counts:
    """Checks that the protocol keeps the rules, and counts its steps."""
    with Work("check", [text]) as work:
        return work.ended(work.read(work.line(), Counts.of))


def canonical(text: Content) -> str:
    """The protocol in its canonical layout."""
    with Work("print", [text]) as work:
        lines = [line.decode() + "\n" for line in work.lines()]
        work.ended(Result())
        return "".join(lines)


def run(text: Content, valuations: Iterable[Taste]) -> Run:
    """Runs the protocol. Each cut is answered by the least right answer.

    valuations: what each agent likes, one for each agent, agent 1 first; all on a cake of the same length L.
    """
    tastes = tuple(map(Valuation.of, valuations))
    with Work("run", [text, results.valuations_text(tastes)]) as work:
        return work.ended(work.read(work.line(), lambda line: results.run_of(line, tastes)))


def replay(text: Content, valuations: Iterable[Taste], cuts: Iterable[Point]) -> Run:
    """Runs the protocol with given answers to its cuts.

    valuations: as in `run`. cuts: an answer for each cut of the run, in the order in which they are asked: points from 0
    to L, of a joined piece with the part that holds it (`Answer`).
    """
    tastes = tuple(map(Valuation.of, valuations))
    answers = [_answer(cut) for cut in cuts]
    with Work("replay", [text, results.replay_text(tastes, answers)]) as work:
        return work.ended(work.read(work.line(), lambda line: results.run_of(line, tastes)))


def paths(text: Content) -> Iterator[Goal]:
    """The goals of the protocol, each as soon as the program has made it: all ways in which a run could fail.

    No goal is held. When the iterator is closed or dropped, the program ends. Where the program refuses, the goals before
    come first, and then the exception.
    """
    with Work("paths", [text]) as work:
        count, told = 0, None
        for line in work.lines():
            made = work.read(line, lambda it: Goal.of(it) if "rows" in it else int(it["goals"]))
            if isinstance(made, Goal):
                count += 1
                yield made
            else:
                told = made
        if told != count:
            raise work.failed(f"{count} goals came, and it tells of {told}")
        work.ended(Result())


def verify(text: Content, *, save: Optional[Save] = None,
           progress: Optional[Watch] = None) -> Union[EnvyFree, Counterexample]:
    """Decides whether any agent can end up envious, or a run stuck, whatever the agents like.

    save: the path of a file, or an open text file, to which the lines are written as they come; where the protocol is
    envy-free they are its certificate. progress: is called some ten times a second, and at the end; what it raises ends
    the work.
    """
    with Work("verify", [text]) as work:
        first, last, count = _written(work, save, progress)
        decision = work.ended(work.read(last, lambda line: _decision(work.object(first), line, count)))
    if isinstance(decision, Counterexample):
        return replace(decision, run=_run_of(text, decision))
    return decision


def certify(text: Content, certificate: Content) -> Union[Accepted, Rejected]:
    """Checks a certificate, whoever wrote it: whether it refutes every goal of the protocol."""
    with Work("certify", [text, certificate]) as work:
        return work.ended(work.read(work.line(), _judgement))


def upgrade(text: Content, certificate: Content, *, save: Optional[Save] = None,
            progress: Optional[Watch] = None) -> Union[EnvyFree, Rejected]:
    """Checks a certificate of version 1 and writes one of version 2, often with fewer lines.

    save and progress are those of `verify`. Where the certificate is rejected, the lines before that are saved too.
    """
    with Work("upgrade", [text, certificate]) as work:
        first, last, count = _written(work, save, progress)
        return work.ended(work.read(last, lambda line: _upgraded(work.object(first), line, count)))


def refutations(certificate: Content) -> Iterator[Refutation]:
    """The lines of a certificate that refute goals, one after another. Whether they do, `certify` tells.

    Raises ValueError at what is no line.
    """
    for number, line in enumerate(_lines(certificate), 1):
        try:
            held = json.loads(line)
            made = Refutation.of(held) if "multipliers" in held else None
        except (ValueError, LookupError, TypeError) as fault:
            raise ValueError(f"line {number} is no line of a certificate") from fault
        if made:
            yield made


def demo(rounds: int) -> Demo:
    """Makes the protocol `rounds` of so many rounds, 1 to 8, decides it, and checks the certificate."""
    with Work("demo", [], [str(rounds)]) as work:
        return work.ended(work.read(work.line(), Demo.of))


def _answer(cut: Point) -> Answer:
    """The answer that is meant. A float isn't taken: it seldom is the number that was meant."""
    if isinstance(cut, Answer):
        return cut
    if isinstance(cut, (Fraction, int, str)):
        return Answer(Fraction(cut))
    raise TypeError(f"{cut!r} is no answer to a cut: a Fraction, a whole number, a text such as '1/2' or an Answer is")


def _judgement(line: Object) -> Union[Accepted, Rejected]:
    """What is said of a certificate."""
    return Accepted(line["goals"]) if line["accepted"] else Rejected.of(line)


def _decision(header: Object, line: Object, count: int) -> Union[EnvyFree, Counterexample]:
    """The decision that the last of so many lines tells. The run of a counterexample isn't known yet."""
    if line["closing"] == "counterexample":
        return Counterexample(header["protocol"], header["agents"], line["goal"], results.outcome(line["outcome"]),
                              tuple(map(Valuation.of, line["valuations"])), tuple(map(Answer.of, line["cuts"])), None)
    return _envy_free(header, line, count)


def _upgraded(header: Object, line: Object, count: int) -> Union[EnvyFree, Rejected]:
    """What the last of so many lines of `upgrade` tells."""
    return Rejected.of(line) if "fault" in line else _envy_free(header, line, count)


def _envy_free(header: Object, line: Object, count: int) -> EnvyFree:
    """What the closing line of a certificate of so many lines tells."""
    if line["closing"] != "envy-free":
        raise ValueError(line["closing"])
    return EnvyFree(header["protocol"], header["agents"], line["goals"], count)


def _run_of(text: Content, met: Counterexample) -> Optional[Run]:
    """The run of a counterexample, unless a number of it doesn't fit."""
    try:
        return replay(text, met.valuations, met.cuts)
    except LimitReached:
        return None


def _written(work: Work, save: Optional[Save], progress: Optional[Watch]) -> Tuple[bytes, bytes, int]:
    """Has the lines saved as they come, and gives the first, the last and their number."""
    first = last = b""
    count = 0
    with _saving(save) as keep:
        for count, last in enumerate(_watched(work, progress), 1):
            first = first or last
            keep(last.decode() + "\n")
    return first, last, count


@contextmanager
def _saving(save: Optional[Save]) -> Iterator[Callable[[str], object]]:
    """What keeps a line."""
    if save is None:
        yield lambda line: None
    elif isinstance(save, (str, os.PathLike)):
        with open(save, "w", encoding="utf-8", newline="\n") as file:
            yield file.write
    else:
        yield save.write


def _watched(work: Work, progress: Optional[Watch]) -> Iterator[bytes]:
    """The lines as they come; progress is told now and then, and after the last."""
    begin = told = time.monotonic()
    count, line = 0, b"{}"

    def tell() -> None:
        if progress:
            progress(Progress(count, work.read(line, lambda it: it.get("goal")), time.monotonic() - begin))

    for count, line in enumerate(work.lines(), 1):
        yield line
        if time.monotonic() - told >= PAUSE:
            tell()
            told = time.monotonic()
    tell()


def _lines(content: Content) -> Iterator[str]:
    """The lines of a text or of a file."""
    if isinstance(content, (str, bytes)):
        yield from (content if isinstance(content, str) else content.decode()).splitlines()
    else:
        with open(content, encoding="utf-8") as file:
            yield from file
