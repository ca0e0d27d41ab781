"""What the commands answer.

Shares of the whole cake are fractions of 1. Points are positions on the cake, from 0 to its length L. Agents are numbered
from 1; queries, goals and parts of a piece from 0. What is one for each agent stands in the agents' order, agent 1 first.
"""
from __future__ import annotations

import json
from dataclasses import dataclass
from fractions import Fraction
from typing import Any, Dict, Iterator, Mapping, NamedTuple, Optional, Sequence, Tuple, Union

from .words import named, said

Line = Mapping[str, Any]


class Result:
    """What a command answers."""

    @property
    def good(self) -> bool:
        """Whether all is well: the program's exit status is 0. Otherwise it is 1."""
        return True

    def _repr_html_(self) -> Optional[str]:
        """What a notebook shows; of None it shows the text."""
        from . import pictures  # which draws what stands here, so it can't be imported above
        return pictures.picture(self)


class Stretch(NamedTuple):
    """A stretch of the cake from the point `start` up to the point `end`. It may be empty."""

    start: Fraction
    end: Fraction

    def __str__(self) -> str:
        return f"[{self.start}, {self.end})"


Piece = Tuple[Stretch, ...]


def piece(pairs: Sequence[Sequence[str]]) -> Piece:
    """The stretches of a piece, in the order in which the program gives them."""
    return tuple(Stretch(Fraction(start), Fraction(end)) for start, end in pairs)


@dataclass(frozen=True)
class Valuation:
    """What an agent likes, by steps; the first begins at 0.

    ends: the points where the steps end: whole numbers, rising, the last is L. heights: what a unit of length is worth in
    each step: whole numbers from 0, not all of them 0. Both have the same length, 1 to 1,000. Only the proportions of the
    heights count.
    """

    ends: Tuple[int, ...]
    heights: Tuple[int, ...]

    @classmethod
    def of(cls, given: Union[Valuation, Line]) -> Valuation:
        """A valuation, or the object with `ends` and `heights` that a file of valuations has for it."""
        if isinstance(given, Valuation):
            return given
        return cls(tuple(given["ends"]), tuple(given["heights"]))

    @property
    def steps(self) -> Iterator[Tuple[Stretch, int]]:
        """The steps from left to right, each with its height."""
        starts = (0, *self.ends)
        for start, end, height in zip(starts, self.ends, self.heights):
            yield Stretch(Fraction(start), Fraction(end)), height

    def share(self, start: Union[Fraction, int, str], end: Union[Fraction, int, str]) -> Fraction:
        """The share-value of the stretch between two points: what it is worth, as a fraction of the whole cake's 1."""
        low, high = Fraction(start), Fraction(end)
        worth = sum(max(Fraction(0), min(high, step.end) - max(low, step.start)) * height for step, height in self.steps)
        return Fraction(worth) / sum((step.end - step.start) * height for step, height in self.steps)


@dataclass(frozen=True)
class Answer:
    """An answer to a cut: a point on the cake, in the part of the piece that has this number (0 unless it was joined)."""

    point: Fraction
    part: int = 0

    @classmethod
    def of(cls, given: Any) -> Answer:
        """The answer that an entry of `cuts` tells."""
        if isinstance(given, str):
            return cls(Fraction(given))
        part, point = given
        return cls(Fraction(point), part)


@dataclass(frozen=True)
class Eval:
    """An agent was asked what a piece is worth to it. answer: its share-value, a fraction of 1."""

    agent: int
    answer: Fraction

    def __str__(self) -> str:
        return said("queries", "eval", agent=self.agent, answer=self.answer)


@dataclass(frozen=True)
class Cut:
    """An agent was asked to cut a piece so that what lies left is worth an amount to it.

    amount: a fraction of 1. answer: the point on the cake. part: the number of the piece's part that holds it.
    """

    agent: int
    amount: Fraction
    answer: Fraction
    part: int = 0

    def __str__(self) -> str:
        part = said("queries", "part", part=self.part) if self.part else ""
        return said("queries", "cut", agent=self.agent, amount=self.amount, answer=self.answer) + part


Query = Union[Eval, Cut]


def query(line: Line) -> Query:
    """A query, as a run tells it."""
    if line["kind"] == "eval":
        return Eval(line["agent"], Fraction(line["answer"]))
    return Cut(line["agent"], Fraction(line["amount"]), Fraction(line["answer"]), line.get("part", 0))


@dataclass(frozen=True)
class Done(Result):
    """A run that came to its end.

    valuations: what each agent likes. queries: what was asked, in order. shares: for each agent the stretches that it was
    given. left: the stretches that nobody was given. values: for each agent a row of its share-values of agent 1's share,
    agent 2's share and so on, fractions of 1. envy: the pairs (a, b) where agent a values b's share above its own.
    """

    valuations: Tuple[Valuation, ...]
    queries: Tuple[Query, ...]
    shares: Tuple[Piece, ...]
    left: Piece
    values: Tuple[Tuple[Fraction, ...], ...]
    envy: Tuple[Tuple[int, int], ...]

    @property
    def good(self) -> bool:
        return not self.envy

    @property
    def envies(self) -> Tuple[str, ...]:
        """For each pair of `envy` a sentence that says who envies whom, and by how much."""
        return tuple(said("outcomes", "envy", agent=a, envies=b, other=self.values[a - 1][b - 1],
                          own=self.values[a - 1][a - 1]) for a, b in self.envy)

    def __str__(self) -> str:
        return " ".join(self.envies) or said("outcomes", "nobody")


@dataclass(frozen=True)
class Stuck(Result):
    """A run that met a cut without an answer.

    valuations: what each agent likes. queries: what was asked before, in order. query: the number of the cut. side: `low`
    where less than nothing was asked for, `high` where more than the piece is worth.
    """

    valuations: Tuple[Valuation, ...]
    queries: Tuple[Query, ...]
    query: int
    side: str

    @property
    def good(self) -> bool:
        return False

    def __str__(self) -> str:
        return said("outcomes", "stuck", query=self.query, side=said("sides", self.side))


Run = Union[Done, Stuck]


def run_of(line: Line, valuations: Tuple[Valuation, ...]) -> Run:
    """The run that a line of `run` or `replay` tells, on these valuations."""
    queries = tuple(query(asked) for asked in line["queries"])
    if line["outcome"] == "stuck":
        return Stuck(valuations, queries, line["query"], line["side"])
    return Done(valuations, queries, tuple(piece(share) for share in line["shares"]), piece(line["left"]),
                tuple(tuple(map(Fraction, row)) for row in line["values"]), tuple((a, b) for a, b in line["envy"]))


@dataclass(frozen=True)
class StuckAt:
    """A run could be stuck at the cut of that number: `low`, less than nothing asked for, or `high`, more than is there."""

    query: int
    side: str

    def __str__(self) -> str:
        return said("endings", "stuck", query=self.query, side=said("sides", self.side))


@dataclass(frozen=True)
class Envies:
    """A run could end so that `agent` envies the agent `envies`."""

    agent: int
    envies: int

    def __str__(self) -> str:
        return said("endings", "envy", agent=self.agent, envies=self.envies)


Outcome = Union[StuckAt, Envies]


def outcome(line: Line) -> Outcome:
    """How a run ends that a goal or a counterexample speaks of."""
    return StuckAt(line["query"], line["side"]) if "query" in line else Envies(line["agent"], line["envies"])


@dataclass(frozen=True)
class Counts(Result):
    """A protocol keeps the rules. nodes: its steps, put in line; depth and cuts: the most steps and cuts on a way."""

    protocol: str
    agents: int
    nodes: int
    depth: int
    cuts: int

    @classmethod
    def of(cls, line: Line) -> Counts:
        return cls(line["protocol"], line["agents"], line["nodes"], line["depth"], line["cuts"])


@dataclass(frozen=True)
class Row:
    """A linear row over a goal's unknowns: the sum of coefficient times unknown is 0 (`zero`), at least 0 (`atleast`), or
    above 0 (`above`). With n agents and k atoms of the cake there are 1 + n*k coefficients: of the whole, then agent 1's
    of atoms 0 to k - 1, then agent 2's and so on.
    """

    kind: str
    coefs: Tuple[int, ...]


@dataclass(frozen=True)
class Goal:
    """A way in which a run could fail. trace: the choices to it (`go`, `no`, `low`, `high`; `yes`, `no`). rows: what would
    have to hold if a run went so; where they have no solution, none does.
    """

    number: int
    outcome: Outcome
    rows: Tuple[Row, ...]
    trace: Tuple[str, ...]

    @classmethod
    def of(cls, line: Line) -> Goal:
        rows = tuple(Row(row["kind"], tuple(map(int, row["coefs"]))) for row in line["rows"])
        return cls(line["goal"], outcome(line["outcome"]), rows, tuple(line["trace"]))


@dataclass(frozen=True)
class EnvyFree(Result):
    """Whatever the agents like, every run comes to its end and leaves nobody envious.

    goals: how many ways to fail were refuted. lines: how many lines the certificate has, the first and the last too.
    """

    protocol: str
    agents: int
    goals: int
    lines: int

    def __str__(self) -> str:
        return said("outcomes", "envy-free", goals=self.goals)


@dataclass(frozen=True)
class Counterexample(Result):
    """A run that is stuck or leaves envy, so the protocol isn't fair.

    goal: the goal that it meets. outcome: how it ends. valuations: what each agent likes. cuts: the answers to the cuts,
    in order. run: the run on these, as `replay` gives it; None where a number of it doesn't fit into 128 bits.
    """

    protocol: str
    agents: int
    goal: int
    outcome: Outcome
    valuations: Tuple[Valuation, ...]
    cuts: Tuple[Answer, ...]
    run: Optional[Run]

    @property
    def good(self) -> bool:
        return False

    def __str__(self) -> str:
        return said("outcomes", "counterexample", ending=self.outcome, goal=self.goal)


@dataclass(frozen=True)
class Refutation:
    """A line of a certificate: multipliers that refute the rows of that goal, one for each row. In a cover line `cover` is
    how many of the goal's first choices it speaks of: the multipliers are for the rows behind these, and the line takes
    all goals with the same ones.
    """

    goal: int
    multipliers: Tuple[int, ...]
    cover: Optional[int] = None

    @classmethod
    def of(cls, line: Line) -> Refutation:
        return cls(line["goal"], tuple(map(int, line["multipliers"])), line.get("cover"))


@dataclass(frozen=True)
class Accepted(Result):
    """The certificate is right: all goals, so many, are refuted, whoever wrote it."""

    goals: int

    def __str__(self) -> str:
        return said("outcomes", "accepted", goals=self.goals)


@dataclass(frozen=True)
class Rejected(Result):
    """The file is no certificate of the protocol. fault: what is wrong first, by name. fields: where (lines are numbered
    from 1; goals, rows and unknowns from 0).
    """

    fault: str
    fields: Mapping[str, Any]

    @property
    def good(self) -> bool:
        return False

    @classmethod
    def of(cls, line: Line) -> Rejected:
        return cls(line["fault"], {key: value for key, value in line.items() if key not in ("accepted", "fault")})

    def __str__(self) -> str:
        return said("outcomes", "rejected", fault=f"{named('faults', self.fault, self.fields)} ({self.fault})")


@dataclass(frozen=True)
class Demo(Result):
    """The protocol `rounds` was decided and its certificate, of so many bytes and goals, accepted."""

    protocol: str
    agents: int
    goals: int
    bytes: int

    @classmethod
    def of(cls, line: Line) -> Demo:
        return cls(line["protocol"], line["agents"], line["goals"], line["bytes"])


@dataclass(frozen=True)
class Progress:
    """How far a command is. lines: how many came. goal: what goal the last is about, or None. seconds: since the first wait
    for a line.
    """

    lines: int
    goal: Optional[int]
    seconds: float


def valuations_text(valuations: Sequence[Valuation]) -> str:
    """The file of valuations."""
    return json.dumps([_object(it) for it in valuations], default=_whole)


def replay_text(valuations: Sequence[Valuation], cuts: Sequence[Answer]) -> str:
    """The replay file: valuations and answers to the cuts."""
    answers = [str(cut.point) if cut.part == 0 else [cut.part, str(cut.point)] for cut in cuts]
    return json.dumps({"cuts": answers, "valuations": [_object(it) for it in valuations]}, default=_whole)


def _object(valuation: Valuation) -> Dict[str, Any]:
    return {"ends": list(valuation.ends), "heights": list(valuation.heights)}


def _whole(number: Any) -> int:
    """A whole number of another library, as those of numpy."""
    return int(number.__index__())
