"""Results as HTML, for a notebook or a page: strips of the cake, tables of share-values, what the agents like.

Each agent has a color, a pattern and its number; envy is marked by a sign and a word besides.
"""
from __future__ import annotations

import os
from fractions import Fraction
from html import escape
from typing import Iterable, List, Optional, Sequence, Tuple

from .results import (Accepted, Counterexample, Done, EnvyFree, Piece, Query, Rejected, Result, Run, Stretch, Stuck,
                      Valuation)
from .words import said

# Who holds a stretch: an agent, or 0 where nobody was given it.
Owned = Tuple[Stretch, int]

COLORS = ("#8fbdf2", "#f6bd74", "#98d5a6", "#eaa3c6", "#cdbcf4", "#f1e28f", "#98dcdc", "#dcbfa4")
INK = "rgba(0,0,0,.33)"
PATTERNS = (
    "none",
    f"repeating-linear-gradient(45deg, transparent 0 7px, {INK} 7px 8px)",
    f"repeating-linear-gradient(135deg, transparent 0 7px, {INK} 7px 8px)",
    f"repeating-linear-gradient(90deg, transparent 0 7px, {INK} 7px 8px)",
    f"repeating-linear-gradient(0deg, transparent 0 7px, {INK} 7px 8px)",
    f"radial-gradient({INK} 1.5px, transparent 2px) 0 0 / 9px 9px",
    f"linear-gradient({INK} 1px, transparent 1px) 0 0 / 9px 9px, "
    f"linear-gradient(90deg, {INK} 1px, transparent 1px) 0 0 / 9px 9px",
    f"repeating-linear-gradient(45deg, transparent 0 3px, {INK} 3px 5px)",
)
NOBODYS = f"repeating-linear-gradient(135deg, transparent 0 3px, {INK} 3px 4px) #e2e2de"
# Stretches that are narrower than this part of the cake have no label.
NARROW = Fraction(1, 25)
# A letter of a label takes so much of a strip, or less.
LETTER = Fraction(3, 200)

with open(os.path.join(os.path.dirname(os.path.abspath(__file__)), "pictures.css"), encoding="utf-8") as _file:
    STYLE = f"<style>\n{_file.read()}</style>"


def picture(result: Result) -> Optional[str]:
    """The HTML of a result; None of one that is told in a line."""
    if isinstance(result, (Done, Stuck)):
        return _whole([_box(result.good, *_told(result)), *_run(result)])
    if isinstance(result, Counterexample):
        box = _box(False, f"{result.protocol} isn't fair: {result.outcome}", "With what these agents like, a run ends so:")
        return _whole([box, *(_run(result.run) if result.run else _tastes(result.valuations))])
    if isinstance(result, EnvyFree):
        return _whole([_box(True, f"{result.protocol} is envy-free", str(result))])
    if isinstance(result, (Accepted, Rejected)):
        return _whole([_box(result.good, "Accepted" if result.good else "Rejected", str(result))])
    return None


def _told(run: Run) -> Tuple[str, str]:
    """How a run ended: a title, and a sentence."""
    if isinstance(run, Stuck):
        return "The run is stuck", str(run)
    return "Envy" if run.envy else "No envy in this run", str(run)


def _run(run: Run) -> List[str]:
    """Who got what, what it is worth to whom, what the agents like, and what they were asked."""
    if isinstance(run, Stuck):
        return [*_tastes(run.valuations), *_queries(run.queries)]
    owned = [(stretch, agent) for agent, share in enumerate(run.shares, 1) for stretch in share]
    owned = sorted(it for it in owned + [(stretch, 0) for stretch in run.left] if it[0].start < it[0].end)
    return [*_shares(run.shares, run.left, owned), *_values(run.values, run.envy),
            *_tastes(run.valuations, owned, run.envy), *_queries(run.queries)]


def _whole(parts: Iterable[str]) -> str:
    return "\n".join([STYLE, '<div class="slice-cake">', *parts, "</div>"])


def _box(good: bool, title: str, words: str) -> str:
    sign = "✓" if good else "▲"
    return (f'<div class="verdict {"good" if good else "bad"}"><strong>{sign} {escape(title)}</strong>'
            f"{escape(words)}</div>")


def _shares(shares: Sequence[Piece], left: Piece, owned: Sequence[Owned]) -> List[str]:
    """The cake as a strip, and the stretches of each share."""
    length = max(stretch.end for stretch, _ in owned)
    blocks = [_block(stretch, length, Fraction(1), agent) for stretch, agent in owned]
    named = [(f"{_key(agent)} agent {agent}", share) for agent, share in enumerate(shares, 1)]
    if any(start < end for start, end in left):
        named.append((f"{_key(0)} nobody", left))
    texts = [f"<li>{name}: {_stretches(share)}</li>" for name, share in named]
    label = "; ".join(f"{'agent ' + str(agent) if agent else 'nobody'} {stretch}" for stretch, agent in owned)
    ends = [point for stretch, _ in owned for point in stretch]
    return ["<h4>Who gets what</h4>", f'<div class="strip" role="img" aria-label="{escape(label)}">{"".join(blocks)}</div>',
            _axis(ends, length), f"<ul>{''.join(texts)}</ul>"]


def _stretches(piece: Piece) -> str:
    """The stretches of a piece that aren't empty, in words."""
    return " ".join(str(stretch) for stretch in piece if stretch.start < stretch.end) or "nothing"


def _values(values: Sequence[Sequence[Fraction]], envy: Sequence[Tuple[int, int]]) -> List[str]:
    """The table of share-values: a row for each agent, a column for each share."""
    head = "".join(f'<th scope="col">share of {_key(agent)}</th>' for agent in range(1, len(values) + 1))
    rows = []
    for agent, row in enumerate(values, 1):
        cells = [_cell(value, agent == other, (agent, other) in envy) for other, value in enumerate(row, 1)]
        rows.append(f'<tr><th scope="row">to agent {agent}</th>{"".join(cells)}</tr>')
    return ["<h4>What each share is worth to each agent, <span>as a part of the whole cake</span></h4>",
            f'<div class="wide"><table><tr><td></td>{head}</tr>{"".join(rows)}</table></div>']


def _cell(value: Fraction, own: bool, envied: bool) -> str:
    """A share-value, and whether it is of the agent's own share or of one that it envies."""
    kind = "own" if own else "envied" if envied else ""
    mark = {"own": "own", "envied": "▲ envied", "": ""}[kind]
    return f'<td class="{kind}">{value}<small>{_percent(value)}</small><small>{mark}</small></td>'


def _percent(share: Fraction) -> str:
    return f"{float(share * 100):.1f} %".replace(".0 %", " %")


def _tastes(valuations: Sequence[Valuation], owned: Sequence[Owned] = (),
            envy: Sequence[Tuple[int, int]] = ()) -> List[str]:
    """What each agent likes: steps whose area is value, each part with the number of who got it."""
    shown = ["<h4>What each agent likes <span>(area is value; the numbers tell who got it)</span></h4>" if owned else
             "<h4>What each agent likes <span>(area is value)</span></h4>"]
    for agent, valuation in enumerate(valuations, 1):
        envied = ", ".join(f"agent {b}" for a, b in envy if a == agent)
        words = f" <span>▲ envies {envied}</span>" if envied else ""
        shown.append(f"<h4>Agent {agent}{words}</h4>")
        shown += _taste(valuation, owned)
    return shown


def _taste(valuation: Valuation, owned: Sequence[Owned]) -> List[str]:
    """The steps of a valuation, divided where the owner changes."""
    length, highest = Fraction(valuation.ends[-1]), max(valuation.heights)
    blocks, told = [], []
    for step, height in valuation.steps:
        told.append(f"{step} {valuation.share(*step)}")
        for part, agent in _parts(step, owned):
            if height:
                blocks.append(_block(part, length, Fraction(height, highest), agent))
    ends = [Fraction(0), *map(Fraction, valuation.ends)]
    return [f'<div class="strip taste" role="img" aria-label="{escape("; ".join(told))}">{"".join(blocks)}</div>',
            _axis(ends, length)]


def _parts(step: Stretch, owned: Sequence[Owned]) -> List[Tuple[Stretch, Optional[int]]]:
    """The parts of a step with who got each; None where that isn't known."""
    if not owned:
        return [(step, None)]
    parts = [(stretch._replace(start=max(step.start, stretch.start), end=min(step.end, stretch.end)), agent)
             for stretch, agent in owned]
    return [(part, agent) for part, agent in parts if part.start < part.end]


def _block(stretch: Stretch, length: Fraction, height: Fraction, agent: Optional[int]) -> str:
    """A rectangle over a stretch of the cake, as high as this part of the strip."""
    place = (f"left:{_of(stretch.start / length)};width:{_of((stretch.end - stretch.start) / length)};"
             f"height:{_of(height)}")
    label = f"<i>{agent}</i>" if agent and stretch.end - stretch.start >= NARROW * length else ""
    return f'<b style="{place};background:{_fill(agent)}" title="{stretch}">{label}</b>'


def _axis(points: Iterable[Fraction], length: Fraction) -> str:
    """The points below a strip; where the labels would overlap, some of them."""
    shown: List[Fraction] = []
    for point in sorted(set(points) - {length}):
        if not shown or _apart(shown[-1], point, length) and _apart(point, length, length):
            shown.append(point)
    labels = [f'<span style="left:{_of(point / length)}">{point}</span>' for point in [*shown, length]]
    return f'<div class="axis">{"".join(labels)}</div>'


def _apart(left: Fraction, right: Fraction, length: Fraction) -> bool:
    """Whether the labels of two points have room, each centered below its point, with a letter between."""
    return right - left >= (len(str(left)) + len(str(right)) + 2) * LETTER / 2 * length


def _key(agent: int) -> str:
    """An agent's number on its color and pattern; of nobody, a dash."""
    return f'<span class="key" style="background:{_fill(agent)}"><span>{agent or "–"}</span></span>'


def _fill(agent: Optional[int]) -> str:
    """How an agent's stretches are filled, no two of 16 agents alike; those of nobody, and where it isn't known, gray."""
    if agent is None:
        return "#d9d9d4"
    if agent == 0:
        return NOBODYS
    at, again = (agent - 1) % len(COLORS), (agent - 1) // len(COLORS)
    pattern = PATTERNS[(at + again) % len(PATTERNS)]
    return f"{pattern}, {COLORS[at]}" if pattern != "none" else COLORS[at]


def _queries(queries: Sequence[Query]) -> List[str]:
    """What was asked, and the answers, folded away."""
    if not queries:
        return [f"<p>{said('queries', 'none')}</p>"]
    items = "".join(f"<li>{escape(str(asked))}</li>" for asked in queries)
    return [f'<details><summary>The questions, and their answers</summary><ol start="0">{items}</ol></details>']


def _of(share: Fraction) -> str:
    return f"{float(share * 100):.4g}%"
