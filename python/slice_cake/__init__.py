"""Slice, from Python: whether a protocol that divides a cake can leave anybody envious.

    >>> from slice_cake import verify
    >>> print(verify("protocol half agents 2 { cut 1 cake at 1/2 as l, r; give l to 1; give r to 2; }"))
    A counterexample: agent 2 envies agent 1 (goal 3).

The commands are functions, their answers frozen dataclasses, and numbers `fractions.Fraction`: shares of the whole cake
are fractions of 1, points are positions on the cake from 0 to its length. The work is done by the program `slice`, which
`program()` finds. What can't be answered is an exception (`SliceError`).
"""
from .commands import canonical, certify, check, demo, paths, refutations, replay, run, upgrade, verify
from .faults import (InputFault, LimitReached, OutOfMemory, Place, ProgramFailed, ProgramNotFound, ProtocolFault, Refusal,
                     SliceError, SliceWarning)
from .program import program
from .results import (Accepted, Answer, Counterexample, Counts, Cut, Demo, Done, Envies, EnvyFree, Eval, Goal, Progress,
                      Refutation, Rejected, Row, Stretch, Stuck, StuckAt, Valuation)

__all__ = [
    "Accepted", "Answer", "Counterexample", "Counts", "Cut", "Demo", "Done", "Envies", "EnvyFree", "Eval", "Goal",
    "InputFault", "LimitReached", "OutOfMemory", "Place", "ProgramFailed", "ProgramNotFound", "Progress", "ProtocolFault",
    "Refusal", "Refutation", "Rejected", "Row", "SliceError", "SliceWarning", "Stretch", "Stuck", "StuckAt", "Valuation",
    "canonical", "certify", "check", "demo", "paths", "program", "refutations", "replay", "run", "upgrade", "verify",
]
