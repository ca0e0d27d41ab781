#!/usr/bin/env python3
"""A lesson on cut and choose, from the rule to a proof and from a small change to a counterexample.

usage: python3 teaching.py [PAGE]

Each part that begins with `# %%` is a cell: editors and notebooks run them one by one (Jupyter by jupytext). Run as a
whole, the lesson is printed, and written as a page to PAGE, by default cut_and_choose.html.
"""
# %% What the lesson says goes to the terminal and to the page.
import io
import sys
from fractions import Fraction
from html import escape

import slice_cake
from slice_cake import Counterexample, Envies, EnvyFree, ProtocolFault, Valuation

page = []


def say(words):
    """A paragraph."""
    print(words, end="\n\n")
    page.append(f"<p>{escape(words)}</p>")


def show(text):
    """A text, letter by letter: a protocol, a formula."""
    print(text, end="\n\n")
    page.append(f"<pre>{escape(text)}</pre>")


def picture(result):
    """A result: its words, and on the page its picture. In a notebook a cell that ends with the result shows it too."""
    print(result, end="\n\n")
    page.append(result._repr_html_())


# %% The rule.
CUT_AND_CHOOSE = """\
protocol cut_and_choose agents 2 {
  cut 1 cake at 1/2 as l, r;
  if value(2, l) >= value(2, r) {
    give l to 2;
    give r to 1;
  } else {
    give r to 2;
    give l to 1;
  }
}
"""
say("Two agents share a cake. Agent 1 cuts it where it thinks the half is; agent 2 takes the part that it likes better, "
    "and agent 1 the other one.")
show(CUT_AND_CHOOSE)
counts = slice_cake.check(CUT_AND_CHOOSE)
say(f"The text keeps the rules of the language: each piece is used at most once. Cuts on a way through it: {counts.cuts}.")

# %% One run. The cake is two units long: agent 1 likes a unit of the first half three times as much, agent 2 all alike.
tastes = [Valuation(ends=(1, 2), heights=(3, 1)), Valuation(ends=(2,), heights=(1,))]
run = slice_cake.run(CUT_AND_CHOOSE, tastes)
say("What comes of it depends on what the agents like. Here is one run:")
picture(run)
assert run.values[0][0] == Fraction(1, 2)

# %% All runs.
certificate = io.StringIO()
verdict = slice_cake.verify(CUT_AND_CHOOSE, save=certificate)
assert isinstance(verdict, EnvyFree)
say("One run shows little. Is it so whatever the agents like? The verifier lists every way in which a run could fail, and "
    "refutes each:")
picture(verdict)

# %% Why: one of these ways, and the multipliers that refute it. Rows are about the whole cake, then agent 1's values of
# the two parts, then agent 2's.
goal = list(slice_cake.paths(CUT_AND_CHOOSE))[2]
multipliers = list(slice_cake.refutations(certificate.getvalue()))[2].multipliers
signs = {"zero": "= 0", "atleast": ">= 0", "above": "> 0"}
say(f"For one of them, that agent 2 takes the left part and {goal.outcome}, these rows would have to hold together:")
show("\n".join(f"{multiplier:>3} times  {' '.join(f'{coef:>2}' for coef in row.coefs)}  {signs[row.kind]}"
               for multiplier, row in zip(multipliers, goal.rows)))
total = [sum(multiplier * row.coefs[at] for multiplier, row in zip(multipliers, goal.rows)) for at in range(5)]
say(f"Each row is multiplied by the number before it and all are added: {total} remains, which would have to be above 0. "
    "So no run ends like that, and anybody can add it up. For all such ways at once, the checker does:")
picture(slice_cake.certify(CUT_AND_CHOOSE, certificate.getvalue()))

# %% A small change.
BROKEN = CUT_AND_CHOOSE.replace("1/2", "1/3")
say("What if agent 1 cuts at a third? Guess before you go on: who can come to envy whom?")
show(BROKEN)
met = slice_cake.verify(BROKEN)
assert isinstance(met, Counterexample) and met.outcome == Envies(agent=1, envies=2)
say("This is what the verifier finds: likings of the two agents, and a run that ends with envy.")
picture(met)

# %% A mistake in the text is told with its place.
try:
    slice_cake.check(CUT_AND_CHOOSE.replace("give l to 1", "give r to 1"))
except ProtocolFault as fault:
    say("And if somebody gives a piece away twice, the text is refused:")
    show(str(fault))

# %% The page.
HEAD = """<!doctype html>
<html lang="en"><head><meta charset="utf-8"><meta name="viewport" content="width=device-width, initial-scale=1">
<title>Cut and choose</title>
<style>
body { font: 16px/1.5 system-ui, "Segoe UI", "DejaVu Sans", sans-serif; max-width: 58em; margin: 2em auto; padding: 0 1em;
  color: #1d2024; background: #fbfaf7; }
pre { background: #fff; border: 1px solid #c9c9c4; border-radius: 6px; padding: .7em 1em; overflow-x: auto; }
</style></head><body>
<h1>Cut and choose</h1>
"""
target = sys.argv[1] if __name__ == "__main__" and len(sys.argv) == 2 else "cut_and_choose.html"
with open(target, "w", encoding="utf-8") as file:
    file.write(HEAD + "\n".join(page) + "\n</body></html>\n")
print(f"The page is {target}.")
