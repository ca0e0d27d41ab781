"""Protocols that the tests ask about."""

CC = """\
protocol cc agents 2 {
  cut 1 cake at 1/2 as l, r;
  if value(2, l) >= value(2, r) {
    give l to 2;
    give r to 1;
  } else {
    give r to 2;
    give l to 1;
  }
}
"""
# Agent 1 cuts at a third in place of a half.
THIRD = CC.replace("1/2", "1/3")
# One agent is asked for three halves of the cake.
TOO_MUCH = "protocol p agents 1 { cut 1 cake at 3/2 as a, b; }"
# A joined piece of two parts is cut.
JOINED = "protocol p agents 1 { cut 1 cake at 1/2 as l, r; join l, r as j; cut 1 j at 1/2 as x, y; }"
# A number that grows by a fraction of 18 digits at each step.
DEEP = """\
protocol deep agents 1 {
  cut 1 cake at 1/999999999999999999 * value(1, cake) as a, b;
  cut 1 a at 1/999999999999999999 * value(1, a) as c, d;
  cut 1 c at 1/999999999999999999 * value(1, c) as e, f;
}
"""

# The multipliers of a certificate of CC that was written by hand, goal by goal.
BY_HAND = [(1, 0, 0, 1), (1, 2, 0, 1), (0, 1, 0, -1, 0, 1), (0, 0, 0, 0, 1, 1), (0, -1, 0, 1, 0, 1), (0, 0, 0, 0, 1, 1)]


def certificate(lines, name="cc", agents=2, version=1, goals=None):
    """The text of a certificate whose refutations have these numbers and multipliers."""
    told = [f'{{"agents":{agents},"certificate":{version},"protocol":"{name}"}}']
    for goal, multipliers in lines:
        shown = ",".join(f'"{it}"' for it in multipliers)
        told.append(f'{{"goal":{goal},"multipliers":[{shown}]}}')
    if goals is not None:
        told.append(f'{{"closing":"envy-free","goals":{goals}}}')
    return "".join(line + "\n" for line in told)


CCERT = certificate(enumerate(BY_HAND), goals=6)
