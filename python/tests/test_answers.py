"""What the commands answer on protocols that one can follow by hand."""
import io
import os
import tempfile
import unittest
from fractions import Fraction
from pathlib import Path

from slice_cake import (Accepted, Answer, Counterexample, Counts, Cut, Demo, Done, Envies, EnvyFree, Eval, Goal, Refutation,
                        Rejected, Row, Stuck, StuckAt, Valuation, canonical, certify, check, commands, demo, paths,
                        refutations, replay, run, upgrade, verify)

from .examples import BY_HAND, CC, CCERT, DEEP, JOINED, THIRD, TOO_MUCH, certificate

HALF, THIRDS = Fraction(1, 2), Fraction(1, 3)
EVEN = Valuation((1,), (1,))


class Runs(unittest.TestCase):
    def test_the_chooser_likes_one_half_alone(self):
        tastes = [{"ends": [2], "heights": [1]}, {"ends": [1, 2], "heights": [0, 1]}]
        self.assertEqual(run(CC, tastes), Done(
            valuations=(Valuation((2,), (1,)), Valuation((1, 2), (0, 1))),
            queries=(Cut(agent=1, amount=HALF, answer=Fraction(1)), Eval(2, Fraction(0)), Eval(2, Fraction(1))),
            shares=(((0, 1),), ((1, 2),)), left=(), values=((HALF, HALF), (0, 1)), envy=()))

    def test_a_tie_goes_to_the_first_arm(self):
        done = run(CC, [EVEN, EVEN])
        self.assertEqual(done.shares, (((HALF, 1),), ((0, HALF),)))
        self.assertEqual(done.values, ((HALF, HALF), (HALF, HALF)))
        self.assertTrue(done.good)

    def test_other_answers_than_the_least(self):
        tastes = [Valuation((1, 2, 3), (1, 0, 1)), Valuation((3,), (1,))]
        least, other = run(CC, tastes), replay(CC, tastes, [2])
        self.assertEqual(least.shares, (((0, 1),), ((1, 3),)))
        self.assertEqual(other.shares, (((2, 3),), ((0, 2),)))
        self.assertEqual([it.answer for it in other.queries], [2, 2 * THIRDS, THIRDS])
        self.assertEqual(replay(CC, tastes, ["2"]), other)
        self.assertEqual(replay(CC, tastes, [Answer(Fraction(2))]), other)
        self.assertRaises(TypeError, replay, CC, tastes, [2.0])

    def test_envy(self):
        taste = Valuation((1, 2), (1, 2))
        done = replay(THIRD, [taste, taste], [1])
        self.assertEqual(done.envy, ((1, 2),))
        self.assertEqual(done.values, ((THIRDS, 2 * THIRDS), (THIRDS, 2 * THIRDS)))
        self.assertFalse(done.good)
        self.assertEqual(str(done), "Agent 1 envies agent 2: it values that share at 2/3, and its own at 1/3.")

    def test_stuck(self):
        self.assertEqual(run(TOO_MUCH, [EVEN]), Stuck((EVEN,), (), 0, "high"))

    def test_a_part_of_a_joined_piece(self):
        first = Cut(1, HALF, HALF)
        done = run(JOINED, [EVEN])
        self.assertEqual((done.queries, done.shares), ((first, first), ((),)))
        self.assertEqual(done.left, ((0, HALF), (HALF, HALF), (HALF, 1)))
        done = replay(JOINED, [EVEN], [HALF, Answer(HALF, part=1)])
        self.assertEqual(done.queries, (first, Cut(1, HALF, HALF, part=1)))
        self.assertEqual(str(done.queries[1]), "agent 1 cuts 1/2 off a piece: at 1/2, in part 1 of the piece")

    def test_values_are_what_the_shares_are_worth(self):
        tastes = [Valuation((3, 7, 10), (5, 0, 2)), Valuation((1, 10), (9, 4))]
        done = run(CC, tastes)
        for taste, row in zip(tastes, done.values):
            self.assertEqual(row, tuple(sum(taste.share(*stretch) for stretch in share) for share in done.shares))


class Valuations(unittest.TestCase):
    def test_shares_of_the_whole(self):
        # The whole is worth 3 + 1, and two thirds of a unit at height 3 are worth 2.
        taste = Valuation((1, 2), (3, 1))
        self.assertEqual(taste.share(0, "2/3"), HALF)
        self.assertEqual(taste.share(HALF, Fraction(3, 2)), HALF)
        self.assertEqual(taste.share(0, 2), 1)
        self.assertEqual(taste.share(2, 2), 0)


class Decisions(unittest.TestCase):
    def test_envy_free(self):
        self.assertEqual(verify(CC), EnvyFree("cc", agents=2, goals=6, lines=8))
        self.assertEqual(verify("protocol none agents 2 { }").goals, 2)
        self.assertEqual(verify(DEEP), EnvyFree("deep", agents=1, goals=6, lines=8))

    def test_a_counterexample(self):
        met = verify(THIRD)
        self.assertIsInstance(met, Counterexample)
        self.assertEqual((met.goal, met.outcome), (4, Envies(agent=1, envies=2)))
        self.assertEqual(str(met), "A counterexample: agent 1 envies agent 2 (goal 4).")
        self.assertIn((1, 2), met.run.envy)
        self.assertEqual(met.run, replay(THIRD, met.valuations, met.cuts))

    def test_a_counterexample_that_is_stuck(self):
        self.assertEqual(verify(TOO_MUCH), Counterexample(
            "p", agents=1, goal=1, outcome=StuckAt(0, "high"), valuations=(EVEN,), cuts=(),
            run=Stuck((EVEN,), (), 0, "high")))

    def test_the_certificate_is_saved(self):
        # The prover's multipliers differ from those by hand where the latter take more rows than are needed.
        wanted = [Refutation(goal, multipliers) for goal, multipliers in enumerate(
            [(0, 0, 0, 1), (0, 1, 0, 1), *BY_HAND[2:]])]
        stream = io.StringIO()
        verify(CC, save=stream)
        self.assertEqual(list(refutations(stream.getvalue())), wanted)
        with tempfile.TemporaryDirectory() as room:
            file = Path(room) / "cc.cert"
            verify(CC, save=file)
            self.assertEqual(list(refutations(file)), wanted)
            self.assertEqual(certify(CC, file), Accepted(6))

    def test_progress(self):
        told = []
        pause, commands.PAUSE = commands.PAUSE, 0
        try:
            verify(CC, progress=told.append)
        finally:
            commands.PAUSE = pause
        self.assertEqual([it.lines for it in told], [1, 2, 3, 4, 5, 6, 7, 8, 8])
        self.assertEqual([it.goal for it in told], [None, 0, 1, 2, 3, 4, 5, None, None])
        self.assertEqual(sorted(it.seconds for it in told), [it.seconds for it in told])


class Goals(unittest.TestCase):
    def test_the_first_goal(self):
        rows = (Row("above", (1, 0, 0)), Row("zero", (-1, 1, 0)), Row("zero", (-1, 0, 1)), Row("above", (-1, 0, 0)))
        goals = list(paths(CC))
        self.assertEqual(goals[0], Goal(0, StuckAt(0, "low"), rows, ("low",)))
        self.assertEqual(goals[2].trace, ("go", "yes"))
        self.assertEqual(goals[5].outcome, Envies(agent=2, envies=1))
        self.assertEqual(len(goals), 6)

    def test_multipliers_refute_rows(self):
        stream = io.StringIO()
        verify(CC, save=stream)
        for goal, line in zip(paths(CC), refutations(stream.getvalue())):
            sums = [sum(map(int.__mul__, line.multipliers, column)) for column in zip(*(row.coefs for row in goal.rows))]
            self.assertLessEqual(max(sums), 0)

    def test_the_other_counts(self):
        self.assertEqual(check(CC), Counts("cc", agents=2, nodes=10, depth=7, cuts=1))
        self.assertEqual(check(JOINED), Counts("p", agents=1, nodes=4, depth=4, cuts=2))
        self.assertEqual(demo(1), Demo("rounds", agents=2, goals=6, bytes=375))

    def test_the_canonical_text(self):
        self.assertEqual(canonical(" ".join(CC.split())), CC)
        self.assertEqual(canonical(CC.encode()), CC)


class Certificates(unittest.TestCase):
    def test_whoever_wrote_it(self):
        self.assertEqual(certify(CC, CCERT), Accepted(6))

    def test_what_is_wrong_first(self):
        lines = list(enumerate(BY_HAND))
        spoilt = {
            "NoStrict": (certificate([(0, (0, 0, 0, 0)), *lines[1:]], goals=6), {"goal": 0}),
            "Sign": (certificate([(0, (-1, 0, 0, 1)), *lines[1:]], goals=6), {"goal": 0, "row": 0}),
            "NotClosed": (certificate(lines), {}),
            "GoalOrder": (certificate([*lines[:3], *lines[2:]], goals=6), {"line": 5}),
            "Missing": (certificate(lines[:5], goals=6), {"goal": 5}),
            "Sum": (certificate([*lines[:3], (3, (0, 0, 0, 0, 0, 1)), *lines[4:]], goals=6), {"goal": 3, "unknown": 4}),
            "HeaderDiffers": (certificate(lines, agents=3, goals=6), {"field": "agents"}),
            "ClosingDiffers": (certificate(lines, goals=7), {"line": 8}),
        }
        for fault, (text, fields) in spoilt.items():
            self.assertEqual(certify(CC, text), Rejected(fault, fields))
        self.assertEqual(str(Rejected("Missing", {"goal": 5})),
                         "This is no certificate of the protocol: the line of goal 5 is missing (Missing).")

    def test_upgrade(self):
        # Choices that contradict each other take both goals behind them in one line.
        text = "protocol z agents 2 { if 0 >= 1 { give cake to 1; } else { } }"
        old = certificate(enumerate([(1, 0, 0, 1, 0)] * 2 + [(0, 0, 0, 0, 1)] * 2), name="z", goals=4)
        stream = io.StringIO()
        self.assertEqual(upgrade(text, old, save=stream), EnvyFree("z", agents=2, goals=4, lines=5))
        self.assertEqual(list(refutations(stream.getvalue())), [
            Refutation(0, (1, 0, 0, 1), cover=1), Refutation(2, (0, 0, 0, 0, 1)), Refutation(3, (0, 0, 0, 0, 1))])
        self.assertEqual(certify(text, stream.getvalue()), Accepted(4))
        self.assertEqual(upgrade(CC, certificate([(0, (0, 0, 0, 0))])), Rejected("NoStrict", {"goal": 0}))

    def test_what_is_no_line(self):
        self.assertRaisesRegex(ValueError, "^line 2 ", list, refutations('{}\nno\n'))


class Files(unittest.TestCase):
    def test_a_path_is_read_and_a_name_is_not(self):
        with tempfile.TemporaryDirectory() as room:
            file = os.path.join(room, "cc.slice")
            Path(file).write_text(CC, encoding="utf-8")
            self.assertEqual(check(Path(file)).nodes, 10)
            self.assertRaisesRegex(TypeError, "name of a file", check, file)


if __name__ == "__main__":
    unittest.main()
