"""The HTML of results: it is well formed, and says who got what and who envies whom."""
import unittest
from fractions import Fraction
from html.parser import HTMLParser

from slice_cake import (Accepted, Counterexample, Cut, Done, Envies, EnvyFree, Rejected, Stretch, Stuck, StuckAt, Valuation,
                        run)
from slice_cake.pictures import _fill

from .examples import CC

# Elements that have no end.
LONE = {"br", "meta", "img"}


class Page(HTMLParser):
    """Reads HTML: the cells of tables as pairs of class and text, and the attributes of each element by its name."""

    def __init__(self, html):
        super().__init__()
        self.open, self.cells, self.elements, self.text = [], [], [], ""
        self.feed(html)
        self.close()
        assert self.open == [], self.open

    def handle_starttag(self, tag, attrs):
        self.elements.append((tag, dict(attrs)))
        if tag not in LONE:
            self.open.append(tag)
        if tag == "td":
            self.cells.append([dict(attrs).get("class"), ""])

    def handle_endtag(self, tag):
        assert self.open.pop() == tag, tag

    def handle_data(self, data):
        if "style" not in self.open:
            self.text += data
        if "td" in self.open:
            self.cells[-1][1] += data

    def kept(self, tag, name):
        """The values of that attribute in all such elements that have it."""
        return [attrs[name] for element, attrs in self.elements if element == tag and name in attrs]


def stretches(*ends):
    return tuple(Stretch(Fraction(start), Fraction(end)) for start, end in ends)


TASTES = (Valuation((1, 2), (1, 2)), Valuation((2,), (1,)))
# Agent 1 has the first unit, agent 2 the half after it, and nobody the rest: to agent 1 each half of the second unit is
# worth a third.
LEFT = Done(TASTES, (Cut(1, Fraction(1, 3), Fraction(1)),), (stretches((0, 1)), stretches(("1", "3/2"), ("1", "1"))),
            stretches(("3/2", "2")), ((Fraction(1, 3), Fraction(1, 3)), (Fraction(1, 2), Fraction(1, 4))), ((2, 1),))


class Pictures(unittest.TestCase):
    def test_who_got_what(self):
        page = Page(LEFT._repr_html_())
        self.assertEqual(page.kept("div", "aria-label")[0], "agent 1 [0, 1); agent 2 [1, 3/2); nobody [3/2, 2)")
        self.assertIn("agent 1: [0, 1)", page.text)
        self.assertIn("agent 2: [1, 3/2)", page.text)
        self.assertIn("nobody: [3/2, 2)", page.text)
        self.assertIn("agent 1 cuts 1/3 off a piece: at 1", page.text)
        # The strip, the steps of agent 1 and those of agent 2, all on a cake of two units.
        blocks = [style.split(";background")[0] for style in page.kept("b", "style")]
        strip = ["left:0%;width:50%;height:100%", "left:50%;width:25%;height:100%", "left:75%;width:25%;height:100%"]
        self.assertEqual(blocks, [*strip, "left:0%;width:50%;height:50%", *strip[1:], *strip])

    def test_envy_is_marked_by_words(self):
        page = Page(LEFT._repr_html_())
        self.assertEqual([tuple(it) for it in page.cells], [
            (None, ""), ("own", "1/333.3 %own"), ("", "1/333.3 %"), ("envied", "1/250 %▲ envied"), ("own", "1/425 %own")])
        self.assertIn("Agent 2 envies agent 1: it values that share at 1/2, and its own at 1/4.", page.text)
        self.assertIn("▲ envies agent 1", page.text)

    def test_no_envy(self):
        page = Page(run(CC, TASTES)._repr_html_())
        self.assertIn("Nobody envies anybody.", page.text)
        self.assertNotIn("▲", page.text)

    def test_counterexamples(self):
        met = Counterexample("p", 2, 3, Envies(2, 1), TASTES, (), LEFT)
        page = Page(met._repr_html_())
        self.assertIn("p isn't fair: agent 2 envies agent 1", page.text)
        self.assertIn("▲ envied", page.text)
        page = Page(Counterexample("p", 2, 1, StuckAt(0, "high"), TASTES, (), Stuck(TASTES, (), 0, "high"))._repr_html_())
        self.assertIn("the run is stuck at query 0: more was asked for than the piece is worth", page.text)
        self.assertIn("Nobody is asked anything.", page.text)
        # Where the run isn't known, what the agents like is shown still: to agent 1 the second unit is worth two thirds.
        page = Page(Counterexample("p", 2, 3, Envies(2, 1), TASTES, (), None)._repr_html_())
        self.assertEqual(page.kept("div", "aria-label"), ["[0, 1) 1/3; [1, 2) 2/3", "[0, 2) 1"])

    def test_verdicts(self):
        for result, words in [(EnvyFree("p", 2, 6, 8), "✓ p is envy-free"), (Accepted(6), "✓ Accepted"),
                              (Rejected("Missing", {"goal": 5}), "▲ Rejected")]:
            self.assertIn(words, Page(result._repr_html_()).text)

    def test_sixteen_agents_look_different(self):
        self.assertEqual(len({_fill(agent) for agent in range(17)}), 17)


if __name__ == "__main__":
    unittest.main()
