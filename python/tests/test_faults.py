"""What is raised: refusals of the program with their places, and programs that aren't as they should be.

The latter are scripts that stand in for the program.
"""
import gc
import os
import tempfile
import time
import unittest
import warnings
from contextlib import contextmanager
from pathlib import Path
from unittest import mock

from slice_cake import (EnvyFree, Goal, InputFault, LimitReached, OutOfMemory, ProgramFailed, ProgramNotFound,
                        ProtocolFault, Refusal, SliceError, SliceWarning, Valuation, canonical, certify, check, demo, paths,
                        program, replay, run, upgrade, verify)

from .examples import CC, CCERT, DEEP

EVEN = Valuation((1,), (1,))


def raised(kind, call, *words):
    """The exception of that very kind that the call raises."""
    try:
        result = call(*words)
    except SliceError as fault:
        assert type(fault) is kind, fault
        return fault
    raise AssertionError(f"it answered {result}")


class Places(unittest.TestCase):
    def test_the_text_of_a_fault_is_pointed_at(self):
        fault = raised(ProtocolFault, check, CC.replace("give r to 1", "\tgive r to 3"))
        self.assertEqual((fault.name, fault.status, fault.line, fault.column), ("AgentRange", 5, 5, 16))
        self.assertEqual(str(fault).splitlines()[1:], ["    " + "    \tgive r to 3;", "    " + "    \t" + " " * 10 + "^"])

    def test_two_places(self):
        text = "protocol p agents 2 { cut 1 cake at 1/2 as l, r; if 1 >= 0 { give l to 1; } else { } give l to 2; }"
        fault = raised(ProtocolFault, check, text)
        self.assertEqual((fault.name, fault.line, fault.column), ("UsedTwice", 1, 91))
        self.assertEqual((fault.first.offset, fault.first.line, fault.first.column), (66, 1, 67))
        self.assertEqual(fault.fields, {"at": 90, "first": 66, "name": "l"})
        self.assertIn("the piece l was used before", str(fault))

    def test_columns_are_characters(self):
        # The lines before have 22 and 5 bytes: the letter has two.
        fault = raised(ProtocolFault, check, "protocol p agents 1 {\n# ä\n?}")
        self.assertEqual((fault.line, fault.column, fault.place.offset), (3, 1, 27))
        # Here the letter stands on the line of the fault, which has 25 characters.
        fault = raised(ProtocolFault, check, "protocol p agents 1 { # ä")
        self.assertEqual((fault.line, fault.column, fault.place.offset), (1, 26, 26))

    def test_the_end_of_the_text(self):
        self.assertIn("the file ends too soon", str(raised(ProtocolFault, check, "")))
        fault = raised(ProtocolFault, check, "protocol p agents 1 {\n")
        self.assertEqual((fault.name, fault.line, fault.column), ("Syntax", 2, 1))

    def test_of_the_lexer(self):
        fault = raised(ProtocolFault, check, "protocol p agents 2 { give cake to 2a; }")
        self.assertEqual((fault.name, fault.column), ("BadByte", 37))
        fault = raised(ProtocolFault, check, "protocol p agents 1 { cut 1 cake at 01/2 as l, r; }")
        self.assertEqual((fault.name, fault.column), ("LeadingZero", 37))


class Refusals(unittest.TestCase):
    def test_what_was_given_beside(self):
        for fault, fields, second in [
                ("NoTotal", {"agent": 2}, [EVEN, Valuation((1,), (0,))]),
                ("NotWhole", {"agent": 1}, [{"ends": [1], "heights": [1.5]}, EVEN]),
                ("AgentCount", {}, [EVEN])]:
            refused = raised(InputFault, run, CC, second)
            self.assertEqual((refused.name, refused.fields, refused.line, refused.column), (fault, fields, None, None))

    def test_answers(self):
        tastes = [Valuation((1, 2, 3), (1, 0, 1)), Valuation((3,), (1,))]
        self.assertEqual(raised(InputFault, replay, CC, tastes, ["5/2"]).name, "BadAnswer")
        self.assertEqual(raised(InputFault, replay, CC, tastes, []).fields, {"query": 0})
        self.assertEqual(raised(InputFault, replay, CC, tastes, [2, 2]).name, "TooManyAnswers")

    def test_limits(self):
        names = (chr(97 + at // 26) + chr(97 + at % 26) for at in range(512))
        lets = "".join(f"let v{name} = 0; " for name in names)
        refused = raised(LimitReached, check, f"protocol p agents 1 {{ {lets}}}")
        self.assertEqual((refused.name, refused.status), ("DepthLimit", 6))
        refused = raised(LimitReached, run, DEEP, [EVEN])
        self.assertEqual((refused.name, refused.fields), ("Overflow", {"query": 5}))
        most = 2 ** 127 - 1
        refused = raised(LimitReached, certify, CC, CCERT.replace('"1","2","0","1"', f'"0","{most}","0","{most}"'))
        self.assertEqual(refused.fields, {"goal": 1, "unknown": 1})

    def test_goals_come_before_a_refusal(self):
        text = "protocol o agents 2 { let a = 1/{q}; let b = 1/{q} * a; let c = 1/{q} * b; }".replace("{q}", "9" * 18)
        self.assertEqual(raised(LimitReached, list, paths(text)).fields, {"goal": 0})

    def test_others(self):
        self.assertEqual(raised(Refusal, demo, 9).name, "Usage")
        fault = raised(Refusal, check, Path("/no/where"))
        self.assertEqual((fault.name, fault.status, fault.fields), ("ReadFault", 3, {"file": "/no/where"}))


@contextmanager
def stand_in(script):
    """A program that does what the shell script says. Gives its folder."""
    with tempfile.TemporaryDirectory() as room:
        path = os.path.join(room, "slice")
        with open(path, "w", encoding="utf-8") as file:
            file.write(f"#!/bin/sh\ncd {room}\n{script}\n")
        os.chmod(path, 0o700)
        with mock.patch.dict(os.environ, SLICE=path):
            yield room


HEADER = """echo '{"agents":2,"certificate":2,"protocol":"cc"}'\n"""
CLOSED = """echo '{"closing":"envy-free","goals":6}'\n"""
MET = """echo '{"closing":"counterexample","cuts":[],"goal":1,"outcome":{"query":0,"side":"high"},"valuations":[]}'\n"""
GOAL = '{"goal":0,"outcome":{"query":0,"side":"low"},"rows":[],"trace":["low"]}'


class Programs(unittest.TestCase):
    def test_an_answer_needs_its_status(self):
        with stand_in(HEADER + CLOSED):
            self.assertEqual(verify(CC), EnvyFree("cc", 2, 6, 2))
        for script in (HEADER + CLOSED + "exit 1", HEADER + MET, HEADER + CLOSED + "kill -9 $$", HEADER + "exit 0", "exit 4",
                       HEADER + "printf '{\"closing\":\"envy-free\",\"goals\":6}'", HEADER + "echo what", "echo 5",
                       HEADER + CLOSED + "exit 3", HEADER + CLOSED + "echo '{\"refused\":\"memory\"}'"):
            with stand_in(script):
                raised(ProgramFailed, verify, CC)
        with stand_in(HEADER + "echo '{\"goals\":6}'"):
            raised(ProgramFailed, verify, CC)
            raised(ProgramFailed, upgrade, CC, CCERT)
        with stand_in("printf 'protocol p agents 1 {\\n}'"):
            raised(ProgramFailed, canonical, CC)
        with stand_in(f"echo '{GOAL}'; echo '{{\"goals\":2}}'"):
            raised(ProgramFailed, list, paths(CC))
        with stand_in("echo '{\"accepted\":true,\"goals\":6}'; exit 1"):
            raised(ProgramFailed, certify, CC, CCERT)

    def test_memory(self):
        with stand_in(HEADER + "echo '{\"refused\":\"memory\"}'; exit 7"):
            self.assertEqual(str(raised(OutOfMemory, verify, CC)), "there wasn't enough memory (memory)")

    def test_a_refusal_without_words(self):
        with stand_in("echo '{\"claim\":3,\"refused\":\"Newer\"}'; exit 5"):
            fault = raised(InputFault, verify, CC)
            self.assertEqual((fault.name, fault.fields, str(fault)), ("Newer", {"claim": 3}, "claim 3 (Newer)"))

    def test_what_it_says_beside(self):
        with stand_in("echo beside >&2\n" + HEADER + CLOSED):
            with self.assertWarnsRegex(SliceWarning, "^beside$") as caught:
                verify(CC)
            self.assertEqual(caught.filename, __file__)
        with stand_in("echo beside >&2; exit 4"), warnings.catch_warnings():
            warnings.simplefilter("ignore")
            self.assertIn("beside", str(raised(ProgramFailed, verify, CC)))

    def test_how_it_is_found(self):
        with stand_in("exit 0") as room:
            self.assertEqual(program(), os.path.join(room, "slice"))
            with mock.patch.dict(os.environ, SLICE="", PATH=room):
                self.assertEqual(program(), os.path.join(room, "slice"))
            with mock.patch.dict(os.environ, SLICE=os.path.join(room, "other")):
                raised(ProgramNotFound, check, CC)


class Streams(unittest.TestCase):
    def gone(self, room):
        """Whether the program of that room, which told its number, has ended."""
        with open(os.path.join(room, "number"), encoding="utf-8") as file:
            number = file.read().strip()
        return not os.path.exists(f"/proc/{number}")

    def test_goals_come_one_by_one(self):
        with stand_in(f"echo $$ > number; exec yes '{GOAL}'") as room:
            goals = paths(CC)
            for count, goal in zip(range(3000), goals):
                self.assertEqual(goal.trace, ("low",))
                if count % 1000 == 999:
                    self.assertLessEqual(sum(isinstance(it, Goal) for it in gc.get_objects()), 3)
            self.assertFalse(self.gone(room))
            goals.close()
            self.assertTrue(self.gone(room))

    def test_a_program_that_is_silent_is_ended(self):
        with stand_in(f"echo $$ > number; echo '{GOAL}'; exec sleep 50") as room:
            begin = time.monotonic()
            goals = paths(CC)
            next(goals)
            goals.close()
            self.assertTrue(self.gone(room))
            self.assertLess(time.monotonic() - begin, 20)

    def test_a_callback_can_end_the_work(self):
        def enough(progress):
            if progress.lines > 1:
                raise KeyboardInterrupt

        with stand_in(f"echo $$ > number; {HEADER} exec yes '{GOAL}'") as room:
            begin = time.monotonic()
            with self.assertRaises(KeyboardInterrupt):
                verify(CC, progress=enough)
            self.assertTrue(self.gone(room))
            self.assertLess(time.monotonic() - begin, 20)


if __name__ == "__main__":
    unittest.main()
