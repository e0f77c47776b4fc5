"""The two proof tools on small texts, as the check of the kit writes them. No crate is proved.

    cd tools/proof/tests && python3 -m unittest
"""

import importlib.machinery
import importlib.util
import subprocess
import sys
import tempfile
import unittest
from pathlib import Path

HERE = Path(__file__).resolve().parent.parent


def loaded(name):
    sys.dont_write_bytecode = True
    loader = importlib.machinery.SourceFileLoader(name, str(HERE / name))
    module = importlib.util.module_from_spec(importlib.util.spec_from_loader(name, loader))
    loader.exec_module(module)
    return module


scaffold, places = loaded("scaffold"), loaded("places")

INVARIANTS = """use Rattle.std.proofs.Common.{◌≡◌, length}
use Rattle.tiny.proofs.count.Given as goal

abbrev pub invariant-loop-i : goal.invariant-loop-i
invariant-loop-i l = ?
"""

ANSWERS = """use Rattle.std.proofs.Common.{rules, ◌≡◌, length}
use Rattle.tiny.proofs.count.Goals as goal

-- src/lib.rt:12:12
pub loop-i-preserved : goal.loop-i-preserved
loop-i-preserved c = ?

pub returns : goal.returns
returns c = ?
"""

LTS = """
        pub record Args : Type 0 where
          pub s : Shared
          pub n : ℕ

        pub record Start : Type 0 where
          pub args : Args lifetimes
          pub requires : the-Pre lifetimes

        module _ (the-before : Start) where
          pub record Step-At-loop : Type 0 where
            pub i : (Rows.sc_here (Row.s_int Syntax.w64)).Mod
            pub invariant : the-Inv-0
                (Row.get
                1
                T3.locals)

        pub record At-loop : Type 0 where
          pub before : Start

          pub loop-i : Step-At-loop before

        pub record In-loop : Type 0 where
          pub before : At-loop
"""

GOALS = """abbrev pub In-loop-i : Type 0
In-loop-i = Lts.In-loop Reads.Pre Reads.Post the-invariant-loop-i

abbrev pub loop-i-preserved : Type 0
loop-i-preserved =
    Past.At
    In-loop-i
    (View.Named-loop-i-preserved Reads.Pre)
    Path'.refl

abbrev pub Start : Type 0
Start = Lts.Start Reads.Pre Reads.Post

abbrev pub returns : Type 0
returns =
    Past.At
    Start
    (View.Named-returns Reads.Pre)
    Path'.refl
"""


def written(room):
    """A folder as the check writes it."""
    folder = Path(room) / "generated/Rattle-tiny-proofs/count"
    folder.mkdir(parents=True)
    for name, text in (("InvariantsOffered", INVARIANTS), ("AnswersOffered", ANSWERS), ("Lts", LTS), ("Goals", GOALS)):
        (folder / f"{name}.antt").write_text(text)
    (Path(room) / "crates/tiny").mkdir(parents=True)
    return str(folder.parent.parent)


class Scaffold(unittest.TestCase):
    def test_every_goal_gets_the_answer(self):
        body = scaffold.answered(ANSWERS, "search rules")
        self.assertIn("loop-i-preserved c = search rules\n", body)
        self.assertTrue(body.endswith("\nreturns c = search rules\n"))
        self.assertTrue(body.startswith("use Rattle.std.proofs.Common.{rules, ◌≡◌"))

    def test_what_the_answer_names_is_imported(self):
        self.assertTrue(scaffold.answered(ANSWERS, "omega arith").startswith("use Rattle.std.proofs.Common.{arith}\nuse "))

    def test_files_are_written_once(self):
        with tempfile.TemporaryDirectory() as room:
            folder = written(room)
            command = [sys.executable, "-B", str(HERE / "scaffold"), "--root", room, "--generated", folder, "tiny"]
            first = subprocess.run(command + ["count"], capture_output=True, text=True)
            holes = "crates/tiny/proofs/count/Invariants.antt: 1 holes\ncrates/tiny/proofs/count/Answers.antt: 2 holes\n"
            self.assertEqual((first.returncode, first.stdout), (0, holes))
            self.assertEqual((Path(room) / "crates/tiny/proofs/count/Answers.antt").read_text(), ANSWERS)
            again = subprocess.run(command + ["count", "--answer", "omega arith"], capture_output=True, text=True)
            stays = "crates/tiny/proofs/count/Invariants.antt is there, and stays\ncrates/tiny/proofs/count/Answers.antt is there, and stays\n"
            self.assertEqual((again.returncode, again.stdout), (0, stays))
            self.assertEqual((Path(room) / "crates/tiny/proofs/count/Answers.antt").read_text(), ANSWERS)
            other = subprocess.run(command + ["other"], capture_output=True, text=True)
            self.assertEqual(other.returncode, 1)
            self.assertIn("nothing is offered for other", other.stderr)

    def test_invariants_keep_their_holes(self):
        with tempfile.TemporaryDirectory() as room:
            command = [sys.executable, "-B", str(HERE / "scaffold"), "--root", room, "--generated", written(room), "--print", "--answer", "cc", "tiny", "count"]
            shown = subprocess.run(command, capture_output=True, text=True).stdout
            self.assertIn("invariant-loop-i l = ?", shown)
            self.assertIn("returns c = cc", shown)


class Places(unittest.TestCase):
    def test_paths(self):
        self.assertEqual(
            list(places.lines_of(LTS, GOALS, [])),
            [
                "loop-i-preserved",
                "   c.loop-i: .i, .invariant",
                "   c.args: .s, .n",
                "   c.requires",
                "returns",
                "   c.args: .s, .n",
                "   c.requires",
            ],
        )

    def test_one_goal(self):
        self.assertEqual(list(places.lines_of(LTS, GOALS, ["returns"])), ["returns", "   c.args: .s, .n", "   c.requires"])

    def test_an_unknown_goal(self):
        with self.assertRaises(SystemExit) as told:
            list(places.lines_of(LTS, GOALS, ["returns-2"]))
        self.assertEqual(str(told.exception), "no goal returns-2; there are: loop-i-preserved, returns")

    def test_the_program(self):
        with tempfile.TemporaryDirectory() as room:
            command = [sys.executable, "-B", str(HERE / "places"), "--root", room, "--generated", written(room), "tiny", "count", "returns"]
            self.assertEqual(subprocess.run(command, capture_output=True, text=True).stdout, "returns\n   c.args: .s, .n\n   c.requires\n")


if __name__ == "__main__":
    unittest.main()
