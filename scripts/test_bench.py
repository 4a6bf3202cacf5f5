"""The markets that scripts/bench makes, and what it reads of callgrind's files."""

import hashlib
import pathlib
import re
import subprocess
import sys
import tempfile
import unittest

HERE = pathlib.Path(__file__).resolve().parent
sys.dont_write_bytecode = True
sys.path.insert(0, str(HERE))
import bench_counts
import bench_markets

# The sum of CAT, STU, SET, SEARCH, PRICES, S1 and S2 that another program made of 60 students, 400 sections, 40 rated, two
# sessions and the seed 7.
CONTESTED = "997c9d7ce9ea7271b4c4525e0cf511f8994e9dd025b1ee358cf9554a424ad4c9"
FILES = ("CAT", "STU", "SET", "SEARCH", "PRICES", "S1", "S2")

# The examples of callgrind's manual ("Callgrind Format Specification"): the extended one, with instructions in place of lines,
# and that of relative positions.
EXTENDED = """positions: instr line
events: Instructions

fl=(1) file1.c
fn=(1) main
0x10 16 20
cfn=(2) func1
calls=1 0x50 50
0x10 16 400
cfi=(2) file2.c
cfn=(3) func2
calls=3 0x20 20
0x10 16 400

fn=(2)
0x33 51 100
cfi=(2)
cfn=(3)
calls=2 0x20 20
0x33 51 300

fl=(2)
fn=(3)
0x14 20 700
"""
RELATIVE = """positions: instr line
events: ticks

fn=(1) func
0x80001234 90 1
+3 * 5
+1 +1 6
"""


class Markets(unittest.TestCase):
    """Each market is the one that its numbers name, and within the limits."""

    def made(self, *numbers, crowd="contested"):
        """The files of a market, by name, each as text."""
        with tempfile.TemporaryDirectory() as folder:
            bench_markets.make_market(numbers, folder, bench_markets.CROWDS[crowd], 0)
            return {name: pathlib.Path(folder, name).read_text(encoding="utf-8") for name in FILES}

    def test_the_contested_market_is_the_one_that_others_make(self):
        files = self.made(60, 400, 40, 2, 7)
        whole = "".join(files[name] for name in FILES)
        self.assertEqual(hashlib.sha256(whole.encode()).hexdigest(), CONTESTED)

    def test_a_crowd_is_the_same_each_time(self):
        for crowd in bench_markets.CROWDS:
            with self.subTest(crowd):
                self.assertEqual(self.made(3, 70, 60, 2, 5, crowd=crowd), self.made(3, 70, 60, 2, 5, crowd=crowd))

    def test_each_crowd_is_within_the_limits(self):
        for crowd, what in bench_markets.CROWDS.items():
            with self.subTest(crowd):
                files = self.made(5, 70, 60, 2, 5, crowd=crowd)
                lines = (files["S1"] + files["S2"]).splitlines()
                rated = [line.split() for line in lines if line.startswith("rate ")]
                paired = [line.split() for line in lines if line.startswith("pair ")]
                self.assertEqual((len(rated), len(paired)), (300, 5 * what.pairs))
                self.assertLessEqual(what.pairs, 200)
                self.assertTrue(all(1 <= int(line[3]) <= 100 for line in rated))
                self.assertTrue(all(line[2] != line[3] and -200 <= int(line[4]) <= 200 for line in paired))
                for row in files["CAT"].splitlines()[1:]:
                    meetings = row.split(",")[4].split(";")
                    self.assertTrue(1 <= len(meetings) <= 10, row)
                    self.assertTrue(all(re.fullmatch(r"[MTWRFSU]\d{4}-\d{4}", it) for it in meetings), row)
                for row in files["STU"].splitlines()[1:]:
                    _, budget, credits, courses = row.split(",")
                    self.assertTrue(int(budget) <= 900_000 and int(credits) <= 800 and int(courses) <= 8, row)

    def test_two_thousand_students_have_as_many_commands_as_a_market_may(self):
        for crowd, least in (("many pairs", 200_000), ("flat", 120_000)):
            with self.subTest(crowd):
                files = self.made(2000, 400, 60, 2, 1, crowd=crowd)
                self.assertEqual((files["S1"] + files["S2"]).count("\n"), least)

    def test_of_seven_hours_eight_sections_can_not_be_taken(self):
        rows = self.made(3, 70, 60, 2, 5, crowd="seven hours")["CAT"].splitlines()[1:]
        self.assertEqual(len({row.split(",")[4] for row in rows}), 7)

    def test_eight_sections_cost_one_each_more_than_the_budget_has(self):
        files = self.made(3, 70, 60, 2, 5, crowd="an eighth and one")
        prices = {int(row.split(",")[1]) for row in files["PRICES"].splitlines()[1:]}
        budgets = {int(row.split(",")[1]) for row in files["STU"].splitlines()[1:]}
        self.assertEqual((prices, budgets), ({12_501}, {100_000}))
        self.assertIn('"spread":0', files["SET"])


class Profiles(unittest.TestCase):
    """What is read of a file of callgrind."""

    def test_calls_are_told_by_caller_and_callee(self):
        told = bench_counts.Profile(EXTENDED.splitlines())
        self.assertEqual(told.total, 820)
        self.assertEqual(dict(told.calls), {("main", "func1"): 1, ("main", "func2"): 3, ("func1", "func2"): 2})
        self.assertEqual(told.called("func2"), (5, 700))
        self.assertEqual(told.called("func2", "func1"), (2, 300))
        self.assertEqual(dict(told.executed), {("main", 0x10): 20, ("func1", 0x33): 100, ("func2", 0x14): 700})

    def test_positions_may_be_relative(self):
        told = bench_counts.Profile(RELATIVE.splitlines())
        self.assertEqual(dict(told.executed), {("func", 0x80001234): 1, ("func", 0x80001237): 5, ("func", 0x80001238): 6})

    def test_a_function_that_calls_itself_is_one_function(self):
        lines = ["fn=(1) f::go", "0x1 0 2", "cfn=(2) f::go'2", "calls=4 0x1 0", "0x1 0 9", "fn=(2)", "0x1 0 8"]
        told = bench_counts.Profile(lines)
        self.assertEqual((dict(told.calls), told.executed["f::go", 1]), ({("f::go", "f::go"): 4}, 10))

    def test_look_ups_are_the_places_where_a_bit_is_sought(self):
        text = """
0000000000001000 <demand_oracle::below::below>:
    1000:\tpush   %rbp
    1004:\ttzcnt  %r12,%r14
    1009:\trep bsf %rdx,%rdi
0000000000002000 <demand_oracle::draft::Draft::of>:
    2004:\ttzcnt  %r12,%r14
"""
        name = "demand_oracle::below::below"
        self.assertEqual(bench_counts.look_ups(text), {(name, 0x1004), (name, 0x1009)})

    def test_the_elimination_is_told_a_round_and_a_question(self):
        lines = ["fn=(1) run", "1 0 1", "cfn=(2) pool::least_prices::<#1a2b>", "calls=10 8 0", "1 0 5000"]
        lines += ["fn=(3) task_board::worker::work", "2 0 1", "cfn=(4) demand_oracle::oracle::search", "calls=24 9 0", "2 0 2400"]
        lines += ["fn=(1)", "1 0 1", "cfn=(4)", "calls=1 9 0", "1 0 100"]
        lines += ["fn=(4)", "3 0 1", "cfn=(5) demand_oracle::below::below", "calls=25 7 0", "3 0 9", "fn=(5)", "7 0 250"]
        told = bench_counts.elimination(bench_counts.Profile(lines), {("demand_oracle::below::below", 7)}, 4)
        # (four of 24 questions come before; 20 of 24 parts of 2,400 are those of ten rounds, of whose 5,000 the rest is 3,000)
        self.assertEqual(told, ["10", "20", "5.0", "1", "10", "100", "75"])


class Words(unittest.TestCase):
    """The command itself."""

    def test_a_market_is_written(self):
        with tempfile.TemporaryDirectory() as folder:
            words = [sys.executable, str(HERE / "bench"), "--market", "2", "20", "10", "2", "1", folder, "--crowd", "flat"]
            subprocess.run(words, check=True)
            rates = [line for line in pathlib.Path(folder, "S1").read_text(encoding="ascii").splitlines() if line.startswith("rate ")]
            self.assertEqual([line.split()[3] for line in rates], ["50"] * 10)

    def test_without_valgrind_the_status_says_so(self):
        with tempfile.TemporaryDirectory() as folder:
            for name in ("bash", "sed", "dirname"):
                pathlib.Path(folder, name).symlink_to(f"/bin/{name}")
            words = [sys.executable, str(HERE / "bench"), "--count"]
            there = {"PATH": folder, "COURSE_MATCH_PROGRAM": "/bin/true"}
            done = subprocess.run(words, env=there, capture_output=True, text=True, check=False)
            self.assertEqual((done.returncode, done.stdout), (69, ""))
            self.assertIn("needs valgrind", done.stderr)


if __name__ == "__main__":
    unittest.main()
