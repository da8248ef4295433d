"""Which libraries are proved when, how many jobs each gets, and what is said meanwhile. A fake prover takes the time that is said here."""

import io
import subprocess
import sys
import tempfile
import unittest
from pathlib import Path

import support

import prove
from prove import Crate, Machine, Plan

# A chain low, middle, high, and three crates beside it.
DIAMOND = {
    "low": Crate("low", (), 200),
    "middle": Crate("middle", ("low",), 900),
    "side": Crate("side", ("low",), 20),
    "high": Crate("high", ("middle", "side"), 900),
    "apart": Crate("apart", (), 20),
    "apart_too": Crate("apart_too", (), 20),
}
AMPLE = 100 * prove.GIGABYTE


class FakeProver:
    """Takes the seconds that each crate is given, by a clock of its own."""

    def __init__(self, seconds, failing=()):
        self.seconds, self.failing, self.now, self.ends, self.begun = seconds, failing, 0.0, {}, []

    def clock(self):
        return self.now

    def begin(self, name, jobs, is_first, below):
        assert below == Plan(DIAMOND).below(name)
        self.begun.append((name, jobs, is_first, self.now))
        self.ends[name] = self.now + self.seconds[name] / prove.busy(jobs)

    def ended(self):
        self.now = min(self.ends.values())
        found = [it for it, end in self.ends.items() if end <= self.now]
        for it in found:
            del self.ends[it]
        return [(it, it not in self.failing) for it in found]


def proved(crates, machine, failing=(), done=()):
    """The fake prover behind a run over crates, those that failed, and what the run printed."""
    prover = FakeProver({it.name: it.seconds() for it in crates.values()}, failing)
    plan, out = Plan(crates, set(done)), io.StringIO()
    return prover, prove.prove(plan, prover, machine, out, prover.clock), out.getvalue()


class Order(unittest.TestCase):
    def test_each_crate_begins_behind_those_that_it_needs(self):
        for processors in (1, 2, 4, 9):
            prover, failed, _ = proved(DIAMOND, Machine(processors, AMPLE))
            self.assertEqual(failed, [])
            begun = {name: at for name, _, _, at in prover.begun}
            self.assertEqual(sorted(begun), sorted(DIAMOND))
            for name, jobs, _, _ in prover.begun:
                for it in DIAMOND[name].needs:
                    self.assertGreaterEqual(begun[name], begun[it] + DIAMOND[it].seconds() / prove.MOST_JOBS)

    def test_the_longest_chain_goes_first_with_more_jobs(self):
        prover, _, _ = proved(DIAMOND, Machine(4, AMPLE))
        self.assertEqual(prover.begun[0], ("low", 4, True, 0.0))
        self.assertEqual([it[:3] for it in prover.begun[1:2]], [("apart", 1, False)])
        jobs = {name: jobs for name, jobs, _, _ in prover.begun}
        self.assertEqual((jobs["middle"], jobs["high"], jobs["side"]), (4, 4, 2))

    def test_no_more_run_than_processors_allow(self):
        for processors in (1, 2, 3):
            plan = Plan(DIAMOND)
            while chosen := plan.choose(Machine(processors, AMPLE)):
                plan.begin(*chosen)
            self.assertLessEqual(sum(map(prove.busy, plan.running.values())), processors + 0.5)

    def test_no_more_run_than_memory_allows_but_one_always_does(self):
        enough = Machine(4, DIAMOND["low"].bytes(1) + DIAMOND["apart"].bytes(1))
        plan = Plan(DIAMOND)
        plan.begin(*plan.choose(enough))
        self.assertLessEqual(DIAMOND["low"].bytes(plan.running["low"]), enough.memory)
        plan = Plan(DIAMOND)
        self.assertEqual(plan.choose(Machine(4, 1)), ("low", 1))
        plan.begin("low", 1)
        self.assertIsNone(plan.choose(Machine(4, 1)))

    def test_a_circle_is_refused(self):
        with self.assertRaises(SystemExit):
            Plan({"a": Crate("a", ("b",)), "b": Crate("b", ("a",))})


class Words(unittest.TestCase):
    def test_a_line_says_how_far_it_is(self):
        _, _, said = proved(DIAMOND, Machine(4, AMPLE))
        lines = said.splitlines()
        self.assertEqual(len(lines), len(DIAMOND))
        self.assertRegex(
            lines[0], r"^1 of 6 libraries proved, less than a minute gone, about \d+ minutes? left: \w+$"
        )
        self.assertRegex(lines[-1], r"^6 of 6 libraries proved, about \d+ minutes? gone: high$")

    def test_the_guess_follows_the_pace_and_ends_at_nothing(self):
        plan, machine = Plan(DIAMOND), Machine(4, AMPLE)
        slow, quick = plan.seconds_left(machine, 2, {}), plan.seconds_left(machine, 1, {})
        self.assertAlmostEqual(slow, 2 * quick)
        self.assertGreaterEqual(quick, plan.behind["low"] / prove.busy(4))
        self.assertEqual(Plan(DIAMOND, set(DIAMOND)).seconds_left(machine, 1, {}), 0)

    def test_a_crate_that_fails_ends_the_run(self):
        prover, failed, _ = proved(DIAMOND, Machine(4, AMPLE), failing=("middle",))
        self.assertEqual(failed, ["middle"])
        self.assertNotIn("high", [it[0] for it in prover.begun])

    def test_minutes_are_words(self):
        said = [prove.minutes(it) for it in (0, 29, 31, 89, 600)]
        self.assertEqual(
            said,
            [
                "less than a minute",
                "less than a minute",
                "about 1 minute",
                "about 1 minute",
                "about 10 minutes",
            ],
        )


class Repository(unittest.TestCase):
    def test_the_program_needs_libraries_but_not_itself(self):
        found = prove.libraries(support.ROOT, ["confluo"])
        self.assertIn("cf_run", found)
        self.assertNotIn("confluo", found)
        self.assertNotIn("confluo_c", found)
        self.assertGreater(found["cf_table"].proofs, found["cf_table"].code)
        self.assertEqual(Plan(found).in_order()[-1], "cf_run")

    def test_an_unknown_crate_is_named(self):
        with self.assertRaisesRegex(SystemExit, "no crate nothing"):
            prove.libraries(support.ROOT, ["nothing"])


# It wants the libraries that the crate's line in its crates.txt names.
RT = """\
#!/bin/sh
echo "$*" > "$STATE/${PWD##*/}.begun"
for it in $(sed -n "s/^${PWD##*/}://p" ../../crates.txt); do test -f "../$it/out/rlib/stamp" || exit 3; done
sleep "$(cat "$STATE/seconds")"
mkdir -p out/rlib
echo proved > out/rlib/stamp
"""


class Processes(unittest.TestCase):
    """The script with a program `rt` that only waits."""

    def setUp(self):
        folder = tempfile.TemporaryDirectory()
        self.addCleanup(folder.cleanup)
        self.root = Path(folder.name)
        (self.root / "tools").mkdir()
        (self.root / "bin").mkdir()
        for it in ("prove.py", "crate_table.py"):
            (self.root / "tools" / it).write_text((support.TOOLS / it).read_text())
        (self.root / "crates.txt").write_text("# Layer: all\nlow:\nhigh: low\n")
        for it in ("low", "high"):
            (self.root / "crates" / it / "src").mkdir(parents=True)
            (self.root / "crates" / it / "src" / "lib.rt").write_text("\n")
        (self.root / "bin" / "rt").write_text(RT)
        (self.root / "bin" / "rt").chmod(0o755)

    def start(self, seconds):
        (self.root / "seconds").write_text(f"{seconds}\n")
        return subprocess.Popen(
            [sys.executable, "-B", self.root / "tools" / "prove.py"],
            env={
                "PATH": f"{self.root / 'bin'}:/usr/bin:/bin",
                "STATE": str(self.root),
                "XDG_CACHE_HOME": str(self.root / "cache"),
            },
            stdout=subprocess.PIPE,
            text=True,
        )

    def stamp(self, name):
        return self.root / "crates" / name / "out" / "rlib" / "stamp"

    def test_all_are_proved_over_those_that_they_need(self):
        run = self.start(0)
        said = run.communicate(timeout=60)[0]
        self.assertEqual((run.returncode, said.count("libraries proved")), (0, 2))
        self.assertTrue(self.stamp("low").exists() and self.stamp("high").exists())
        self.assertRegex((self.root / "high.begun").read_text(), r"^lib --jobs \d\n$")
        self.assertEqual(
            sorted(it.name for it in (self.root / "build" / "prove").iterdir()), ["high.log", "low.log"]
        )
        self.assertEqual(list((self.root / "cache").glob("confluo/*/*")), [])

    def test_an_interrupted_run_ends_what_it_began_and_goes_on(self):
        run = self.start(50)
        while not (self.root / "low.begun").exists():
            self.assertIsNone(run.poll())
        run.terminate()
        said = run.communicate(timeout=40)[0]
        self.assertEqual(run.returncode, 130)
        self.assertIn("Interrupted with 0 of 2", said)
        self.assertFalse(self.stamp("low").exists())
        self.start(0).communicate(timeout=60)
        self.assertTrue(self.stamp("high").exists())

    def test_a_crate_that_fails_is_named_with_what_it_said(self):
        (self.root / "bin" / "rt").write_text("#!/bin/sh\necho no proof\nexit 1\n")
        run = self.start(0)
        said = run.communicate(timeout=60)[0]
        self.assertEqual(run.returncode, 1)
        self.assertIn("no proof\nlow is not proved", said)


if __name__ == "__main__":
    unittest.main()
