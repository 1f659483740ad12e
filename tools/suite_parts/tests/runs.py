"""Runs on this machine: limits, checks, and what is left after a kill."""

from __future__ import annotations

import os
import signal
import subprocess

from .common import BOARD, EXAMPLES, STAND_IN, Case, processes_with, wait_for


class Limits(Case):
    """All ways to end, told apart, in one call."""

    COLUMNS = {"good": "", "endless": "--lot 2001", "greedy": "--lot 2002", "killed": "--lot 2003",
               "wrong": "--lot 2004", "stopped": "--budget 1", "faulty": "--nonsense",
               "ungrounded": "--lot 2006", "hda": "--engine hda"}

    def test_ends_are_told_apart(self) -> None:
        columns = [word for name, options in self.COLUMNS.items()
                   for word in ("--column", f"{name}={options}")]
        run = self.run_suite(BOARD, *columns, "--seconds", 15, "--mib", 250, "--journal",
                             "--processes", 4)
        self.assertEqual(run.returncode, 1, run.stderr)
        self.assertIn("NOT CERTIFIED: four-moves, wrong", run.stderr)
        found = {line["column"]: line for line in self.lines()}
        answers = {name: line["answer"] for name, line in found.items()}
        self.assertEqual(answers, {
            "good": "plan", "endless": "time", "greedy": "memory", "killed": "signal",
            "wrong": "plan", "stopped": "stopped", "faulty": "refused", "ungrounded": "stopped",
            "hda": "plan"})
        text = self.call("show", self.out, "--tasks").stdout
        self.assertRegex(text, r"four-moves +stopped +budget +")
        self.assertRegex(text, r"four-moves +ungrounded +grounding +")
        self.assertGreater(found["greedy"]["mib"], 100)
        self.assertTrue(found["good"]["certified"] and found["hda"]["certified"])
        self.assertFalse(found["wrong"]["certified"])
        self.assertEqual(found["good"]["expansions"], 4)
        self.assertNotIn("expansions", found["hda"])  # (it has no journal)
        self.assertEqual(processes_with(str(self.place)), [])


class Falling(Case):
    """Of falling weights the last claim is kept, with its certificate, however the run ended."""

    def test_the_last_claim_counts(self) -> None:
        columns = {"falling": "--num 3 --falling 4", "late": "--num 2 --falling 1 --lot 2005",
                   "wrong": "--num 2 --falling 1 --lot 2004",
                   "early": "--num 2 --falling 2 --budget 1", "owners": "--engine hda --falling 2"}
        words = [word for pair in columns.items() for word in ("--column", "=".join(pair))]
        run = self.run_suite(BOARD, *words, "--seconds", 8, "--journal", "--processes", 4)
        self.assertEqual(run.returncode, 1, run.stderr)
        self.assertIn("NOT CERTIFIED: four-moves, wrong", run.stderr)
        found = {line["column"]: line for line in self.lines()}
        self.assertEqual({name: line["answer"] for name, line in found.items()}, {
            "falling": "plan", "late": "plan", "wrong": "plan", "early": "stopped",
            "owners": "refused"})
        claims = {name: (found[name]["claim"], found[name]["cost"], found[name]["bound"])
                  for name in ("falling", "late")}
        self.assertEqual(claims, {"falling": (3, 4, 4), "late": (0, 4, 2)})
        for name, bound in (("falling", 4), ("late", 2)):
            self.assertTrue(found[name]["certified"] and found[name]["certificate"])
            self.assertEqual(found[name]["check_second"], f"accepted cost 4 bound {bound}")

    def test_that_there_is_no_plan_is_certified(self) -> None:
        run = self.run_suite(EXAMPLES / "ring-2x2.tiles", "--column", "falling=--num 3 --falling 2")
        self.assertEqual(run.returncode, 0, run.stderr)
        line, = self.lines()
        self.assertEqual((line["answer"], line["check_second"]), ("none", "accepted none"))


class Kills(Case):
    COUNT = 8

    def begin_and_wait(self, done: int) -> subprocess.Popen:
        """Begins runs of a third of a second each, two at a time, and waits until some are done."""
        driver = self.begin(*self.run_words(self.boards(self.COUNT), "--processes", 2), pause=0.3)
        self.addCleanup(driver.communicate)
        wait_for(lambda: self.out.exists() and len(self.records()) >= done, "some runs")
        return driver

    def finish(self, before: set) -> None:
        run = self.run_suite(self.boards(self.COUNT), "--processes", 2)
        self.assertEqual(run.returncode, 0, run.stderr)
        self.demand_all_once(self.COUNT, before)

    def test_the_driver_is_killed(self) -> None:
        driver = self.begin_and_wait(2)
        driver.kill()
        driver.wait()
        before = set(self.records())
        wait_for(lambda: not processes_with(str(self.place)), "an end of all processes")
        self.finish(before)

    def test_the_driver_is_interrupted(self) -> None:
        driver = self.begin_and_wait(2)
        driver.send_signal(signal.SIGINT)
        _, errors = driver.communicate(timeout=600)
        self.assertEqual(driver.returncode, 130, errors)
        self.assertIn("the same command goes on", errors)
        self.assertEqual(processes_with(str(self.place)), [])
        self.finish(set(self.records()))

    def test_a_worker_is_killed(self) -> None:
        driver = self.begin_and_wait(2)
        workers = subprocess.run(["pgrep", "-P", str(driver.pid), "-f", "spawn_main"],
                                 capture_output=True, text=True, check=True).stdout.split()
        self.assertEqual(len(workers), 2)
        before = set(self.records())
        os.kill(int(workers[0]), signal.SIGKILL)
        _, errors = driver.communicate(timeout=600)
        self.assertEqual(driver.returncode, 0, errors)
        self.assertIn("a worker was killed", errors)
        self.demand_all_once(self.COUNT, before)


class Others(Case):
    """Another planner's command, and what contradicts what."""

    def planner(self, cost: int) -> str:
        """A planner that writes a plan of this cost to its file."""
        place = self.place / "planner"
        place.write_text(f'#!/bin/sh\nprintf "(a)\\n(b)\\n; cost = {cost} (general cost)\\n" > "$2"\n'
                         'echo "Expanded 7 state(s)."\n', encoding="ascii")
        place.chmod(0o755)
        return f"other={place} {{problem}} {{plan}}"

    def test_a_plan_that_is_cheaper_than_the_bound_is_a_contradiction(self) -> None:
        problem = EXAMPLES / "pddl" / "blocks"
        run = self.run_suite(problem, "--planner", self.planner(1), "--reader",
                             "other=fast-downward")
        self.assertEqual(run.returncode, 1, run.stderr)
        self.assertIn("CONTRADICTION: blocks:problem.pddl: default says that no plan costs less "
                      "than 6, and other has one of 1", run.stderr)
        other = next(line for line in self.lines() if line["column"] == "other")
        self.assertEqual((other["cost"], other["steps"], other["expansions"]), (1, 2, 7))

    def test_a_dearer_plan_is_none(self) -> None:
        run = self.run_suite(EXAMPLES / "pddl" / "blocks", BOARD, "--planner", self.planner(9))
        self.assertEqual(run.returncode, 0, run.stderr)
        # (the board has no place in its command)
        self.assertEqual(sorted(line["column"] for line in self.lines()),
                         ["default", "default", "other"])

    def test_another_build_is_read_as_this_one(self) -> None:
        run = self.run_suite(EXAMPLES / "lake.scen", "--planner",
                             f"other={STAND_IN} solve grid {{map}} {{scenario}} --row {{row}}",
                             "--reader", "other=pbnf")
        self.assertEqual(run.returncode, 0, run.stderr)
        self.assertEqual({line["cost"] for line in self.lines()}, {38})


class Built(Case):
    """The same by a built program, if one is given."""

    def test_the_examples_are_certified_by_both_checkers(self) -> None:
        program = os.environ.get("SUITE_CHECK_PROGRAM", STAND_IN)
        run = self.call("run", *sorted(EXAMPLES.glob("*.scen")), *sorted(EXAMPLES.glob("*.tiles")),
                        EXAMPLES / "pddl" / "ferry",
                        "--out", self.out, "--program", program, "--check", "proved,second",
                        "--journal")
        self.assertEqual(run.returncode, 0, run.stderr)
        found = {line["task"]: line for line in self.lines()}
        self.assertTrue(all(line["certified"] and "expansions" in line for line in found.values()))
        self.assertEqual(found["lake.scen:0"]["cost"], 38)
        self.assertEqual(found["ring-2x2"]["answer"], "none")
        self.assertEqual(found["ring-2x2"]["check_proved"], "accepted none")
