"""The folder of results: what goes on, what is refused, and what is written for other programs."""

from __future__ import annotations

import csv
import gzip
import hashlib
import json
import subprocess
import sys

from .common import BOARD, EXAMPLES, STAND_IN, TOOLS, Case, wait_for


class Folders(Case):
    def test_a_run_that_has_a_record_isnt_run_again(self) -> None:
        boards = self.boards(3)
        self.assertEqual(self.run_suite(boards).returncode, 0)
        place = self.out / "results.jsonl"
        lines = place.read_bytes().splitlines(keepends=True)
        # One line is lost, and one was cut off by a kill.
        place.write_bytes(lines[0] + lines[1][:40])
        again = self.run_suite(boards)
        self.assertIn("0 runs to do, 3 are done", again.stderr)
        self.assertEqual(len(self.searches()), 3)
        self.assertEqual(len({line["key"] for line in self.lines()}), 3)
        self.assertEqual(len(self.lines()), 3)

    def test_more_tasks_and_columns_are_added(self) -> None:
        self.assertEqual(self.run_suite(BOARD).returncode, 0)
        more = self.run_suite(BOARD, EXAMPLES / "lake.scen", "--column", "default=", "--column",
                              "small=--lot 16")
        self.assertIn("3 runs to do, 1 are done", more.stderr)
        self.assertEqual(len(self.lines()), 4)

    def test_a_folder_has_one_program_and_the_same_limits(self) -> None:
        self.assertEqual(self.run_suite(BOARD).returncode, 0)
        run = self.run_suite(BOARD, "--seconds", 5)
        self.assertEqual(run.returncode, 64)
        self.assertIn("was made with seconds 60.0 (now 5.0)", run.stderr)
        other = self.place / "other"
        other.write_text(open(STAND_IN, encoding="utf-8").read() + "# another\n", encoding="utf-8")
        other.chmod(0o755)
        run = self.call("run", BOARD, "--out", self.out, "--program", other, "--check", "second")
        self.assertEqual(run.returncode, 64)
        self.assertIn("was made with program", run.stderr)

    def test_one_caller_at_a_time(self) -> None:
        first = self.begin(*self.run_words(self.boards(2), "--processes", 1), pause=1)
        self.addCleanup(first.communicate)
        wait_for(lambda: (self.out / ".lock").exists() and list((self.out / "runs").iterdir()),
                 "the first run")
        second = self.run_suite(BOARD)
        self.assertEqual(second.returncode, 64)
        self.assertIn("another tools/suite writes to", second.stderr)
        self.assertEqual(first.wait(timeout=600), 0)

    def test_the_record_says_what_was_run(self) -> None:
        self.assertEqual(self.run_suite(EXAMPLES / "lake.scen", "--column",
                                        "both=--swamp --lot 16").returncode, 0)
        record = self.records()["lake.scen:0"]
        text = gzip.decompress((self.out / record["certificate"]).read_bytes())
        self.assertTrue(text.startswith(b"pbnf-certificate 2\nkind grid\n"))
        self.assertEqual(record["certificate_sha256"], hashlib.sha256(text).hexdigest())
        self.assertEqual(record["program"]["sha256"],
                         hashlib.sha256(open(STAND_IN, "rb").read()).hexdigest())
        for file, name in zip(record["inputs"], ("lake.map", "lake.scen")):
            own = (EXAMPLES / name).read_bytes()
            self.assertEqual((self.out / file["path"]).read_bytes(), own)
            self.assertEqual(file["sha256"], hashlib.sha256(own).hexdigest())
        self.assertEqual(record["words"][4:], ["--row=0", "--swamp", "--lot", "16"])
        self.assertTrue(record["report"].startswith("plan 38 38\n"))
        self.assertTrue(record["report"].endswith("bound 38\n"))

    def test_a_column_by_reachability(self) -> None:
        folder = EXAMPLES / "pddl" / "keys"
        self.assertEqual(self.run_suite(folder, "--column", "all=", "--column",
                                        "some=--reachable --pattern 2", "--column",
                                        "sums=--estimate tables --effort 1").returncode, 0)
        heads = {}
        for place in (self.out / "runs").glob("*.json"):
            record = json.loads(place.read_text())
            text = gzip.decompress((self.out / record["certificate"]).read_bytes())
            heads[record["column"], record["reachable"]] = text.split(b"weight ")[0]
            self.assertTrue(record["certified"])
        self.assertEqual(heads, {
            ("all", False): b"pbnf-certificate 2\nkind strips\nwidth 3\n",
            ("some", True): b"pbnf-certificate 4\nkind strips\nwidth 2\ngrounding reachable\n"
                            b"estimate pattern 2\n",
            ("sums", False): b"pbnf-certificate 4\nkind strips\nwidth 3\ngrounding all\n"
                             b"estimate tables 1 0 0\n"})
        self.assertEqual(self.call("verify", self.out).returncode, 0)

    def test_places_must_be_enough(self) -> None:
        run = self.run_suite(BOARD, "--column", "four=--workers 4", "--processes", 2)
        self.assertEqual(run.returncode, 64)
        self.assertIn("a run has 4 workers, and there are 2 places", run.stderr)

    def test_a_file_of_tables_is_for_one_problem(self) -> None:
        for option in ("--tables t", "--tables=t"):
            run = self.run_suite(BOARD, "--column", f"file={option}")
            self.assertEqual(run.returncode, 64)
            self.assertIn("a file of tables is for one problem, and a column for all", run.stderr)

    def test_faulty_words(self) -> None:
        for words in (["run"], ["run", BOARD], ["nonsense"], ["show"], [
                "run", BOARD, "--out", self.out, "--seconds", "never"], [
                "run", BOARD, "--out", self.out, "--check", "third"], [
                "run", BOARD, "--out", self.out, "--program", self.place / "none"], [
                "show", self.place]):
            run = self.call(*words)
            self.assertEqual(run.returncode, 64, words)
            self.assertTrue(run.stderr.startswith(("suite: ", "usage: ")), run.stderr)

    def test_a_missing_module_is_one_line(self) -> None:
        code = ("import sys; sys.path.insert(0, sys.argv.pop(1)); sys.modules['distributed'] = "
                "None; from suite_parts import command; sys.exit(command.main(sys.argv[1:]))")
        run = subprocess.run(
            [sys.executable, "-c", code, TOOLS, *map(str, self.run_words(BOARD)), "--dask",
             "127.0.0.1:1"], capture_output=True, text=True, check=False)
        self.assertEqual(run.returncode, 64)
        self.assertIn("apt install python3-distributed", run.stderr)
        self.assertNotIn("Traceback", run.stderr)


class Reports(Case):
    def setUp(self) -> None:
        super().setUp()
        run = self.run_suite(EXAMPLES / "pddl" / "blocks", EXAMPLES / "wall-3x3.scen", "--column",
                             "one=", "--column", "two=--budget 3", "--journal")
        self.assertEqual(run.returncode, 0, run.stderr)

    def test_tables(self) -> None:
        text = self.call("show", self.out).stdout
        self.assertRegex(text, r"blocks +one +1 +1 +0 +1\n")
        self.assertRegex(text, r"blocks +two +1 +0 +0 +1 budget +0\n")
        text = self.call("show", self.out, "--tasks", "--markdown").stdout
        self.assertIn("| blocks:problem.pddl | one | 6 |  | 6 | yes | 12 | 22 |", text)
        self.assertIn("| wall-3x3.scen:0 | one | none | 0 |  | yes |", text)

    def test_files_for_others(self) -> None:
        run = self.call("report", self.out)
        self.assertEqual(run.returncode, 0, run.stderr)
        with open(self.out / "results.csv", encoding="utf-8", newline="") as file:
            rows = {(row["task"], row["column"]): row for row in csv.DictReader(file)}
        self.assertEqual(rows["blocks:problem.pddl", "one"]["cost"], "6")
        self.assertEqual(rows["blocks:problem.pddl", "two"]["cost"], "")
        found = json.loads((self.out / "properties").read_text(encoding="utf-8"))
        one = found["one-blocks-problem.pddl"]
        self.assertEqual(one["id"], ["one", "blocks", "problem.pddl"])
        self.assertEqual((one["coverage"], one["error"], one["expansions"]), (1, "success", 12))
        self.assertEqual(found["two-blocks-problem.pddl"]["error"], "search-out-of-budget")
        self.assertEqual(found["one-wall-3x3.map-0"]["unsolvable"], 1)
        page = (self.out / "report.html").read_text(encoding="utf-8")
        self.assertEqual(page.count("data:image/svg+xml"), 2)  # a cactus plot and a scatter plot
        self.assertIn("<td>blocks<td>one", page)
