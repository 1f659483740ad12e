"""Where tasks and columns come from, and which are refused."""

from __future__ import annotations

import pathlib

from .. import tables, tasks
from ..jobs import column_of, planner_of
from .common import EXAMPLES, Case


class Sources(Case):
    def names(self, source: pathlib.Path) -> list:
        return [task.name for task in tasks.tasks_of(str(source))]

    def write(self, name: str, text: str = "") -> pathlib.Path:
        path = self.place / name
        path.parent.mkdir(parents=True, exist_ok=True)
        path.write_text(text, encoding="ascii")
        return path

    def test_each_row_of_a_scenario_is_a_task(self) -> None:
        self.write("a.map", "type octile\n")
        rows = "0\tx.map\t3\t3\t0\t0\t2\t2\t2.5\n\n1\tx.map\t3\t3\t0\t0\t1\t1\t1.4\n"
        found = list(tasks.tasks_of(str(self.write("a.map.scen", "version 1\n" + rows))))
        self.assertEqual([task.row for task in found], [0, 1])
        self.assertEqual([task.note for task in found], ["2.5", "1.4"])
        self.assertEqual([text.name for text in found[0].inputs], ["a.map", "a.map.scen"])

    def test_the_map_is_that_of_the_same_name_or_of_the_row(self) -> None:
        self.write("other.map", "type octile\n")
        row = "version 1\n0\tdeep/other.map\t3\t3\t0\t0\t2\t2\t2\n"
        task = next(iter(tasks.tasks_of(str(self.write("b.scen", row)))))
        self.assertEqual(task.inputs[0].name, "other.map")
        with self.assertRaises(tasks.Faulty):
            list(tasks.tasks_of(str(self.write("c.scen", row.replace("other", "none")))))

    def test_korfs_list_has_a_board_a_line(self) -> None:
        lines = "1 14 13 15 7 11 12 9 5 6 0 2 1 4 8 10 3\n\n# easy\n1 0 2 3 4 5 6 7 8\n"
        first, second = tasks.tasks_of(str(self.write("korf.txt", lines)))
        self.assertEqual((first.name, second.name), ("korf:1", "korf:4"))
        self.assertEqual(first.inputs[0].content, b"4 4\n14 13 15 7 11 12 9 5 6 0 2 1 4 8 10 3\n")
        self.assertEqual(second.inputs[0].content, b"3 3\n1 0 2 3 4 5 6 7 8\n")
        for wrong in ("1 2 3\n", "1 14 13 15 7 11 12 9 5 6 0 2 1 4 8 10 x\n"):
            with self.assertRaises(tasks.Faulty):
                list(tasks.tasks_of(str(self.write("wrong.txt", wrong))))

    def test_a_folder_has_the_layouts_of_the_competitions(self) -> None:
        for name in ("one/domain.pddl", "one/p2.pddl", "one/p10.pddl", "two/domain_p01.pddl",
                     "two/p01.pddl", "three/p01-domain.pddl", "three/p01.pddl", "four/p01.pddl"):
            self.write(name)
        self.assertEqual(self.names(self.place),
                         ["one:p2.pddl", "one:p10.pddl", "three:p01.pddl", "two:p01.pddl"])
        found = {task.name: task.inputs[0].name for task in tasks.tasks_of(str(self.place))}
        self.assertEqual(found["two:p01.pddl"], "domain_p01.pddl")
        self.assertEqual(found["three:p01.pddl"], "p01-domain.pddl")

    def test_the_examples_are_sixteen_problems(self) -> None:
        self.assertEqual(len(self.names(EXAMPLES / "pddl")), 16)

    def test_what_isnt_there_is_refused(self) -> None:
        for name in ("nothing.scen", "nothing"):
            with self.assertRaises(tasks.Faulty):
                list(tasks.tasks_of(str(self.place / name)))
        (self.place / "empty").mkdir()
        with self.assertRaises(tasks.Faulty):
            list(tasks.tasks_of(str(self.place / "empty")))

    def test_columns_are_options_or_commands(self) -> None:
        self.assertEqual(column_of("a=--lot 16 --workers 4").places, 4)
        self.assertEqual(column_of("a=--workers=2").places, 2)
        self.assertEqual(column_of("a=").options, ())
        for wrong in ("a", "a b=--lot 1", "a=--cert x", "a=--row=3"):
            with self.assertRaises(tasks.Faulty):
                column_of(wrong)
        self.assertEqual(planner_of("p=cat {domain}", {"p": "pbnf"}).reader, "pbnf")
        for wrong in ("p=no-such-program {domain}", "p=cat file", "p="):
            with self.assertRaises(tasks.Faulty):
                planner_of(wrong, {})


class Means(Case):
    def test_a_geometric_mean(self) -> None:
        self.assertAlmostEqual(tables.geometric_mean([1, 100, None]), 10)
        self.assertIsNone(tables.geometric_mean([None]))
