"""Each status that isn't 0, and what the launcher says of it."""

import gzip
import os
import pathlib
import resource
import shutil
import signal
import subprocess

from .harness import Failed, wait_until

TWO_ROWS = "version 1\n0\tm\t3\t3\t0\t0\t2\t2\t4\n0\tm\t3\t3\t0\t0\t2\t0\t2\n"


def words_refused(place):
    """At 64 the usage of the command follows, and then the reason."""
    grid = place.grid()
    for words, out, err in (
        ([*grid, grid[0]], None, "pbnf: unexpected argument"),
        ([*grid, "--ro\x1bw"], None, "pbnf: unexpected argument '--ro?w' found"),
        ([grid[0]], "words files\n", "solve grid takes MAP SCENARIO; so many files were named: 1"),
        ([*grid, "--num", "1", "--den", "2"], "words weight\n", "less than D of --den"),
        ([*grid, "--cert", "x", "--trace", "x"], "words names\n", "are given one name"),
        ([*grid, "--engine", "hda", "--trace", "x"], "words engine\n", "keeps no journal"),
        ([*grid, "--falling", "2", "--trace", "x"], "words falling\n", "no journal is kept with"),
        ([*grid, "--falling", "2", "--engine", "hda"], "words engine\n", "has no falling weights"),
        ([*grid, "--engine", "hda", "--falling", "2", "--trace", "x"], "words engine\n",
         "keeps no journal"),
        ([*grid, "--falling", "0"], None, "pbnf: invalid value '0' for '--falling"),
        ([*grid, "--falling", "21"], None, "pbnf: invalid value '21' for '--falling"),
        ([*grid, "--estimate", "tables", "--pattern", "1"], "words estimate\n",
         "no pattern database is used with --estimate"),
        ([*grid, "--estimate", "tables", "--pattern", "1", "--falling", "2", "--trace", "x"],
         "words falling\n", "no journal is kept with"),
        ([*grid, "--tables", "x", "--pattern", "1"], "words estimate\n",
         "no pattern database is used with --tables"),
        ([*grid, "--tables=x", "--estimate", "tables"], "words estimate\n",
         "--tables names a file of tables: give one of them"),
        ([*grid, "--tables", "x", "--tables", "y"], None,
         "pbnf: the argument '--tables <tables>' cannot be used multiple times"),
        ([*grid, "--tables"], None, "pbnf: a value is required for '--tables <tables>'"),
        ([*grid, "--engine", "x"], None, "pbnf: invalid value 'x' for '--engine"),
        ([*grid, "--estimate", "x"], None, "pbnf: invalid value 'x' for '--estimate"),
        ([*grid, "--effort", "21"], None, "pbnf: invalid value '21' for '--effort"),
        ([*grid, "--budget", "0"], None, "pbnf: invalid value '0' for '--budget"),
    ):
        run = place.run("solve", "grid", *words).wants(64, out, ["usage: pbnf solve grid MAP", err])
        if "--cert CERTIFICATE" not in run.err or not run.out:
            raise Failed(f"a refusal and the usage were wanted:\n{run}")
    place.run("make", "grid", "1", "4000").wants(64, "words size\n", ["usage: pbnf make grid SEED"])
    place.run("other").wants(64, None, "usage: pbnf COMMAND KIND")
    place.run("check", "tiles", "a", "b", "c").wants(64, "words files\n",
                                                     "check tiles takes CERTIFICATE BOARD")


def input_refused(place):
    """At 65 the place in the file is shown, with the name as the shell writes it."""
    scen = place.grid()[1]
    cut = place.file("cut.map", "type octile\nheight 2\nwidth 3\nmap\n...\n.x.\n")
    run = place.run("solve", "grid", cut, scen)
    run.wants(65, "input Cell 6 2\n", [f"{cut}:6:2: ", "\n.x.\n ^"])
    board = place.file("twice \x1b[31m.tiles", "2 2\n1 1\n2 3\n")
    run = place.run("solve", "tiles", board).wants(65, "input Twice 1\n", "twice \\E[31m.tiles': ")
    run.lacks("\x1b")
    domain = place.file("domain.pddl", "(define (domain d) (:requirements :strips) (:foo))\n")
    problem = place.example("two-blocks.pddl")
    place.run("solve", "strips", domain, problem).wants(65, None, [f"{domain}:1:", "^"])
    place.run("solve", "grid", place.grid()[0], scen, "--row", "7").wants(65, "input NoRow 7 1\n",
                                                                        "there is no row 7")


def order_of_files(place):
    """Files in another order than they should be are recognized."""
    grid, problem = place.grid(), place.example("two-blocks.pddl")
    cert = place.file("order.cert", "pbnf-certificate 2\n")
    place.run("solve", "grid", *reversed(grid)).wants(65, None, "the map comes before it")
    place.run("check", "grid", *grid, cert).wants(65, None, "it comes first")
    place.run("solve", "strips", problem, place.example("blocks.pddl")).wants(
        65, None, "the domain comes before it")


def packed_input(place):
    """A gzipped input or certificate is recognized, and the shown words work."""
    grid = place.grid("lake")
    packed = place.file("lake map.gz", gzip.compress(open(grid[0], "rb").read()))
    run = place.run("solve", "grid", packed, grid[1])
    shown = packed.replace(" ", "\\ ")
    run.wants(65, "input Header 1\n", f"{shown} is gzipped: give <(zcat {shown}) in its place")
    shown_again = subprocess.run(
        ["bash", "-c", f"{shell(place.root / 'pbnf')} solve grid <(zcat {shown}) {shell(grid[1])}"],
        capture_output=True, env=place.env, check=False)
    if shown_again.returncode != 0:
        raise Failed("the shown words don't work")
    cert = place.file("some.cert.gz", gzip.compress(b"pbnf-certificate 2\n"))
    place.run("check", "grid", cert, *grid).wants(3, "refused Syntax 1\n", "is gzipped")


def shell(name):
    return "'" + str(name).replace("'", "'\\''") + "'"


def refuse_changed(place, text, words, changes):
    """Each change of a certificate's text is refused, with these words about it."""
    kind, *files = words
    for change, out, err in changes:
        other = place.file("other.cert", text.replace(*change))
        place.run("check", kind, other, *files).wants(3, out, err)


def refused_certificate(place):
    """At 3 the fault stands in words, with the line's text."""
    grid = place.grid()
    cert = place.file("first.cert", "")
    place.run("solve", "grid", *grid, "--cert", cert).wants(0)
    text = open(cert).read()
    refuse_changed(place, text, ["grid", *grid], (
        (("weight 1 1", "weight 0 1"), "refused Weight\n", [":4: the weight", "weight 0 1"]),
        (("cost 4", "cost 5"), "refused Cost 5 4\n", [":10: ", "costs 5, and it costs 4", "cost 5"]),
        (("kind grid", "kind tiles"), "refused Kind\n", [":2: ", "kind tiles"]),
        (("width 6", "width 0"), "refused Syntax 3\n", [":3: ", "from 1 to 256", "width 0"]),
        (("width 6", "width 7"), "refused Syntax 12\n", [":12: "]),
        (("plan 4\n3", "plan 4\n0"), "refused PlanStep 0\n", [":6: this step", "\n0\n"]),
        (("end\n", "End\n"), None, ["isn't spelled as one of a certificate", "End"]),
    ))
    wide = text.replace("width 6", "width 7").replace("\n00", "\n000")
    place.run("check", "grid", place.file("wide.cert", wide), *grid).wants(
        3, "refused Width 7 6\n", [":3: ", "of 7 digits, and those of the task take 6", "width 7"])
    new = text.replace("-certificate 2", "-certificate 3")
    for line, out, err in (("pattern 0", "refused Pattern\n", [":4: the number", "pattern 0"]),
                           ("pattern 03", "refused Syntax 4\n", [":4: the fourth line is"])):
        other = place.file("new.cert", new.replace("width 6\n", f"width 6\n{line}\n"))
        place.run("check", "grid", other, *grid).wants(3, out, err)
    right = place.file("right.cert", new.replace("width 6\n", "width 6\npattern 3\n"))
    place.run("check", "grid", right, *grid).wants(0, None)
    dear = new.replace("width 6\n", "width 6\npattern 3\n").replace("cost 4", "cost 5")
    place.run("check", "grid", place.file("dear.cert", dear), *grid).wants(
        3, "refused Cost 5 4\n", [":11: ", "costs 5, and it costs 4"])
    old = text.replace("-certificate 2", "-certificate 1").replace("width 6\n", "")
    old = old.replace("\n00", "\n" + 60 * "0")
    place.run("check", "grid", place.file("old.cert", old), *grid).wants(0, None)
    place.run("check", "grid", place.file("old.cert", old.replace("cost 4", "cost 5")),
              *grid).wants(3, "refused Cost 5 4\n", [":9: ", "costs 5, and it costs 4"])


def other_row(place):
    """A certificate of another row of the scenario is recognized."""
    scen = place.file("two.scen", TWO_ROWS)
    grid = [place.grid()[0], scen]
    cert = place.file("row.cert", "")
    place.run("solve", "grid", *grid, "--row", "1", "--cert", cert).wants(0)
    place.run("check", "grid", cert, *grid).wants(
        3, "refused NotGoal\n", ["(0, 0) to (2, 0), as row 1 of the scenario does: give --row 1?"])
    place.run("check", "grid", cert, *grid, "--row", "1").wants(0, None).lacks("give --row")


def other_costs(place):
    """A certificate that was made with --swamp, or without, is recognized."""
    swamp = place.file("swamp.map", "type octile\nheight 1\nwidth 3\nmap\n.S.\n")
    scen = place.file("swamp.scen", "version 1\n0\tm\t3\t1\t0\t0\t2\t0\t2\n")
    cert = place.file("swamp.cert", "")
    place.run("solve", "grid", swamp, scen, "--swamp", "--cert", cert).wants(0)
    place.run("check", "grid", cert, swamp, scen).wants(
        3, "refused Cost 3 2\n", "was the certificate made with --swamp?")
    place.run("solve", "grid", swamp, scen, "--cert", cert).wants(0)
    place.run("check", "grid", cert, swamp, scen, "--swamp").wants(
        3, "refused Cost 2 3\n", "was the certificate made without --swamp?")


def other_grounding(place):
    """A certificate that was made with --reachable, or without, is recognized, and the flag is
    shown for a problem that is too large."""
    files = [place.example("blocks.pddl"), place.example("two-blocks.pddl")]
    cert = place.file("reached.cert", "")
    place.run("solve", "strips", *files, "--reachable", "--cert", cert).wants(0)
    place.run("check", "strips", cert, *files, "--reachable").wants(0, "accepted cost 2 bound 2\n")
    place.run("check", "strips", cert, *files).wants(
        3, "refused Grounding\n", [":4: ", "grounding reachable", "made with --reachable"])
    text = open(cert).read()
    refuse_changed(place, text, ["strips", *files, "--reachable"], (
        (("kind strips", "kind grid"), "refused Syntax 2\n", [":2: ", "for STRIPS alone"]),
        (("grounding reachable", "grounding x"), "refused Syntax 4\n", [":4: ", "`grounding all`"]),
        (("estimate plain", "estimate"), "refused Syntax 5\n", [":5: ", "the fifth line is"]),
        (("estimate plain", "estimate pattern 13"), "refused Pattern\n", [":5: ", "is 1 to 12"]),
        (("weight 1 1", "weight 0 1"), "refused Weight\n", [":6: ", "weight 0 1"]),
        (("cost 2", "cost 3"), "refused Cost 3 2\n", [":10: ", "cost 3"]),
    ))
    place.run("solve", "strips", *files, "--cert", cert).wants(0)
    place.run("check", "strips", cert, *files, "--reachable").wants(
        3, "refused Grounding\n", [":1: ", "made without --reachable"])
    domain = place.file("pairs.pddl", "(define (domain d) (:predicates (p ?x ?y) (q)) (:action a "
                        ":parameters (?x ?y) :precondition (q) :effect (p ?x ?y)))")
    names = " ".join(f"o{number}" for number in range(40))
    problem = place.file("forty.pddl", "(define (problem e) (:domain d) (:objects " + names
                         + ") (:goal (p o1 o2)))")
    place.run("solve", "strips", domain, problem).wants(
        65, "input TooManyAtoms 1600\n", ["1600 ground atoms", "with --reachable only"])
    place.run("solve", "strips", domain, problem, "--reachable").wants(1, "none\n")


def one_step(place):
    """A problem that one action solves at cost 3."""
    return [
        place.file("step.pddl", "(define (domain d) (:predicates (p) (q)) "
                   "(:functions (total-cost)) (:action a :precondition (p) :effect (and (not (p)) (q) "
                   "(increase (total-cost) 3))))"),
        place.file("one-step.pddl", "(define (problem e) (:domain d) (:init (p)) (:goal (q)) "
                   "(:metric minimize (total-cost)))")]


def refused_tables(place):
    """The line of a table that is at fault is shown, and which sum an action doesn't pay for. A
    certificate of a search by tables is accepted."""
    files = one_step(place)
    text = ("pbnf-certificate 4\nkind strips\nwidth 1\ngrounding all\nestimate tables 1 1 0\n"
            "table 3 2\n1 3\n2 0\nweight 1 1\nplan 1\n0\ncost 3\nrows 1\n1 0 cut\nend\n")
    cert = place.file("tables.cert", text)
    place.run("check", "strips", cert, *files).wants(0, "accepted cost 3 bound 3\n")
    found = str(place.work / "found.cert")
    place.run("solve", "strips", *files, "--estimate", "tables", "--cert", found).wants(
        0, "plan 3 1\n(a)\nbound 3\n")
    place.run("check", "strips", found, *files).wants(0, "accepted cost 3 bound 3\n")
    refuse_changed(place, text, ["strips", *files], (
        (("1 3\n", "1 4\n"), "refused Unpaid 0 0\n", [":5: ", "the drops of action 0"]),
        (("1 3\n", "1 2\n"), "refused Low 14\n", [":14: ", "1 0 cut"]),
        (("2 0\n", "2 1\n"), "refused Table 8\n", [":8: ", "a value other than 0"]),
        (("table 3 2", "table 7 2"), "refused Table 6\n", [":6: ", "tracked atoms"]),
        (("1 3\n2 0\n", "2 0\n1 3\n"), "refused Table 8\n", [":8: ", "isn't above"]),
        (("table 3 2", "table 2 2"), "refused Table 7\n", [":7: ", "doesn't track"]),
        (("2 0\n", "2\n"), "refused Syntax 8\n", [":8: ", "`IMAGE V1 .. VM`"]),
        (("table 3 2", "tables 3 2"), "refused Syntax 6\n", [":6: ", "`table TRACKED N`"]),
        (("tables 1 1 0", "tables 65 1 0"), "refused Syntax 5\n", [":5: ", "the fifth line is"]),
        (("cost 3", "cost 4"), "refused Cost 4 3\n", [":12: ", "cost 4"]),
    ))


def file_of_tables(place):
    """A search by a file of tables, and each of its refusals with the line that is at fault."""
    files = one_step(place)
    text = "estimate tables 1 1 0\ntable 3 2\n1 3\n2 0\n"
    name = place.file("one step.tables", text)
    cert = str(place.work / "of-tables.cert")
    place.run("solve", "strips", *files, "--tables", name, "--cert", cert).wants(
        0, "plan 3 1\n(a)\nbound 3\n")
    place.run("check", "strips", cert, *files).wants(0, "accepted cost 3 bound 3\n")
    kept = pathlib.Path(cert).read_text()
    for old, new, out, err in (
            ("1 3\n", "1 4\n", "input Unpaid 0 0\n", [":1: ", "the drops of action 0"]),
            ("2 0\n", "2 1\n", "input Unsuited 4\n", [":4: ", "a value other than 0"]),
            ("table 3 2\n1 3\n2 0\n", "table 3 1\n1 3\n", "input Unsuited 3\n",
             [":3: ", "an action leads from this image"]),
            ("1 3\n2 0\n", "2 0\n1 3\n", "input Unsuited 4\n", [":4: ", "isn't above"]),
            ("table 3 2", "table 7 2", "input Unsuited 2\n", [":2: ", "tracked atoms"]),
            ("table 3 2", "table 2 2", "input Unsuited 3\n", [":3: ", "doesn't track"]),
            ("2 0\n", "2\n", "input Tables 4\n", [":4: ", "`IMAGE V1 .. VM`"]),
            ("2 0\n", "2 0", "input Tables 4\n", [":4: ", "lacks the line feed"]),
            ("2 0\n", "", "input Tables 4\n", [":4: the file ends", "`IMAGE V1 .. VM`"]),
            ("2 0\n", "2 0\nend\n", "input Tables 5\n", [":5: nothing stands behind", "end"]),
            ("1 3\n", "1 3\r\n", "input Tables 3\n", [":3: ", "a carriage return"]),
            ("table 3 2", "tables 3 2", "input Tables 2\n", [":2: ", "`table TRACKED N`"]),
            ("tables 1 1 0", "tables 65 1 0", "input Tables 1\n", [":1: ", "the first line is"]),
            (text, "", "input Tables 1\n", [":1: ", "the first line is"]),
            (text, kept, "input Tables 1\n", [":1: this is a certificate", "tools/tables-of"])):
        other = place.file("other.tables", text.replace(old, new))
        place.run("solve", "strips", *files, "--tables", other).wants(65, out, err)
    place.run("solve", "strips", *files, f"--tables={other}", "--reachable").wants(
        65, "input Tables 1\n", ":1: this is a certificate")
    other = place.file("other.tables", text.replace("1 3\n", "1 4\n"))
    place.run("solve", "strips", *files, "--tables", other, "--reachable").wants(
        65, "input Unpaid 0 0\n", "were they made without --reachable?")
    packed = place.file("tables.gz", gzip.compress(text.encode()))
    place.run("solve", "strips", *files, "--tables", packed).wants(
        65, "input Tables 1\n", "is gzipped")
    with open(other, "wb") as long:
        long.truncate((1 << 30) + 1)
    place.run("solve", "strips", *files, "--tables", other).wants(
        65, "input TooLong\n", f"{other}: the file has more than 1 GiB")
    os.remove(other)
    place.run("solve", "strips", *files, "--tables", other).wants(
        73, "", f"{other} (isn't there)").lacks("step.pddl")
    place.run("solve", "grid", *place.grid(), "--tables", other).wants(0)


def refused_journal(place):
    """The same of a journal."""
    board = place.example("four-moves.tiles")
    journal = place.file("four.journal", "")
    place.run("solve", "tiles", board, "--trace", journal).wants(0)
    text = open(journal).read()
    other = place.file("other.journal", text.replace("off 0 ok", "off 1 ok"))
    run = place.run("journal", "tiles", other, board)
    run.wants(3, None, ["there is no such worker", "off 1 ok"])
    place.run("journal", "tiles", board, board).wants(3, None, "this is no journal")


def stopped(place):
    """At 2 the time and the memory are said, also where no terminal is."""
    ring = place.example("ring-2x2.tiles")
    run = place.run("solve", "tiles", ring, "--lot", "1", "--budget", "+011")
    run.wants(2, "stopped budget 11\n", ["pbnf: 11 expansions took 0.", " s"])
    run = place.run("make", "tiles", "1", "1000000")
    if run.status == 2:
        run.wants(2, None, ["16,777,216 expansions took ", " of memory"])
    board = place.file("long.tiles", "4 4\n15 14 8 12 10 11 9 13 2 6 5 1 3 7 4 0\n")
    # (long enough for a look at the memory, on a quick machine too)
    run = place.run("solve", "tiles", board, "--budget", "1000000")
    run.wants(2, "stopped budget 1000000\n", ["1,000,000 expansions took ", "MiB of memory"])


def stopped_in_grounding(place):
    """At 2 of a judging command grounding stopped. After a second of a search of PDDL it may have."""
    files = [place.example("blocks.pddl"), place.example("two-blocks.pddl")]
    judged = place.file("judged", "")
    with place.stand_in("#!/bin/sh\necho stopped grounding\nsleep 1.1\nexit 2\n"):
        for command in ("check", "journal"):
            run = place.run(command, "strips", judged, *files).wants(2, "stopped grounding\n")
            run.wants(2, None, ["grounding took 1.", "nothing was judged", "docs/PDDL.md"])
        run = place.run("solve", "strips", *files).wants(2, "stopped grounding\n")
        run.wants(2, None, ["it took 1.", "`stopped budget`", "`stopped grounding`", "--budget"])
        place.run("solve", "tiles", judged).wants(2, None, "16,777,216 expansions took 1.")
    with place.stand_in("#!/bin/sh\necho stopped budget 3\nexit 2\n"):
        run = place.run("solve", "strips", *files, "--budget", "3").wants(
            2, None, "3 expansions took 0.")
        run.lacks("grounding")


def no_memory(place):
    """At 71 it is said that nothing was printed."""
    def limit():
        resource.setrlimit(resource.RLIMIT_AS, (12 << 20, 12 << 20))
    board = place.file("hard.tiles", "3 4\n11 10 9 8 7 6 5 4 3 2 1 0\n")
    # (the launcher itself gets by with less address space than the program)
    place.run("solve", "tiles", board, preexec_fn=limit).wants(71, "", "out of memory")


def files_failed(place):
    """At 73 the file that failed is named, and no other."""
    grid = place.grid()
    none = str(place.work / "nothing.scen")
    run = place.run("solve", "grid", grid[0], none).wants(73, "", f"{none} (isn't there)")
    run.lacks("empty-3x3")
    place.run("solve", "grid", grid[0], str(place.work)).wants(73, "", "(is a folder)")
    for cert, err in (("/dev/full", "the certificate /dev/full (no space left)"),
                      ("no/x", "the certificate no/x (its folder isn't there)"),
                      (".", "the certificate . (is a folder)")):
        place.run("solve", "grid", *grid, "--cert", cert, "--trace", "kept.journal").wants(
            73, "", err).lacks("empty-3x3", "kept.journal")
    place.run("solve", "grid", *grid, "--trace=/dev/full").wants(73, "", "the journal /dev/full")


def dash_is_a_name(place):
    """`-` alone is a name."""
    run = place.run("solve", "grid", "-", "--row", "3", place.grid()[1])
    run.wants(73, "", "- (isn't there; standard input is /dev/stdin)").lacks("empty-3x3")
    shutil.copy(place.grid()[0], place.work / "-")
    place.run("solve", "grid", "-", place.grid()[1]).wants(0)
    os.remove(place.work / "-")


def output_failed(place):
    """At 74 a first part of the report is there."""
    with open("/dev/full", "wb") as full:
        place.run("solve", "grid", *place.grid(), stdout=full).wants(74, "", "could not be written")


def ended_by_a_signal(place):
    """A program that a signal ends is said to be, with 128 and its number."""
    board = place.file("endless.tiles", "4 4\n15 14 8 12 10 11 9 13 2 6 5 1 3 7 4 0\n")
    with place.begin("solve", "tiles", board) as it:
        wait_until("the program runs", lambda: place.processes(str(place.program)))
        for process in place.processes(str(place.program)):
            os.kill(process, signal.SIGKILL)
        _, err = it.communicate(timeout=20)
    if it.returncode != 137 or b"the program was ended by signal 9" not in err:
        raise Failed(f"status {it.returncode}: {err}")


CASES = [words_refused, input_refused, order_of_files, packed_input, refused_certificate,
         other_row, other_costs, other_grounding, refused_tables, file_of_tables, refused_journal,
         stopped, stopped_in_grounding, no_memory, files_failed, dash_is_a_name, output_failed,
         ended_by_a_signal]
