"""The command line of `tools/suite`."""

from __future__ import annotations

import argparse
import os
import pathlib
import signal
import sys
import typing

from . import packages
from .driver import run_all
from .jobs import Column, Settings, column_of, job_of, planner_of, takes
from .pools import DaskPool, LocalPool, opened
from .results import Results
from .tasks import Faulty, tasks_of
from .version import version_of
from .work import Job, run_job, sum_of

ROOT = pathlib.Path(__file__).resolve().parent.parent.parent
BUILT = ROOT / "crates" / "pbnf" / "out" / "pbnf"
SECOND = ROOT / "checker" / "pbnf_check.py"
OK, FAULT, USAGE, INTERRUPTED = 0, 1, 64, 130

DESCRIPTION = """Runs many tasks on one machine or on many, and checks every certificate.

    tools/suite run examples/*.scen --out results
    tools/suite show results
    tools/suite report results
    tools/suite verify results

docs/USING.md explains it, and docs/CLUSTER.md has clusters. Statuses: 0; 1 if a certificate is
refused, a run has no record, or two columns contradict each other; 64 if a file or a word is
faulty; 130 after an interrupt, after which the same command goes on.
"""


class Parser(argparse.ArgumentParser):
    """Ends with status 64 at a faulty command line, as the program does."""

    def error(self, message: str) -> typing.NoReturn:
        self.exit(USAGE, f"suite: {message}; see `{self.prog} --help`\n")


def whole(least: int, most: int) -> typing.Callable[[str], int]:
    def read(word: str) -> int:
        if not word.isdecimal() or not least <= int(word) <= most:
            raise argparse.ArgumentTypeError(f"`{word}` isn't a number from {least} to {most}")
        return int(word)
    return read


def seconds(word: str) -> float:
    try:
        if 0 < float(word) <= 10**7:
            return float(word)
    except ValueError:
        pass
    raise argparse.ArgumentTypeError(f"`{word}` is no time in seconds")


def size(word: str) -> float:
    try:
        if 2**-20 <= float(word) <= 2**20:
            return float(word)
    except ValueError:
        pass
    raise argparse.ArgumentTypeError(f"`{word}` is no size in MiB")


def checks(word: str) -> typing.Tuple[str, ...]:
    names = tuple(word.split(",")) if word != "none" else ()
    if not set(names) <= {"proved", "second"} or len(set(names)) < len(names):
        raise argparse.ArgumentTypeError("it is `proved`, `second`, `proved,second` or `none`")
    return names


def parser_of() -> Parser:
    parser = Parser(prog="tools/suite", description=DESCRIPTION,
                    formatter_class=argparse.RawDescriptionHelpFormatter)
    words = parser.add_subparsers(required=True, metavar="WORD")
    add_run(words)
    show = words.add_parser("show", help="tables of the results")
    show.add_argument("folder", metavar="DIR")
    show.add_argument("--tasks", action="store_true", help="a line a run, not a line a domain")
    show.add_argument("--markdown", action="store_true", help="tables of Markdown")
    show.set_defaults(call=show_results)
    report = words.add_parser("report", help="results.csv, report.html with plots, and the file "
                                             "`properties` in the form of Downward Lab")
    report.add_argument("folder", metavar="DIR")
    report.set_defaults(call=report_results)
    add_verify(words)
    return parser


def add_run(words: typing.Any) -> None:
    run = words.add_parser("run", help="runs tasks, those that have no result yet")
    run.add_argument("tasks", nargs="+", metavar="TASK",
                     help="a scenario (all rows), a board (.tiles), a list of boards, a problem "
                          "(.pddl), or a folder of domains and problems")
    run.add_argument("--out", required=True, metavar="DIR", help="the folder of results")
    run.add_argument("--column", action="append", default=[], metavar="NAME=OPTIONS",
                     help="options of pbnf to compare, as 'small=--lot 16'; may be repeated")
    run.add_argument("--planner", action="append", default=[], metavar="NAME=COMMAND",
                     help="another planner's command, with {domain} {problem} {map} {scenario} "
                          "{row} {board} {plan} in place of files")
    run.add_argument("--reader", action="append", default=[], metavar="NAME=READER",
                     help="how that planner's answer is read: ipc (its file {plan}; the default), "
                          "fast-downward, pbnf, or a program")
    run.add_argument("--first", type=whole(1, 10**9), metavar="N",
                     help="the first N tasks of each TASK alone")
    run.add_argument("--seconds", type=seconds, default=60.0, help="for a run (60)")
    run.add_argument("--mib", type=whole(1, 2**24), default=2048,
                     help="of address space for a run (2048)")
    run.add_argument("--journal", action="store_true",
                     help="counts expansions, by the journal; a run takes somewhat longer")
    run.add_argument("--no-keep", dest="keep", action="store_false",
                     help="certificates are checked and not kept")
    add_checkers(run, "proved")
    add_pool(run)
    run.set_defaults(call=run_suite)


def add_verify(words: typing.Any) -> None:
    verify = words.add_parser("verify", help="checks every kept certificate, and takes nothing "
                                             "from the results")
    verify.add_argument("folder", metavar="DIR")
    verify.add_argument("--inputs", metavar="FOLDER",
                        help="your own copies of the inputs, found by name: they must be the same")
    verify.add_argument("--piece-mib", type=size, default=64.0, metavar="N",
                        help="the second checker judges pieces of so many MiB, each by a worker "
                             "(64)")
    add_checkers(verify, "second")
    add_pool(verify)
    verify.set_defaults(call=verify_results)


def add_checkers(parser: argparse.ArgumentParser, default: str) -> None:
    parser.add_argument("--check", type=checks, default=(default,), metavar="CHECKERS",
                        help=f"proved, second, proved,second or none ({default})")
    parser.add_argument("--check-seconds", type=seconds, default=3600.0,
                        help="for a check (3600)")
    parser.add_argument("--check-mib", type=whole(1, 2**24), default=16384,
                        help="of address space for a check (16384)")
    parser.add_argument("--program", metavar="FILE",
                        help="the built program (that of this checkout or package)")


def add_pool(parser: argparse.ArgumentParser) -> None:
    where = parser.add_mutually_exclusive_group()
    where.add_argument("--processes", type=whole(1, 4096), metavar="N",
                       help="so many places on this machine (half of its processors)")
    where.add_argument("--dask", metavar="ADDRESS", help="the address of a Dask scheduler")
    where.add_argument("--scheduler-file", metavar="FILE", help="the file of a Dask scheduler")


def program_of(options: argparse.Namespace) -> typing.Dict[str, str]:
    path = os.path.abspath(options.program or BUILT)
    if not os.access(path, os.X_OK) or os.path.isdir(path):
        raise Faulty(f"there is no program {path}: build it by ./pbnf, or name one by --program")
    return {"path": path, "sha256": sum_of(path), "version": version_of(path)}


def checkers_of(options: argparse.Namespace) -> typing.Tuple[typing.Dict[str, typing.Any], ...]:
    """The checkers that were asked for, as commands. PYTHON is the worker's own."""
    found = []
    for name in options.check:
        if name == "proved":
            program = program_of(options)
            found.append({"name": name, "command": [program["path"]], "path": program["path"],
                          "sha256": program["sha256"]})
        else:
            found.append({"name": name, "command": ["PYTHON", str(SECOND)], "path": str(SECOND),
                          "sha256": sum_of(str(SECOND))})
    return tuple(found)


def pool_of(options: argparse.Namespace, jobs: typing.Sequence[Job]
            ) -> typing.Union[LocalPool, DaskPool]:
    if options.dask or options.scheduler_file:
        return DaskPool(options.dask, options.scheduler_file, jobs)
    processes = options.processes or max(1, len(os.sched_getaffinity(0)) // 2)
    most = max((job["places"] for job in jobs), default=1)
    if most > processes:
        raise Faulty(f"a run has {most} workers, and there are {processes} places: take "
                     f"`--processes {most}` or more")
    return LocalPool(processes)


def columns_of(options: argparse.Namespace) -> typing.List[Column]:
    readers = dict(word.partition("=")[::2] for word in options.reader)
    found = [column_of(word) for word in options.column]
    found += [planner_of(word, readers) for word in options.planner]
    if not options.column:
        found.insert(0, Column("default"))
    names = [column.name for column in found]
    for name in readers.keys() - {column.name for column in found if column.command}:
        raise Faulty(f"--reader {name}: there is no such planner")
    for name in names:
        if names.count(name) > 1:
            raise Faulty(f"two columns are called {name}")
    return found


def jobs_of(options: argparse.Namespace, settings: Settings, results: Results,
            total: str) -> typing.List[Job]:
    """A job for each task and column, each once."""
    columns, found = columns_of(options), {}
    for source in options.tasks:
        for number, task in enumerate(tasks_of(source)):
            if options.first is not None and number >= options.first:
                break
            inputs = results.keep_inputs(task)
            for column in columns:
                if not column.command or takes(column.command, task.kind):
                    job = job_of(task, column, settings, str(results.folder), inputs)
                    found.setdefault(job["key"], {**job, "settings": total})
    return list(found.values())


def run_suite(options: argparse.Namespace) -> int:
    settings = Settings(program_of(options), options.seconds, options.mib, checkers_of(options),
                        options.check_seconds, options.check_mib, options.journal, options.keep)
    columns_of(options)
    results = Results(options.out)
    total = results.open(settings)
    jobs = jobs_of(options, settings, results, total)
    done = results.find_done()
    to_do = [job for job in jobs if job["key"] not in done]
    say(f"{len(to_do)} runs to do, {len(jobs) - len(to_do)} are done")
    lost: typing.List[Job] = []
    if to_do:
        with opened(pool_of(options, to_do)) as pool:
            lost = run_all(pool, run_job, to_do, results.add)
    faults = [f"no record: {job['task']}, {job['column']}: its worker was killed each time"
              for job in lost]
    from .tables import contradictions, not_certified
    faults += not_certified(results.read()) + contradictions(results.read())
    for line in faults:
        say(line)
    return FAULT if faults else OK


def show_results(options: argparse.Namespace) -> int:
    from .tables import show
    print(show(Results(options.folder).read(), options.tasks, options.markdown), end="")
    return OK


def report_results(options: argparse.Namespace) -> int:
    from .report import write_report
    for path in write_report(Results(options.folder)):
        print(path)
    return OK


def verify_results(options: argparse.Namespace) -> int:
    from .verify import verify
    return verify(Results(options.folder), checkers_of(options), options,
                  lambda jobs: opened(pool_of(options, jobs)))


def say(text: str) -> None:
    for line in text.split("\n"):
        print(f"suite: {line}", file=sys.stderr)


def main(words: typing.List[str]) -> int:
    options = parser_of().parse_args(words)
    signal.signal(signal.SIGTERM, lambda *_: sys.exit(143))
    try:
        return options.call(options)
    except (Faulty, packages.Missing) as fault:
        say(str(fault))
        return USAGE
    except KeyboardInterrupt:
        say("interrupted; what was done is kept, and the same command goes on")
        return INTERRUPTED
    except BrokenPipeError:
        os.dup2(os.open(os.devnull, os.O_WRONLY), 1)
        return OK
