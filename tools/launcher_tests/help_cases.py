"""Help, the version, and the options' file beside the program and docs/FORMATS.md."""

import re
import subprocess

from .harness import ROOT, Failed
from .options import form_lines, lines_of, proved_table, range_of, stated_table, table_rows


def help_of_all(place):
    """--help, -h and help print the usage of all commands, on standard output, with status 0."""
    for words in (["--help"], ["-h"], ["help"]):
        run = place.run(*words).wants(0)
        for command, what in lines_of("command"):
            if f"  {command}" not in run.out or what not in run.out or run.err:
                raise Failed(f"{command} was wanted in the usage:\n{run}")


def help_of_each(place):
    """After a command they print its forms, each option with its range and default, and hints."""
    for command, _ in lines_of("command"):
        for words in ([command, "--help"], [command, "-h"], ["help", command],
                      [command, "grid", "a", "--help", "b"]):
            run = place.run(*words).wants(0)
            wanted = [it for it in form_lines() if it.startswith(f"pbnf {command} ")]
            for name, commands, what, takes, default in lines_of("option"):
                if command in commands.split():
                    wanted += [f"{name} ", what.split(";")[0], f"{takes}; without it: {default}"]
            wanted += [f"./pbnf {it[0]} {it[1]}" for it in lines_of("example") if it[0] == command]
            wanted += [it[1] for it in lines_of("hint") if it[0] == command]
            for text in wanted:
                if text not in run.out or run.err:
                    raise Failed(f"{text!r} was wanted in the usage:\n{run}")


def version(place):
    """--version and -V print what is built, and by which toolchain."""
    for words in (["--version"], ["-V"], ["solve", "--version"]):
        run = place.run(*words).wants(0)
        if not run.out.startswith("pbnf ") or "built from these sources\nstand-in\n" not in run.out:
            raise Failed(f"the version was wanted:\n{run}")


def program_refuses_help(place):
    """The program itself refuses these words, and after `--` the launcher takes them as names."""
    for words in (["--help"], ["-h"], ["--version"], ["solve", "--help"], ["help"]):
        run = subprocess.run([place.program, *words], capture_output=True, check=False)
        if run.returncode != 64 or not run.stdout.startswith(b"error: "):
            raise Failed(f"{words} is not refused")
    place.run("solve", "tiles", "--", "--help").wants(73, "", "--help (isn't there)")


def no_words(place):
    """Without words the usage stands on standard error, with status 64."""
    place.run().wants(64, "", ["usage: pbnf COMMAND", "a command is wanted"])


def help_on_a_closed_output(place):
    """Help that can't be written is status 74."""
    for words in (["--help"], ["solve", "-h"], ["--version"]):
        with open("/dev/full", "wb") as full:
            run = place.run(*words, stdout=full).wants(74, None, "could not be written")
        if len(run.err.splitlines()) != 1:
            raise Failed(f"one line was wanted:\n{run}")


def tables_of_the_page(place):
    """docs/FORMATS.md has the options' rows and the forms that options.txt has, and no others."""
    page = (ROOT / "docs/FORMATS.md").read_text().split("\n## Statuses")[0].splitlines()
    rows = [it for it in page if it.startswith("| ") and it.count(" | ") in (2, 4)
            and not it.startswith(("| option |", "| word of "))]
    forms = [it.strip() for it in page if it.startswith("    pbnf ")]
    for found, wanted in ((rows, table_rows()), (forms, form_lines())):
        for row in wanted:
            if row not in found:
                raise Failed(f"docs/FORMATS.md lacks this line:\n{row}")
        for row in found:
            if row not in wanted:
                raise Failed(f"docs/FORMATS.md has this line, and options.txt has not:\n{row}")


def options_of_the_definitions(place):
    """options.txt has the options of the definitions that the program is proved to read."""
    stated, proved = stated_table(), proved_table()
    for name in sorted(stated.keys() | proved.keys()):
        if stated.get(name) != proved.get(name):
            raise Failed(f"--{name}: options.txt has {stated.get(name)}, "
                         f"and the definitions have {proved.get(name)}")


def building_time(place):
    """The launcher and the README say the same of how long the building takes."""
    text = (ROOT / "tools/launcher/build.bash").read_text()
    words = re.search(r"usual_time='(.*)'", text)[1]
    if words not in (ROOT / "README.md").read_text():
        raise Failed(f"the README doesn't say {words!r}")


def examples(place):
    """Each example of the usage ends with status 0 or 1."""
    for command, words in lines_of("example"):
        run = place.run(command, *words.split(), cwd=place.root)
        if run.status not in (0, 1):
            raise Failed(f"./pbnf {command} {words}:\n{run}")


def words_for(place, command, option=""):
    """Words of a command that the program takes, so that one option more is the question."""
    board = place.example("four-moves.tiles")
    words = {"solve": ["tiles", board], "make": ["tiles", "1", "2"],
             "check": ["tiles", place.file("a.cert", "x"), board],
             "journal": ["tiles", place.file("a.journal", "x"), board]}[command]
    more = {"--den": ["--num", "1000"]}.get(option, [])
    return [command, *words, *more]


def is_taken(place, words):
    """Whether the program takes the words, and doesn't end with 64 at once."""
    try:
        run = subprocess.run([place.program, *words], cwd=place.work, timeout=1, check=False,
                             stdout=subprocess.DEVNULL, stderr=subprocess.DEVNULL)
    except subprocess.TimeoutExpired:
        return True
    return run.returncode != 64


def expect_taken(place, words, is_wanted):
    if is_taken(place, words) != is_wanted:
        raise Failed(f"{' '.join(words)}: by options.txt this is "
                     + ("taken, and it is refused" if is_wanted else "refused, and it is taken"))


def ranges_of_options(place):
    """The program takes the ends of each option's range, and refuses what lies just outside."""
    for name, commands, _, takes, default in lines_of("option"):
        option = name.split()[0]
        for command in commands.split():
            words = words_for(place, command, option)
            if takes == "no value":
                expect_taken(place, [*words, option], True)
                expect_taken(place, [*words, f"{option}=1"], False)
            elif takes in ("a file that is saved", "a file that is read"):
                expect_taken(place, [*words, option, "saved"], True)
                expect_taken(place, [*words, option], False)
            elif range_of(takes):
                least, most = range_of(takes)
                for value, is_wanted in ((least, 1), (most, 1), (least - 1, 0), (most + 1, 0)):
                    expect_taken(place, [*words, f"{option}={value}"], bool(is_wanted))
                number = default.replace(",", "")
                if number.isdigit():
                    expect_taken(place, [*words, f"{option}={number}"], True)
            else:
                for value in takes.split(" or "):
                    expect_taken(place, [*words, option, value], True)
                expect_taken(place, [*words, option, "another"], False)


def ranges_of_words(place):
    """The same of the words of `make`."""
    for name, forms, _, takes in lines_of("word"):
        least, most = range_of(takes)
        for form in forms.split(", "):
            command, kind = form.split()
            shown = next(it[1] for it in lines_of("form") if it[0] == command
                         and it[1].startswith(f"{kind} "))
            for value, is_wanted in ((least, 1), (most, 1), (least - 1, 0), (most + 1, 0)):
                words = [str(value) if it == name else "1" for it in shown.split()[1:]]
                expect_taken(place, [command, kind, "--", *words], bool(is_wanted))


def commands_of_options(place):
    """A command that an option isn't of refuses it."""
    for name, commands, _, takes, _ in lines_of("option"):
        for command, _ in lines_of("command"):
            if command not in commands.split():
                words = [*words_for(place, command), name.split()[0]]
                value = [] if takes == "no value" else [str((range_of(takes) or ("x",))[0])]
                expect_taken(place, words + value, False)


def defaults(place):
    """The numbers that a journal states are the defaults."""
    journal = place.work / "default.journal"
    place.run("solve", "tiles", place.example("four-moves.tiles"), "--trace", str(journal)).wants(0)
    head = dict(it.split() for it in journal.read_text().splitlines()[1:6])
    for name, _, _, takes, default in lines_of("option"):
        key = name.split()[0][2:]
        if key in head and takes != "no value" and head[key] != default.replace(",", ""):
            raise Failed(f"--{key} is {head[key]} if it isn't given, and not {default}")


CASES = [help_of_all, help_of_each, version, program_refuses_help, no_words,
         help_on_a_closed_output, tables_of_the_page, options_of_the_definitions, building_time,
         examples, ranges_of_options, ranges_of_words, commands_of_options, defaults]
