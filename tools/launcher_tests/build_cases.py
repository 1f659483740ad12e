"""The building, the first look and waiting for another run, with a stand-in for rt."""

import os
import re
import shutil
import signal

from .harness import Failed, Run, wait_until

LOOK = "pbnf: a first look, NOT PROVED:\npbnf:   | plan 4 4\n"


def unbuild(place):
    """Takes away what was built, and what was noted of calls."""
    for folder in (place.root / "crates").glob("*/out"):
        shutil.rmtree(folder)
    for file in place.folder.glob("calls*"):
        file.unlink()


def slow(place, crate, look):
    """Surroundings in which a crate takes so many seconds, and a first look too."""
    return {**place.env, "STAND_IN_SECONDS": str(crate), "STAND_IN_LOOK": str(look)}


def calls(place):
    return place.calls.read_text().splitlines() if place.calls.exists() else []


def called(place, words):
    return [it for it in calls(place) if f" {words}" in it]


def nothing_runs(place):
    wait_until("nothing is left running", lambda: not place.processes(str(place.folder)), 6)


def first_build(place):
    """The first run shows a look on standard error, and prints the program's answer alone."""
    unbuild(place)
    words = ["solve", "grid", *place.grid(), "--cert", "first.cert", "--trace=first.journal"]
    run = place.run(*words, env=slow(place, 0.06, 0.3))
    run.wants(0, "plan 4 4\nright\nright\ndown\ndown\nbound 4\n", [LOOK, "with status 0"])
    run.wants(0, None, ["0 of 47 crates are proved", "the program is proved and built"])
    for name in ("first.cert", "first.journal"):
        if not (place.work / name).exists():
            raise Failed(f"{name} wasn't saved by the program")
    if "tried 0 file1 file2" not in calls(place):
        raise Failed(f"the look was to save nothing: {calls(place)}")
    nothing_runs(place)


def chain_is_proved_in_turn(place):
    """Once the crates that are left form a chain, `rt all check` is ended and `rt run` goes on."""
    unbuild(place)
    env = {**slow(place, 0.02, 0.1), "STAND_IN_LONG": "pb_made"}
    place.run("solve", "grid", *place.grid(), env=env).wants(0)
    all_check, run = called(place, "all check"), called(place, "run -- ")
    begun = [it for it in calls(place) if it.startswith("run begins with ")]
    if len(all_check) != 1 or len(run) != 1 or len(begun) != 1:
        raise Failed(f"one call of each was wanted: {calls(place)}")
    if begun[0] != "run begins with 44 crates":
        raise Failed(f"rt run was to prove pb_made and pb_run: {begun[0]}")
    nothing_runs(place)


def look_of_a_refusal(place):
    """A first look shows a refused input in its file. A name that isn't there is said at once."""
    unbuild(place)
    cut = place.file("bad.map", "type octile\nheight 1\nwidth 3\nmap\n.x.\n")
    run = place.run("solve", "grid", cut, place.grid()[1], env=slow(place, 0.06, 0.1))
    run.wants(65, "input Cell 5 2\n", ["pbnf:   | input Cell 5 2\n", f"{cut}:5:2: "])
    unbuild(place)
    run = place.run("solve", "grid", "no.map", place.grid()[1], env=slow(place, 0.01, 0.1))
    run.wants(73, "", "note: no.map can't be read now").lacks("first look")


def look_is_left_out(place):
    """There is no look where it isn't wanted, and none of a pipe; it ends with the building."""
    for env, words in (({"PBNF_FIRST_LOOK": "no"}, place.grid()),
                       ({}, ["/dev/stdin", place.grid()[1]])):
        unbuild(place)
        with open(place.grid()[0], "rb") as text:
            os.set_inheritable(text.fileno(), True)
            read, write = os.pipe()
            os.write(write, text.read())
            os.close(write)
        run = place.run("solve", "grid", *words, env={**slow(place, 0.01, 0.1), **env}, stdin=read)
        os.close(read)
        run.wants(0).lacks("NOT PROVED")
    unbuild(place)
    run = place.run("solve", "grid", *place.grid(), env=slow(place, 0.01, 60))
    run.wants(0).lacks("first look")
    nothing_runs(place)


def second_run_waits(place):
    """A second run waits for the first, shows how far that is, and has a look of its own."""
    unbuild(place)
    env = slow(place, 0.1, 0.2)
    with place.begin("solve", "grid", *place.grid(), env=env) as first:
        wait_until("the first run builds", lambda: called(place, "all check"))
        run = place.run("solve", "grid", *place.grid("wall-3x3"), env=env)
        out, err = first.communicate(timeout=40)
    Run(first.returncode, out.decode(), err.decode()).wants(0, None, LOOK)
    run.wants(1, "none\n", ["waiting for it", "pbnf:   | none\n", "with status 1"])
    if not re.search(r"is proved and built \(\d+ of 47 crates", run.err):
        raise Failed(f"the other run's progress was wanted:\n{run}")
    if len(called(place, "run -- ")) != 1:
        raise Failed(f"one building was wanted: {calls(place)}")
    nothing_runs(place)


def waiting_run_builds(place):
    """If the run that builds is killed, nothing of it is left, and the one that waits builds."""
    unbuild(place)
    env = slow(place, 0.06, 0.2)
    with place.begin("solve", "grid", *place.grid(), env=env) as first:
        wait_until("the first run builds", lambda: called(place, "all check"))
        with place.begin("solve", "grid", *place.grid(), env=env) as second:
            wait_until("a crate is proved", lambda: (place.root / "crates/pb_packed/out").exists())
            first.kill()
            first.communicate(timeout=20)
            out, err = second.communicate(timeout=40)
    Run(second.returncode, out.decode(), err.decode()).wants(0, None, "crates are proved and built")
    nothing_runs(place)


def interrupted_building(place):
    """An interrupt, TERM and a kill of the launcher leave nothing running, also of a look."""
    for number, look in ((signal.SIGINT, 60), (signal.SIGTERM, 0.1), (signal.SIGKILL, 60)):
        unbuild(place)
        with place.begin("solve", "grid", *place.grid(), env=slow(place, 0.3, look)) as it:
            wait_until("it builds and looks",
                       lambda: called(place, "all check") and called(place, "try "))
            os.killpg(it.pid, number) if number == signal.SIGINT else it.send_signal(number)
            _, err = it.communicate(timeout=20)
        if it.returncode != -number:
            raise Failed(f"after signal {number}: status {it.returncode}")
        if number != signal.SIGKILL and b"what was proved is kept" not in err:
            raise Failed(f"after signal {number}: {err}")
        nothing_runs(place)


def building_on_terminal(place):
    """On a terminal one line shows how far it is; an interrupt there leaves nothing running."""
    unbuild(place)
    run = place.on_terminal("solve", "grid", *place.grid(), env=slow(place, 0.1, 0.1))
    for text in ("of 47 crates, 0 min", "NOT PROVED", "plan 4 4\r\nright"):
        if text not in run.out:
            raise Failed(f"{text!r} was wanted:\n{run}")
    if "is proved and built (" in run.out.replace("the program is proved and built (", ""):
        raise Failed(f"a line a crate wasn't wanted:\n{run}")
    unbuild(place)

    def interrupt(it):
        os.killpg(it.pid, signal.SIGINT)
    run = place.on_terminal("solve", "grid", *place.grid(), env=slow(place, 0.3, 60),
                            after="crates, 0 min", act=interrupt)
    if run.status != -signal.SIGINT or "what was proved is kept" not in run.out:
        raise Failed(f"an interrupt was wanted:\n{run}")
    nothing_runs(place)


def failed_building(place):
    """At 70 the end of the log is shown, or why nothing could be built."""
    unbuild(place)
    (place.folder / "calls.fails").touch()
    env = slow(place, 0.02, 0.1)
    run = place.run("solve", "grid", *place.grid(), env=env)
    run.wants(70, "", ["couldn't be built", "error: a stand-in for a failed proof"])
    unbuild(place)
    lacking = {**place.env, "PATH": "/usr/bin:/bin"}
    if not any(os.path.exists(f"{it}/rt") for it in ("/usr/bin", "/bin")):
        place.run("solve", "grid", *place.grid(), env=lacking).wants(70, "", "rt isn't found")
    (place.root / "build.log").unlink(missing_ok=True)
    (place.root / "build.log").mkdir()
    place.run("solve", "grid", *place.grid()).wants(70, "", "can't be written")
    (place.root / "build.log").rmdir()
    nothing_runs(place)


CASES = [first_build, look_of_a_refusal, look_is_left_out, chain_is_proved_in_turn,
         second_run_waits, waiting_run_builds, interrupted_building, building_on_terminal,
         failed_building]
