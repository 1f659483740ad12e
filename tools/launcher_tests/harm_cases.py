"""What the launcher guards: the caller's files, the machine, and the time of a building."""

import os
import shutil
import signal
import subprocess

from .harness import Failed, Run, wait_until

HARD = "4 4\n15 14 8 12 10 11 9 13 2 6 5 1 3 7 4 0\n"


def input_as_output(place):
    """A file that is saved over an input, by any spelling, is 64 before anything runs."""
    text = open(place.grid()[0], "rb").read()
    name = place.file("room.map", text)
    scen = place.grid()[1]
    (place.work / "inner").mkdir()
    os.symlink("room.map", place.work / "link.map")
    os.link(name, place.work / "hard.map")
    for other in ("room.map", "./room.map", "inner/../room.map", name, "link.map", "hard.map"):
        for option in ("--cert", "--trace"):
            for words in ([option, other], [f"{option}={other}"]):
                run = place.run("solve", "grid", "room.map", scen, *words)
                run.wants(64, "", ["usage: pbnf solve grid", "written over the input room.map"])
        if open(name, "rb").read() != text:
            raise Failed(f"{other} was written over")
    place.run("solve", "grid", "room.map", scen, "--cert", "room.cert").wants(0)
    kept = open(place.work / "room.cert", "rb").read()
    for saved, input_name in (("./room.cert", "room.cert"), ("./room.map", "room.map")):
        run = place.run("check", "grid", "room.cert", "room.map", scen, "--rewrite", saved)
        run.wants(64, "", ["the certificate ", f"written over the input {input_name}"])
    run = place.run("check", "grid", "room.cert", "room.map", scen, "--rewrite", "room.copy")
    run.wants(0, "accepted cost 4 bound 4\n")
    if open(place.work / "room.copy", "rb").read() != kept:
        raise Failed("the copy isn't the certificate of version 2")
    tables = place.file("kept.tables", "estimate tables 1 0 0\n")
    pddl = [place.example("blocks.pddl"), place.example("two-blocks.pddl")]
    for kind, files in (("strips", pddl), ("grid", [place.grid()[0], scen])):
        for words in (["--tables", tables, "--cert", "./kept.tables"],
                      ["--trace=kept.tables", f"--tables={tables}"]):
            place.run("solve", kind, *files, *words).wants(
                64, "", f"written over the input {tables}")
    if open(tables, "rb").read() != b"estimate tables 1 0 0\n":
        raise Failed("the file of tables was written over")
    words = ["--cert", "x.cert", "--", "grid", "./room.map", scen, "--trace"]
    place.run("solve", *words).wants(64).lacks("written over")  # (after `--` all are names)


def outputs_as_one(place):
    """Two spellings of one name for certificate and journal are 64, whether it is there or not."""
    os.symlink("later", place.work / "later link")
    for first, second in (("later", "./later"), ("later", "later link"), ("./later", "later link")):
        for there in (False, True):
            if there:
                place.file("later", "kept")
            run = place.run("solve", "grid", *place.grid(), "--cert", first, "--trace", second)
            run.wants(64, "", "are one file: nothing was run")
            if there and os.path.getsize(place.work / "later") != 4:
                raise Failed("a file was written")
            if there:
                os.remove(place.work / "later")
            elif os.path.exists(place.work / "later"):
                raise Failed("a file was made")


def devices_still_work(place):
    """What isn't a regular file may be input and output, and other names are saved as before."""
    board = open(place.example("four-moves.tiles"), "rb").read()
    words = ["solve", "tiles", "/dev/stdin", "--cert", "/dev/stdout"]
    with place.begin(*words, stdin=subprocess.PIPE) as it:
        out, err = it.communicate(board, timeout=20)
    if it.returncode != 0 or b"pbnf-certificate 2\n" not in out or b"plan 4 4\n" not in out:
        raise Failed(str(Run(it.returncode, out.decode(), err.decode())))
    board = place.example("four-moves.tiles")
    place.on_terminal("solve", "tiles", board, "--cert", "/dev/null").wants(0)
    place.run("solve", "grid", *place.grid(), "--cert", "a.cert", "--trace", "a.journal").wants(0)
    place.run("check", "grid", "a.cert", *place.grid()).wants(0, "accepted cost 4 bound 4\n")


def killed_launcher(place):
    """The program ends with a launcher that is killed, on a terminal and without."""
    board = place.file("hard.tiles", HARD)
    running = lambda: place.processes(str(place.program))

    def kill(it):
        wait_until("the program runs", running)
        os.kill(it.pid, signal.SIGKILL)

    with place.begin("solve", "tiles", board) as it:
        kill(it)
        it.wait()
        wait_until("the program has ended with the launcher", lambda: not running(), 5)
    try:
        subprocess.run([place.root / "pbnf", "solve", "tiles", board], timeout=1, env=place.env,
                       check=False, stdout=subprocess.PIPE, stderr=subprocess.DEVNULL)
        raise Failed("the board was solved within a second")
    except subprocess.TimeoutExpired:
        wait_until("the program has ended with the launcher", lambda: not running(), 5)


def interrupted_run(place):
    """An interrupt, TERM and HUP end both, and the caller sees by what."""
    board = place.file("hard.tiles", HARD)
    running = lambda: place.processes(str(place.program))
    for number in (signal.SIGINT, signal.SIGTERM, signal.SIGHUP):
        with place.begin("solve", "tiles", board) as it:
            wait_until("the program runs", running)
            os.killpg(it.pid, number) if number == signal.SIGINT else it.send_signal(number)
            it.communicate(timeout=20)
        if it.returncode != -number or running():
            raise Failed(f"after signal {number}: status {it.returncode}, running {running()}")


def interrupt_on_terminal(place):
    """The line with time and memory is shown from two seconds on; an interrupt ends both."""
    board = place.file("hard.tiles", HARD)
    run = place.on_terminal("solve", "tiles", board, after="MiB",
                            act=lambda it: os.killpg(it.pid, signal.SIGINT))
    if run.status != -signal.SIGINT or place.processes(str(place.program)):
        raise Failed(f"an interrupt was wanted:\n{run}")


def builds(place):
    """How often the stand-in for rt was asked to build."""
    return place.calls.read_text().count(" run -- ") if place.calls.exists() else 0


def touched_source(place):
    """Sources that are newer by time alone, a copy, and a change there and back build nothing."""
    source = place.root / "crates/pb_run/src/top.rt"
    text, before = source.read_bytes(), builds(place)
    wanted = place.run("solve", "grid", *place.grid()).wants(0).out
    later = os.path.getmtime(place.program) + 100
    os.utime(source, (later, later))
    place.run("solve", "grid", *place.grid()).wants(0, wanted)
    source.write_bytes(text + b"// changed\n")
    source.write_bytes(text)
    place.run("solve", "grid", *place.grid()).wants(0, wanted)
    (place.root / "crates/pb_run/src/more.rt").write_bytes(b"")
    (place.root / "crates/pb_run/src/more.rt").unlink()
    place.run("solve", "grid", *place.grid()).wants(0, wanted)
    copy = place.folder / "copy"
    shutil.copytree(place.root, copy, copy_function=shutil.copy)  # (as cp -r: all times are new)
    run = subprocess.run([copy / "pbnf", "solve", "grid", *place.grid()], env=place.env,
                         capture_output=True, text=True, check=False)
    Run(run.returncode, run.stdout, run.stderr).wants(0, wanted)
    if builds(place) != before:
        raise Failed("the program was built again")


def changed_source(place):
    """A source that was changed, added or taken away is built, and so is an older text with its
    old time; a proof isn't."""
    source = place.root / "crates/pb_run/src/top.rt"
    text, times = source.read_bytes(), (os.path.getatime(source), os.path.getmtime(source))
    added = place.root / "crates/pb_run/specs/More.antt"
    proof = place.root / "crates/pb_run/proofs/more.antt"

    def change_back():
        source.write_bytes(text)
        os.utime(source, times)

    proof.parent.mkdir(exist_ok=True)
    for change, is_wanted in ((lambda: source.write_bytes(text + b"// changed\n"), 1),
                              (change_back, 1), (lambda: added.write_text("-- more"), 1),
                              (added.unlink, 1), (lambda: proof.write_text("-- a proof"), 0)):
        before = builds(place)
        change()
        place.run("solve", "grid", *place.grid()).wants(0)
        if builds(place) - before != is_wanted:
            raise Failed(f"{builds(place) - before} buildings, and {is_wanted} wanted")
    proof.unlink()


def long_certificate(place):
    """A saved certificate of over 1 GiB is said to be too long for the checker."""
    with place.stand_in("#!/bin/sh\ntruncate -s 1073741825 long.cert\necho none\nexit 1\n"):
        run = place.run("solve", "tiles", place.example("ring-2x2.tiles"), "--cert", "long.cert")
        run.wants(1, "none\n", "the certificate long.cert has 1024 MiB, and one of more than")
        (place.work / "long.cert").unlink()
    place.run("solve", "grid", *place.grid(), "--cert", "b.cert").wants(0).lacks("MiB")


CASES = [input_as_output, outputs_as_one, devices_still_work, killed_launcher, interrupted_run,
         interrupt_on_terminal, touched_source, changed_source, long_certificate]
