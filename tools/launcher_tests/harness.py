"""A copy of the checkout in a folder of its own, with the built program, for the cases."""

import contextlib
import os
import pathlib
import pty
import select
import shutil
import signal
import subprocess
import time

ROOT = pathlib.Path(__file__).resolve().parent.parent.parent
STAND_IN = ROOT / "tools/launcher_tests/stand_in_rt"
LEFT_OUT = ("out", "proofs", "must-fail", "more-must-fail", "pb_test_*")


class Failed(Exception):
    """A case that came out otherwise."""


class Run:
    """What a run printed and its status, which is minus the signal that ended it."""

    def __init__(self, status, out, err):
        self.status, self.out, self.err = status, out, err

    def __str__(self):
        return f"status {self.status}\nstandard output:\n{self.out}\nstandard error:\n{self.err}"

    def wants(self, status, out=None, err=()):
        """Fails if the status or the output is another, or if a text isn't on standard error."""
        texts = [err] if isinstance(err, str) else err
        if self.status != status or (out is not None and self.out != out):
            raise Failed(f"status {status} was wanted, with {out!r}:\n{self}")
        for text in texts:
            if text not in self.err:
                raise Failed(f"{text!r} was wanted on standard error:\n{self}")
        return self

    def lacks(self, *texts):
        for text in texts:
            if text in self.out + self.err:
                raise Failed(f"{text!r} wasn't wanted:\n{self}")
        return self


def wait_until(what, is_true, seconds=20):
    end = time.monotonic() + seconds
    while not is_true():
        if time.monotonic() > end:
            raise Failed(f"after {seconds} s it isn't so: {what}")
        time.sleep(0.02)


def hear_interrupts():
    """What was begun in the background has interrupts ignored, and so has all that it begins."""
    signal.signal(signal.SIGINT, signal.SIG_DFL)


class Place:
    """A copy of the checkout, and a folder beside it in which the cases run."""

    def __init__(self, folder, program):
        self.folder = pathlib.Path(folder)
        self.root = self.folder / "check out"  # (a blank in the name is a case too)
        self.work = self.folder / "work"
        self.work.mkdir(parents=True)
        self.source_program = program
        copy_checkout(self.root)
        self.program = self.root / "crates/pbnf/out/pbnf"
        self.calls = self.folder / "calls"  # what the stand-in for rt was called with
        bin_folder = self.folder / "bin"
        bin_folder.mkdir()
        shutil.copy(STAND_IN, bin_folder / "rt")
        self.env = {**os.environ, "PATH": f"{bin_folder}:{os.environ['PATH']}",
                    "STAND_IN_PROGRAM": str(program), "STAND_IN_CALLS": str(self.calls),
                    "LC_ALL": "C.UTF-8", "PBNF_FIRST_LOOK": "yes"}

    def file(self, name, text):
        path = self.work / name
        path.parent.mkdir(parents=True, exist_ok=True)
        path.write_bytes(text if isinstance(text, bytes) else text.encode())
        return str(path)

    def example(self, name):
        return str(self.root / "examples" / name)

    def grid(self, name="empty-3x3"):
        return [self.example(f"{name}.map"), self.example(f"{name}.scen")]

    def begin(self, *words, before=(), **how):
        """Begins the launcher with these words, perhaps by another command before it."""
        how = {"stdin": subprocess.DEVNULL, "stdout": subprocess.PIPE, "stderr": subprocess.PIPE,
               "cwd": self.work, "env": self.env, "start_new_session": True,
               "preexec_fn": hear_interrupts, **how}
        return subprocess.Popen([*before, str(self.root / "pbnf"), *words], **how)

    def run(self, *words, **how):
        with self.begin(*words, **how) as it:
            try:
                out, err = it.communicate(timeout=40)
            except subprocess.TimeoutExpired:
                os.killpg(it.pid, signal.SIGKILL)
                raise Failed(f"no end of {words}") from None
        return Run(it.returncode, (out or b"").decode("utf-8", "replace"),
                   (err or b"").decode("utf-8", "replace"))

    def on_terminal(self, *words, after=None, act=None, **how):
        """A run whose output and standard error are one terminal, or standard error alone if an
        output is given. Once the text `after` is there, `act` is called with the process."""
        first, second = pty.openpty()
        with self.begin(*words, **{"stdout": second, "stderr": second, **how}) as it:
            os.close(second)
            text, end = b"", time.monotonic() + 40
            while time.monotonic() < end:
                if not select.select([first], [], [], 0.1)[0]:
                    continue
                try:
                    part = os.read(first, 65536)
                except OSError:
                    part = b""
                if not part:
                    break
                text += part
                if act and after.encode() in text:
                    act(it)
                    act = None
            os.close(first)
            it.wait(timeout=20)
        return Run(it.returncode, text.decode("utf-8", "replace"), "")

    @contextlib.contextmanager
    def stand_in(self, text):
        """Puts a script in the place of the built program, for a while."""
        kept = self.program.read_bytes()
        try:
            self.program.write_text(text)
            yield
        finally:
            self.program.write_bytes(kept)

    def processes(self, word):
        """The processes whose command line has a word, but for those that have ended."""
        found = []
        for folder in pathlib.Path("/proc").iterdir():
            if not folder.name.isdigit():
                continue
            try:
                words = (folder / "cmdline").read_bytes().split(b"\0")
                is_dead = (folder / "stat").read_text().rpartition(")")[2].split()[0] in "ZX"
            except (OSError, IndexError):
                continue
            if any(word.encode() in it for it in words) and not is_dead:
                found.append(int(folder.name))
        return found


def copy_checkout(to):
    """What the launcher and its tools read, without proofs and what was built."""
    ignored = shutil.ignore_patterns(*LEFT_OUT)
    to.mkdir(parents=True)
    for name in ("crates", "examples", "docs", "tools"):
        shutil.copytree(ROOT / name, to / name, ignore=ignored)
    for name in ("pbnf", "crates.txt", "HANDLES"):
        shutil.copy2(ROOT / name, to / name)
