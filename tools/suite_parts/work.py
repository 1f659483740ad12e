"""What a worker does with a job: it runs a program, checks the certificate, and keeps both with a
record. A job is a dictionary of texts and numbers (`jobs.py` makes it), and so is its record.

A record is the sidecar of its certificate. It is saved under its last name when the run is over, so
a run that was killed has none, and one that has a record isn't run again.
"""

from __future__ import annotations

import contextlib
import fcntl
import gzip
import hashlib
import json
import os
import shutil
import socket
import sys
import tempfile
import typing
import zlib

from .answers import read_answer
from .limits import Ended, run_limited

Job = typing.Dict[str, typing.Any]
Record = typing.Dict[str, typing.Any]
MOST_CERTIFICATE = 2**30


def sum_of(path: str) -> str:
    """The SHA-256 sum of a file."""
    found = hashlib.sha256()
    with open(path, "rb") as file:
        while block := file.read(2**20):
            found.update(block)
    return found.hexdigest()


def refusal_of(job: Job) -> typing.Optional[str]:
    """Why this worker can't do the job: it sees other files than the caller, or none."""
    settings = os.path.join(job["folder"], "suite.json")
    if not os.path.exists(settings) or sum_of(settings) != job["settings"]:
        return f"it doesn't see the results folder {job['folder']}"
    for file in job["needs"]:
        path, what, total = file["path"], file["what"], file["sha256"]
        if not os.path.exists(path):
            return f"it has no {what} {path}"
        if sum_of(path) != total:
            return (f"it has another {what} {path}: its sum is {sum_of(path)[:16]}.., and the "
                    f"caller's {total[:16]}..")
    return None


def run_job(job: Job) -> Record:
    """The record of the run; or `refused` with the reason, if this worker can't do it."""
    refusal = refusal_of(job)
    if refusal:
        return {"refused": refusal, "host": socket.gethostname()}
    with only_here(place_of(job, ".json.partial")):
        record = kept_record(job)
        if record is None:
            with tempfile.TemporaryDirectory(prefix="pbnf-suite-") as scratch:
                record = run_and_check(job, scratch)
            save_record(job, record)
    return record


def place_of(job: Job, ending: str) -> str:
    return os.path.join(job["folder"], "runs", job["name"] + ending)


@contextlib.contextmanager
def only_here(path: str) -> typing.Iterator[None]:
    """Holds the lock of a run. A worker whose caller died may still be at it; its record is then
    taken, and nothing is run twice."""
    with open(path, "ab") as file:
        with contextlib.suppress(OSError):  # (a file system may have no locks)
            fcntl.flock(file, fcntl.LOCK_EX)
        try:
            yield
        finally:
            with contextlib.suppress(FileNotFoundError):
                os.unlink(path)


def kept_record(job: Job) -> typing.Optional[Record]:
    path = place_of(job, ".json")
    if not os.path.exists(path):
        return None
    with open(path, encoding="utf-8") as file:
        return json.load(file)


def save_record(job: Job, record: Record) -> None:
    path = place_of(job, ".json")
    with open(path + ".new", "w", encoding="utf-8") as file:
        json.dump(record, file, indent=1, sort_keys=True)
        file.write("\n")
    os.replace(path + ".new", path)


def run_and_check(job: Job, scratch: str) -> Record:
    files = {name: os.path.join(scratch, name) for name in ("certificate", "journal", "plan")}
    ended, journal = run_program(job, files)
    answer = read_answer(job["reader"], ended, files["plan"])
    record = {name: job[name] for name in ("key", "task", "domain", "column", "kind", "inputs",
                                           "words", "note", "program", "limits", "row", "swamp",
                                           "reachable")}
    record |= {"status": ended.status, "wall_s": ended.wall_seconds, "cpu_s": ended.cpu_seconds,
               "mib": ended.mib, "host": socket.gethostname(), **answer,
               "report": ended.output if job["is_pbnf"] else ended.output[-4096:],
               "errors": ended.errors[-4096:]}
    if journal and os.path.exists(journal):
        record["expansions"] = expansions_in(journal)
    if job["is_pbnf"] and answer["answer"] in ("plan", "none"):
        take_last(files["certificate"], answer.get("claim", 0))
        record |= judge(job, files["certificate"], claim_of(answer), scratch)
        keep_certificate(job, record, files["certificate"])
    return record


def run_program(job: Job, files: typing.Dict[str, str]) -> typing.Tuple[typing.Any, str]:
    """Runs it, with a journal if one is wanted. An engine or an option that has no journal refuses
    these words at once (status 64); it is run again without."""
    limits = job["limits"]
    words = [word.replace("{plan}", files["plan"]) for word in job["command"]]
    words += ["--cert", files["certificate"]] if job["certified"] else []
    trace = ["--trace", files["journal"]] if job["journal"] else []

    def run(more: typing.List[str]) -> typing.Any:
        return run_limited([*words, *more], job["folder"], limits["seconds"], limits["mib"],
                           job["places"])

    ended = run(trace)
    if trace and ended.status == 64:
        return run([]), ""
    return ended, files["journal"] if trace else ""


def take_last(certificate: str, number: int) -> None:
    """Gives the certificate of the last claim the plain name, if there is one for each claim."""
    if os.path.exists(f"{certificate}.{number}"):
        os.replace(f"{certificate}.{number}", certificate)


def claim_of(answer: Record) -> str:
    """What a checker must say of the certificate of this answer."""
    if answer["answer"] == "none":
        return "accepted none"
    return f"accepted cost {answer['cost']} bound {answer['bound']}"


def expansions_in(journal: str) -> int:
    """The sum of what the leases used."""
    with open(journal, encoding="ascii") as file:
        return sum(int(line.split(" ")[2]) for line in file
                   if line.startswith(("renew ", "release ")))


def rows_in(certificate: str) -> typing.Optional[int]:
    with open(certificate, encoding="ascii", errors="replace") as file:
        return next((int(line[5:]) for line in file if line.startswith("rows ")), None)


def judge(job: Job, certificate: str, claim: typing.Optional[str], scratch: str) -> Record:
    """What each checker says of the certificate, and whether all say the claim."""
    if not job["certified"]:
        return {}
    found: Record = {"rows": rows_in(certificate), "certificate_bytes": os.path.getsize(certificate)}
    says = []
    for checker in job["checkers"]:
        ended = run_checker(job, checker, how_of(job, checker, scratch), certificate, scratch)
        line = ended.output.strip() or (f"status {ended.status}" if ended.status else ended.why)
        says.append(line)
        found["check_" + checker["name"]] = line
        found[f"check_{checker['name']}_s"] = ended.cpu_seconds
    if says:
        found["certified"] = all(line == claim or not claim and line.startswith("accepted ")
                                 for line in says)
    return found


def run_checker(job: Job, checker: typing.Dict[str, typing.Any], how: typing.List[str],
                certificate: str, scratch: str) -> Ended:
    """Runs a checker on the certificate, within its limits."""
    command = [sys.executable if word == "PYTHON" else word for word in checker["command"]]
    names = [os.path.join(job["folder"], file["path"]) for file in job["inputs"]]
    words = [*command, *how, "check", job["kind"], certificate, *names, *task_words_of(job)]
    limits = job["check_limits"]
    return run_limited(words, scratch, limits["seconds"], limits["mib"])


def how_of(job: Job, checker: typing.Dict[str, typing.Any], scratch: str) -> typing.List[str]:
    """The words that have the second checker answer from what its pieces have, if they were
    judged before."""
    if checker["name"] != "second" or not job.get("pieces"):
        return []
    path = os.path.join(scratch, "pieces")
    with open(path, "w", encoding="ascii") as file:
        file.writelines(f"{line}\n" for line in job["pieces"])
    return ["--join", path]


def task_words_of(job: Job) -> typing.List[str]:
    """The options that say which task the files spell."""
    row = ["--row", str(job["row"])] if job["kind"] == "grid" else []
    return row + ["--swamp"] * job["swamp"] + ["--reachable"] * job["reachable"]


def keep_certificate(job: Job, record: Record, certificate: str) -> None:
    """Compresses it into the results. The same certificate always gives the same bytes."""
    if not job["certified"]:
        return
    record["certificate_sha256"] = sum_of(certificate)
    if not job["keep"]:
        return
    path = place_of(job, ".cert.gz")
    with open(certificate, "rb") as text, open(path + ".new", "wb") as file:
        with gzip.GzipFile("", "wb", compresslevel=1, fileobj=file, mtime=0) as packed:
            shutil.copyfileobj(text, packed, 2**20)
    os.replace(path + ".new", path)
    record["certificate"] = f"runs/{job['name']}.cert.gz"


def verify_job(job: Job) -> Record:
    """Unpacks a kept certificate and has it checked. Nothing of the record is taken but which
    files belong together; the sums are of the files that are there."""
    refusal = refusal_of(job)
    if refusal:
        return {"refused": refusal, "host": socket.gethostname()}
    found: Record = {"name": job["name"], "faults": []}
    for file in job["inputs"]:
        path = os.path.join(job["folder"], file["path"])
        if not os.path.exists(path):
            return {**found, "faults": [f"{file['path']} isn't there"]}
        if sum_of(path) != file["sha256"]:
            found["faults"].append(f"{file['path']} isn't the input that the record names")
    with tempfile.TemporaryDirectory(prefix="pbnf-suite-") as scratch:
        certificate, fault = unpacked(job, scratch)
        if fault:
            return {**found, "faults": [*found["faults"], fault]}
        if sum_of(certificate) != job["certificate_sha256"]:
            found["faults"].append("the certificate isn't the one that the record names")
        found |= judge(job, certificate, None, scratch)
    return found


def verify_piece(job: Job) -> Record:
    """What the second checker has of a piece of a kept certificate, as a line; or a fault."""
    refusal = refusal_of(job)
    if refusal:
        return {"refused": refusal, "host": socket.gethostname()}
    found: Record = {"name": job["name"], "line": ""}
    with tempfile.TemporaryDirectory(prefix="pbnf-suite-") as scratch:
        certificate, fault = unpacked(job, scratch)
        if fault:
            return {**found, "fault": fault}
        ended = run_checker(job, job["checkers"][0], ["--piece", job["piece"]], certificate, scratch)
    if ended.status != 0:
        why = ended.why if ended.status is None else f"status {ended.status}"
        return {**found, "fault": f"piece {job['piece']}: {why} {ended.output.strip()}".rstrip()}
    return {**found, "line": ended.output.strip()}


def unpacked(job: Job, scratch: str) -> typing.Tuple[str, typing.Optional[str]]:
    """Where the kept certificate was unpacked, and a fault if it can't be."""
    certificate = os.path.join(scratch, "certificate")
    try:
        unpack(os.path.join(job["folder"], job["certificate"]), certificate)
    except (OSError, EOFError, ValueError, zlib.error) as error:
        return certificate, f"{job['certificate']}: {error}"
    return certificate, None


def unpack(packed: str, text: str) -> None:
    """Writes the certificate, which has at most as many bytes as a checker takes."""
    with gzip.open(packed, "rb") as source, open(text, "wb") as file:
        size = 0
        while block := source.read(2**20):
            size += len(block)
            if size > MOST_CERTIFICATE:
                raise ValueError("a certificate of more than 1 GiB, which no checker takes")
            file.write(block)
