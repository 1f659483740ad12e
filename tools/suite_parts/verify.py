"""Checks every certificate of a results folder, and takes nothing from the results.

A record only says which files belong together. The sums are of the files that are there, each
claim is what a checker says of a certificate and its task, and the results are compared with it.
"""

from __future__ import annotations

import argparse
import json
import os
import pathlib
import typing

from .driver import run_all
from .jobs import needs_of
from .pools import Pool
from .results import Results
from .tables import claim
from .tasks import Faulty
from .work import Job, Record, sum_of, task_words_of, verify_job, verify_piece

Checkers = typing.Sequence[typing.Dict[str, typing.Any]]
MOST_PIECES = 4096


def verify(results: Results, checkers: Checkers, options: argparse.Namespace,
           open_pool: typing.Callable) -> int:
    """Prints a line a certificate, and what was found in all. 0 if nothing is wrong."""
    if not checkers:
        raise Faulty("to verify, a checker is needed")
    records = {place.stem: json.loads(place.read_text(encoding="utf-8"))
               for place in sorted((results.folder / "runs").glob("*.json"))}
    jobs = [job_of_record(results.folder, name, record, checkers, options)
            for name, record in records.items() if record.get("certificate")]
    faults: typing.List[str] = stray_files(results.folder, records)
    if options.inputs:
        faults += other_inputs(jobs, pathlib.Path(options.inputs))
    found: typing.Dict[str, Record] = {}
    if jobs:
        with open_pool(jobs) as pool:
            faults += judge_pieces(pool, jobs, records, options.piece_mib)
            lost = run_all(pool, verify_job, jobs,
                           lambda record: found.update({record["name"]: record}))
            faults += [f"{job['name']}: its worker was killed each time" for job in lost]
    for job in jobs:
        if job["name"] in found:
            faults += faults_of(job, records[job["name"]], found[job["name"]])
            print_line(job, found[job["name"]])
    faults += faults_of_lines(results, records)
    print_inputs(jobs)
    for fault in faults:
        print(f"FAULT: {fault}")
    print_counts(records, jobs, found, faults)
    return 1 if faults else 0


def job_of_record(folder: pathlib.Path, name: str, record: Record, checkers: Checkers,
                  options: argparse.Namespace) -> Job:
    for path in [record["certificate"], *(file["path"] for file in record["inputs"])]:
        if not (folder / path).resolve().is_relative_to(folder):
            raise Faulty(f"{name} names {path}, which is outside {folder}")
    return {"name": name, "folder": str(folder), "kind": record["kind"], "row": record["row"],
            "swamp": record["swamp"], "reachable": record.get("reachable", False),
            "inputs": record["inputs"], "places": 1, "key": name,
            "certificate": record["certificate"], "certified": True, "checkers": list(checkers),
            "certificate_sha256": record["certificate_sha256"],
            "needs": needs_of("checker", checkers),
            "check_limits": {"seconds": options.check_seconds, "mib": options.check_mib},
            "settings": settings_of(folder)}


def judge_pieces(pool: Pool, jobs: typing.Sequence[Job], records: typing.Dict[str, Record],
                 mib: float) -> typing.List[str]:
    """Has large certificates judged by pieces, and gives each job the lines of its pieces. The
    second checker joins them later; without them it judges the whole. Faults of the pieces."""
    parts = {job["name"]: parts_of(job, records[job["name"]], int(mib * 2**20)) for job in jobs}
    found: typing.Dict[str, Record] = {}
    lost = run_all(pool, verify_piece, [part for of_job in parts.values() for part in of_job],
                   lambda record: found.update({record["name"]: record}))
    faults = [f"{part['name']}: its worker was killed each time" for part in lost]
    for job in jobs:
        pieces = [found.get(part["name"], {"line": ""}) for part in parts[job["name"]]]
        faults += [f"{job['name']}: {piece['fault']}" for piece in pieces if "fault" in piece]
        if all(piece["line"] for piece in pieces):
            job["pieces"] = [piece["line"] for piece in pieces]
    return faults


def parts_of(job: Job, record: Record, size: int) -> typing.List[Job]:
    """A job for each piece, where the second checker is asked and the certificate is large. The
    record is believed only as to how many pieces are made."""
    second = [checker for checker in job["checkers"] if checker["name"] == "second"]
    length = record.get("certificate_bytes")
    count = min(-(-length // size), MOST_PIECES) if second and isinstance(length, int) else 1
    return [{**job, "name": f"{job['name']}.{number}", "checkers": second,
             "piece": f"{number}/{count}"} for number in range(1, count + 1)] if count > 1 else []


def settings_of(folder: pathlib.Path) -> str:
    place = folder / "suite.json"
    if not place.exists():
        raise Faulty(f"{folder} has no suite.json: it is no results folder")
    return sum_of(str(place))


def stray_files(folder: pathlib.Path, records: typing.Dict[str, Record]) -> typing.List[str]:
    """Certificates that no record names."""
    named = {record.get("certificate") for record in records.values()}
    return [f"no record names {place.relative_to(folder)}"
            for place in sorted((folder / "runs").glob("*.cert.gz"))
            if str(place.relative_to(folder)) not in named]


def other_inputs(jobs: typing.Sequence[Job], own: pathlib.Path) -> typing.List[str]:
    """The inputs that differ from the reader's own copies of the same name."""
    places = {place.name: place for place in own.rglob("*") if place.is_file()}
    found = []
    for path, folder in sorted({(file["path"], job["folder"]) for job in jobs
                                for file in job["inputs"]}):
        name = os.path.basename(path)
        same = [place for place in own.rglob(name) if place.is_file()
                and place.read_bytes() == pathlib.Path(folder, path).read_bytes()]
        if not same:
            found.append(f"{path} isn't {places[name]}" if name in places
                         else f"there is no {name} below {own}")
    return found


def faults_of(job: Job, record: Record, found: Record) -> typing.List[str]:
    """What is wrong with a certificate, or with what its record claims."""
    faults = [f"{job['name']}: {fault}" for fault in found["faults"]]
    for checker in job["checkers"]:
        line = found.get("check_" + checker["name"])
        if line is not None and line != wanted(record):
            faults.append(f"{job['name']}: {checker['name']} says `{line}`, and the record claims "
                          f"`{wanted(record)}`")
    return faults


def wanted(record: Record) -> str:
    if record.get("answer") == "none":
        return "accepted none"
    return f"accepted cost {record.get('cost')} bound {record.get('bound')}"


def faults_of_lines(results: Results, records: typing.Dict[str, Record]) -> typing.List[str]:
    """The lines of results.jsonl that say something else than the run's record."""
    by_key = {record["key"]: record for record in records.values()}
    found = []
    for line in results.read():
        record = by_key.get(line["key"])
        if record is None:
            found.append(f"{line['task']}, {line['column']}: a line of results.jsonl has no record")
        elif any(record.get(name) != value for name, value in line.items()):
            found.append(f"{line['task']}, {line['column']}: its line isn't what its record says")
    return found


def print_line(job: Job, found: Record) -> None:
    said = [found.get("check_" + checker["name"], "not checked") for checker in job["checkers"]]
    files = " ".join(file["path"] for file in job["inputs"])
    print(f"{' | '.join(dict.fromkeys(said))}: {job['kind']} {files} "
          f"{' '.join(task_words_of(job))}".rstrip())


def print_inputs(jobs: typing.Sequence[Job]) -> None:
    """The sums of the inputs, to be compared with those of a publisher."""
    for path, total in sorted({(file["path"], file["sha256"]) for job in jobs
                               for file in job["inputs"]}):
        print(f"{total}  {path}")


def print_counts(records: typing.Dict[str, Record], jobs: typing.Sequence[Job],
                 found: typing.Dict[str, Record], faults: typing.Sequence[str]) -> None:
    accepted = sum(bool(record.get("certified")) for record in found.values())
    without = [record for record in records.values()
               if not record.get("certificate") and record["answer"] in ("plan", "none")]
    print(f"{accepted} of {len(jobs)} certificates are accepted, "
          f"{len(without)} claims have no certificate, {len(faults)} faults")
    for record in without[:20]:
        print(f"not certified: {record['task']}, {record['column']}: {claim(record)}")
