"""`suite verify`: what is right is accepted, and each change is found."""

from __future__ import annotations

import gzip
import json
import shutil
import subprocess
import tempfile
import typing

from .common import EXAMPLES, Case


class Verifying(Case):
    made: typing.Optional[tempfile.TemporaryDirectory] = None

    def setUp(self) -> None:
        """The results are made once, and copied for each test."""
        super().setUp()
        if Verifying.made is None:
            run = self.run_suite(EXAMPLES / "lake.scen", EXAMPLES / "ring-2x2.tiles")
            self.assertEqual(run.returncode, 0, run.stderr)
            Verifying.made = tempfile.TemporaryDirectory(prefix="suite-check-")
            shutil.copytree(self.out, Verifying.made.name, dirs_exist_ok=True)
        shutil.copytree(Verifying.made.name, self.out, dirs_exist_ok=True)

    @classmethod
    def tearDownClass(cls) -> None:
        if Verifying.made is not None:
            Verifying.made.cleanup()

    def verify(self, *words: object) -> subprocess.CompletedProcess:
        return self.call("verify", self.out, "--processes", 2, *words)

    def demand_fault(self, text: str, *words: object) -> None:
        run = self.verify(*words)
        self.assertEqual(run.returncode, 1, run.stdout + run.stderr)
        self.assertIn(text, run.stdout)

    def change_record(self, task: str, **changes: object) -> None:
        name = self.records()[task]["certificate"].replace(".cert.gz", ".json")
        record = {**self.records()[task], **changes}
        (self.out / name).write_text(json.dumps(record), encoding="utf-8")

    def test_a_packed_folder_is_accepted_elsewhere(self) -> None:
        moved = self.place / "elsewhere"
        packed = shutil.make_archive(str(self.place / "packed"), "gztar", self.out)
        shutil.rmtree(self.out)
        shutil.unpack_archive(packed, moved)
        self.out = moved
        run = self.verify("--inputs", EXAMPLES)
        self.assertEqual(run.returncode, 0, run.stdout + run.stderr)
        self.assertIn("accepted cost 38 bound 38: grid inputs/", run.stdout)
        self.assertIn("accepted none: tiles inputs/", run.stdout)
        self.assertIn("2 of 2 certificates are accepted, 0 claims have no certificate, 0 faults",
                      run.stdout)

    def test_by_pieces(self) -> None:
        run = self.verify("--piece-mib", 0.003)
        self.assertEqual(run.returncode, 0, run.stdout + run.stderr)
        self.assertIn("accepted cost 38 bound 38: grid inputs/", run.stdout)
        self.assertIn("2 of 2 certificates are accepted", run.stdout)

    def test_a_certificate_by_pieces_that_lacks_a_row(self) -> None:
        record = self.records()["lake.scen:0"]
        place = self.out / record["certificate"]
        lines = gzip.decompress(place.read_bytes()).split(b"\n")
        at = next(at for at, line in enumerate(lines) if line.startswith(b"rows "))
        lines[at] = b"rows %d" % (int(lines[at][5:]) - 1)
        del lines[at + 100]
        place.write_bytes(gzip.compress(b"\n".join(lines)))
        whole, pieces = (self.verify(*words) for words in ([], ["--piece-mib", 0.003]))
        self.assertEqual(pieces.returncode, 1)
        self.assertIn("refused Missing", pieces.stdout)
        self.assertEqual(pieces.stdout, whole.stdout)

    def test_a_piece_that_takes_too_long(self) -> None:
        self.demand_fault("piece 1/", "--piece-mib", 0.003, "--check-seconds", 0.01)

    def test_a_changed_certificate(self) -> None:
        place = self.out / self.records()["lake.scen:0"]["certificate"]
        text = gzip.decompress(place.read_bytes())
        place.write_bytes(gzip.compress(text.replace(b"cost 38", b"cost 37")))
        self.demand_fault("the certificate isn't the one that the record names")
        self.demand_fault("says `refused Cost 37 38`")

    def test_a_broken_certificate(self) -> None:
        place = self.out / self.records()["lake.scen:0"]["certificate"]
        place.write_bytes(place.read_bytes()[:-40])
        self.demand_fault("1 of 2 certificates are accepted")

    def test_a_changed_input(self) -> None:
        place = self.out / self.records()["lake.scen:0"]["inputs"][0]["path"]
        place.write_bytes(place.read_bytes().replace(b"@", b".", 1))
        self.demand_fault("isn't the input that the record names")

    def test_a_changed_claim(self) -> None:
        self.change_record("lake.scen:0", cost=36, bound=36)
        self.demand_fault("says `accepted cost 38 bound 38`, and the record claims `accepted cost 36")

    def test_a_changed_line(self) -> None:
        place = self.out / "results.jsonl"
        text = place.read_text(encoding="utf-8")
        place.write_text(text.replace('"cost": 38', '"cost": 30'), encoding="utf-8")
        self.demand_fault("its line isn't what its record says")

    def test_another_task_of_the_same_name(self) -> None:
        own = self.place / "own"
        shutil.copytree(EXAMPLES, own)
        (own / "lake.map").write_bytes((EXAMPLES / "lake.map").read_bytes().replace(b"@", b".", 1))
        self.demand_fault("lake.map isn't", "--inputs", own)

    def test_an_outside_file_is_refused(self) -> None:
        self.change_record("ring-2x2", certificate="../../outside.cert.gz")
        run = self.verify()
        self.assertEqual(run.returncode, 64, run.stdout)
        self.assertIn("which is outside", run.stderr)

    def test_a_lost_certificate(self) -> None:
        (self.out / self.records()["ring-2x2"]["certificate"]).unlink()
        self.demand_fault("1 of 2 certificates are accepted")

    def test_a_certificate_without_a_record(self) -> None:
        name = self.records()["ring-2x2"]["certificate"].replace(".cert.gz", ".json")
        (self.out / name).unlink()
        self.demand_fault("no record names")
