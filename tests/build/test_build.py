"""Programs that are built, the memory that proofs take, and what the build remembers."""
import functools
import os
import shutil
import signal
import subprocess
import sys
import tempfile
import time
import unittest
from collections.abc import Mapping
from pathlib import Path
from typing import Any
from unittest import mock

from build import crates, kit, lanes, memory, proving, run
from build.lanes import Machine, Proof
from build.records import Keep
from tests import support
from tests.support.building import ALL, ANOTHER, CRATES, BuildCase, Prover, read

KILL = """\
import os, signal
from build import memory
memory.remover_of({folder!r})
os.kill(os.getpid(), signal.SIGKILL)
"""


class Programs(BuildCase):
    """Programs above libraries."""

    def test_built(self) -> None:
        self.add_program()
        self.assertEqual((sorted([*ALL, "app"]), []), self.build(Prover())[:2])
        self.assertEqual(([], []), self.build(Prover())[:2])
        self.write("high", ANOTHER)
        self.assertEqual(["app", "high"], self.asked())
        self.assertIn("app", self.built())

    def test_another_program_in_its_place(self) -> None:
        self.add_program()
        self.build(Prover())
        self.place("app", "out", "app").write_text("another program\n", encoding="utf-8")
        self.assertEqual(["app"], self.asked())
        self.assertEqual("the program app\n", read(self.place("app", "out", "app")))

    def test_refused(self) -> None:
        """Nothing is left of an earlier program either."""
        self.add_program()
        for refused in "app", "link":
            with self.subTest(refused):
                self.build(Prover())
                self.write("app", f"//! refused: {refused}\n", "main.rt")
                found = self.build(Prover(refused=[refused]))
                self.assertEqual((["app"], ["app"]), found[:2])
                self.assertEqual(ALL, self.built())
                self.assertFalse(self.place("app", "out", "app").exists())


class Memory(BuildCase):
    """How much of the machine proofs take."""

    def planned(self, keep: Keep = Keep.STATEMENTS) -> tuple[Machine, set[float]]:
        """The machine that a build plans with, and the memory of its proofs."""
        found: list[tuple[Machine, set[float]]] = []

        def plan(proofs: Mapping[str, Proof[Any]], machine: Machine) -> None:
            found.append((machine, {proof.memory for proof in proofs.values()}))

        with mock.patch.object(lanes, "run_all", plan):
            self.build(Prover(), keep)
        return found[0]

    def test_side_by_side(self) -> None:
        """RT_JOBS says how many proofs run side by side, whatever memory is free."""
        with mock.patch.object(kit, "processors", lambda: 3):
            with mock.patch.dict(os.environ, {"RT_JOBS": "7"}):
                told, its_memory = self.planned()
            with mock.patch.dict(os.environ, {"RT_JOBS": ""}):
                free, other_memory = self.planned()
        self.assertEqual((Machine(7, float("inf")), 3), (told, free.processors))
        self.assertLess(free.memory, kit.free())
        self.assertEqual(its_memory, other_memory)

    def test_over_proofs(self) -> None:
        """Over libraries that hold proofs, or are to, a proof takes more memory."""
        self.assertLess(max(self.planned()[1]), min(self.planned(Keep.PROOFS)[1]))

    def test_over_libraries_of_rt(self) -> None:
        """So it is over a library that `rt` built, whose proofs aren't kept any more."""
        self.build(Prover(), Keep.PROOFS)
        for name in CRATES:
            shutil.rmtree(self.place(name, "out", "incremental"))
        self.write("high", ANOTHER)
        processors = mock.patch.object(kit, "processors", lambda: 4)
        with processors, mock.patch.object(kit, "free", lambda: 1e12):
            self.build(prover := Prover())
        self.assertEqual(({"high": "1"}, ["high"]), (prover.jobs, prover.cut))
        self.assertTrue(proving.holds_proofs(self.crates(Prover()), Keep.STATEMENTS))

    def test_made_in_memory(self) -> None:
        """The prover's files are made in memory, and removed at the end; on the disk where there is
        no room, no such place, or where TMPDIR says so."""
        ample = mock.Mock(f_bavail=1e9, f_frsize=4096)
        scarce = mock.Mock(f_bavail=100, f_frsize=4096)
        rows = {
            "room for all": (1e12, ample, "", True),
            "little memory": (1e9, ample, "", False),
            "little room": (1e12, scarce, "", False),
            "another place": (1e12, ample, "/elsewhere", False),
        }
        for name, (free, found, told, is_in_memory) in rows.items():
            patched = mock.patch.object(kit, "free", functools.partial(float, free))
            with self.subTest(name), patched, mock.patch.object(os, "statvfs", lambda _: found):
                self.assertEqual(is_in_memory, self.is_made_in_memory(told))
        self.assertFalse(memory.has_room(self.top / "none"))

    def is_made_in_memory(self, told: str) -> bool:
        """Whether the prover's files are made at the place for them, where TMPDIR says this."""
        with mock.patch.dict(os.environ, {"TMPDIR": told} if told else {}):
            if not told:
                os.environ.pop("TMPDIR", None)
            with memory.files_in_memory(self.top):
                room = os.environ.get("TMPDIR", "")
                is_there = room != told and Path(room).is_dir()
                self.assertNotEqual(room or "none", tempfile.gettempdir())
            self.assertEqual(told, os.environ.get("TMPDIR", ""))
            self.assertFalse(is_there and Path(room).exists())
        return is_there

    def test_removed_when_killed(self) -> None:
        """A folder goes with the program that made it."""
        folder = self.top / "room"
        (folder / "below").mkdir(parents=True)
        words = [sys.executable, "-c", KILL.format(folder=str(folder))]
        ended = subprocess.run(words, cwd=support.TOP, check=False).returncode
        self.assertEqual(-signal.SIGKILL, ended)
        until = time.monotonic() + 10
        while folder.exists() and time.monotonic() < until:
            time.sleep(0.1)
        self.assertFalse(folder.exists())


class Remembered(BuildCase):
    """What a crate remembers, beside what the kit finds each time."""

    def test_as_the_kit(self) -> None:
        """Below a crate are the libraries that the kit finds, and its sum is the kit's."""
        self.add_program()
        ours = self.crates(Prover())
        known = {each_crate.name: each_crate for each_crate in ours}
        for theirs in kit.RT.rtlib.crates_below(str(self.top)):
            with self.subTest(theirs.name):
                crate = known[theirs.name]
                below = [each_crate.name for each_crate in crate.below()]
                self.assertEqual([item.name for item in theirs.below()], below)
                self.assertEqual(theirs.stamp(), crate.stamp())

    def test_files_are_looked_at_once(self) -> None:
        """While one question is answered, the files of each crate are looked at once."""
        high = self.crate("high", Prover())
        with mock.patch.object(crates, "looks_of", wraps=crates.looks_of) as looks:
            high.stamp()
        self.assertEqual(3, looks.call_count)


class Run(BuildCase):
    """What `make run` does beside."""

    def test_time_is_noted(self) -> None:
        """At the end of the log, behind what the proofs said."""
        log = self.top / "run.log"
        for text in "what the proofs said\n", "":
            with open(log, "a", encoding="utf-8") as file:
                file.write(text)
            run.note_time(Path(log), 90)
        said, *times = read(log).splitlines()
        self.assertEqual(("what the proofs said", 2), (said, len(times)))
        for line in times:
            self.assertRegex(line, r"^\$ 1\.5 minutes, \d+\.\d of processor time$")


if __name__ == "__main__":
    unittest.main()
