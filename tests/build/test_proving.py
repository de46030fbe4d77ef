"""What `make run`, `make libraries` and `make edits` prove again, and what counts as built."""
import functools
import os
import shutil
import unittest
from collections.abc import Callable
from pathlib import Path

from build import records
from build.crates import Crate
from build.records import Keep
from tests import support
from tests.support.building import ALL, ANOTHER, BODY, PROVED, BuildCase, Prover

assert support.TOP, "it says where the build is"


class Proving(BuildCase):
    """What is proved, and what counts as built."""

    def test_from_nothing(self) -> None:
        found = self.build(prover := Prover())
        chain = [text for text in prover.asked if text != "apart"]
        self.assertEqual((ALL, []), found[:2])
        self.assertEqual((["low", "middle", "high"], ALL), (chain, sorted(prover.cut)))
        self.hold_built(*ALL)

    def test_nothing_changed(self) -> None:
        self.build(Prover())
        self.assertEqual(([], []), self.build(Prover())[:2])

    def test_text_changed(self) -> None:
        self.build(Prover())
        self.write("middle", ANOTHER)
        self.assertEqual(["apart", "low"], self.built())
        self.assertEqual((["high", "middle"], []), self.build(Prover())[:2])
        self.assertEqual(ALL, self.built())

    def test_text_as_before(self) -> None:
        """What was built from that text is gone by then."""
        self.build(Prover())
        self.write("low", ANOTHER)
        self.build(Prover())
        self.write("low", "//! low\n")
        self.assertEqual(["high", "low", "middle"], self.asked())

    def test_one_refused(self) -> None:
        found = self.build(Prover(refused=["middle"]))
        told = "$ what the proofs that failed said\n== middle\nfn it: not proved\n(exit status 1)\n"
        self.assertEqual((["apart", "low", "middle"], ["middle"]), found[:2])
        self.assertTrue(found.said.endswith(told), found.said)
        self.hold_built("apart", "low")

    def test_refused_and_mended(self) -> None:
        self.build(Prover(refused=["middle"]))
        self.assertEqual((["high", "middle"], []), self.build(Prover())[:2])

    def test_built_before_it_is_refused(self) -> None:
        """What was built from an earlier text is gone once another text was refused."""
        self.build(Prover())
        self.write("low", ANOTHER)
        self.build(Prover(refused=["low"]))
        self.write("low", "//! low\n")
        self.hold_built("apart")

    def test_killed(self) -> None:
        found = self.build(Prover(refused=["low"], status=-9))
        self.assertEqual((["apart", "low"], ["low"]), found[:2])
        self.assertIn("RT_JOBS=1", found.said)

    def test_refused_by_the_gate(self) -> None:
        for word in "foreign hides partial may-abort may-serve bugs".split():
            for keep in Keep:
                with self.subTest(word, keep=keep):
                    found = self.build(Prover(verdict=f"{PROVED} {word}=1"), keep)
                    self.assertEqual(found.asked, found.failed)
                    self.assertIn(f"the gate would refuse this: {word}=1", found.said)
                    self.assertEqual([], self.built_for_rt())

    def test_no_verdict(self) -> None:
        found = self.build(Prover(verdict="logic=not-proved"))
        self.assertEqual((["apart", "low"], ["apart", "low"]), found[:2])
        self.assertIn("the prover gave no verdict", found.said)
        self.assertEqual([], self.built_for_rt())

    def test_no_stamp_while_it_is_proved(self) -> None:
        self.build(Prover())
        self.write("low", ANOTHER)
        seen = []

        def look(crate: Crate) -> None:
            seen.append(records.stamp_of(crate).exists())

        self.build(Prover(meanwhile=look))
        self.assertEqual([False] * 3, seen)

    def test_broken_off(self) -> None:
        """What is left of a proof that was broken off is no library."""

        def stop(crate: Crate) -> None:
            if crate.name == "low":
                raise KeyboardInterrupt

        self.build(Prover())
        self.write("low", ANOTHER)
        with self.assertRaises(KeyboardInterrupt):
            self.build(Prover(meanwhile=stop))
        self.hold_built("apart")
        self.assertEqual(["high", "low", "middle"], self.asked())


class Meanwhile(BuildCase):
    """What changes while a proof is under way."""

    def meanwhile(self, name: str, change: Callable[[], object]) -> Prover:
        """A prover that makes a change while it proves a crate."""

        def look(crate: Crate) -> None:
            if crate.name == name:
                change()

        return Prover(meanwhile=look)

    def test_file_gone(self) -> None:
        def take_away() -> None:
            os.remove(self.place("low", "src", "lib.rt"))
            os.symlink("nowhere", self.place("low", "src", ".#lib.rt"))

        found = self.build(self.meanwhile("low", take_away))
        self.assertEqual((["apart", "low"], ["low"]), found[:2])
        self.assertEqual(["apart"], self.built())

    def test_changed(self) -> None:
        for keep in Keep:
            with self.subTest(keep=keep):
                text = f"//! another text {keep}\n"
                prover = self.meanwhile("low", functools.partial(self.write, "low", text))
                found = self.build(prover, keep)
                self.assertEqual(["low"], found.failed)
                self.assertIn("changed meanwhile", found.said)
                self.hold_built("apart")

    def test_changed_and_changed_back(self) -> None:
        # (written a while ago, so that the times differ)
        os.utime(self.place("low", "src", "lib.rt"), (1, 1))

        def change() -> None:
            self.write("low", ANOTHER)
            self.write("low", "//! low\n")

        self.assertEqual(["low"], self.build(self.meanwhile("low", change)).failed)
        self.assertEqual(["apart"], self.built_for_rt())

    def test_below_changed(self) -> None:
        """The library above was proved over the text that the lower one had before."""
        prover = self.meanwhile("middle", functools.partial(self.write, "low", ANOTHER))
        found = self.build(prover)
        self.assertEqual((["apart", "low", "middle"], ["middle"]), found[:2])
        self.assertEqual(["apart"], self.built())
        self.assertEqual(["high", "low", "middle"], self.asked())


class BuiltOnceMore(BuildCase):
    """Libraries that were built once more since, here or by `rt`."""

    def test_built_once_more(self) -> None:
        """What was built over a library that was built once more since, from the same text, is
        built once more too: it fits only that very library."""
        self.build(Prover())
        shutil.rmtree(self.place("middle", "out"))
        self.assertEqual(["high", "middle"], self.asked())
        self.assertEqual([], self.asked())

    def test_times(self) -> None:
        """Those of files say nothing of a library."""
        self.build(Prover())
        os.utime(self.place("low", "out", "rlib", "stamp"), (1, 1))
        self.assertEqual([], self.asked())

    def test_built_by_rt(self) -> None:
        """`rt` takes a library as built whatever its verdict says: so it is proved here."""
        self.build(Prover())
        low = self.crate("low", Prover())
        shutil.rmtree(Path(low.rlib).parent)
        with open(os.devnull, "w", encoding="utf-8") as low.out:
            low.build_rlib(["--jobs", "1"], anew=False)
        self.assertIn("low", self.built_for_rt())
        self.assertEqual(["apart"], self.built())
        self.assertEqual(["high", "low", "middle"], self.asked())


class KeptProofs(BuildCase):
    """Builds that keep the proof of each function."""

    def test_kept(self) -> None:
        self.assertEqual((ALL, []), self.build(Prover(), Keep.PROOFS)[:2])
        self.assertEqual(([], []), self.build(Prover(), Keep.PROOFS)[:2])
        self.assertEqual([], self.asked())

    def test_kept_later(self) -> None:
        """Libraries that were built without them are proved once more, so that the proof of each
        function is kept."""
        self.build(Prover())
        self.build(prover := Prover(), Keep.PROOFS)
        self.assertEqual((ALL, ALL), (sorted(prover.over_kept), self.built()))
        self.assertEqual([], prover.cut)

    def test_used(self) -> None:
        self.build(Prover(), Keep.PROOFS)
        self.write("middle", ANOTHER)
        self.build(prover := Prover())
        self.assertEqual(["high", "middle"], sorted(prover.over_kept))
        self.assertEqual([], self.asked(Keep.PROOFS))

    def test_another_body(self) -> None:
        """Where a library shows what it did, those above that keep their proofs stand, for `rt`
        too, and a program is linked anew."""
        self.add_program()
        self.build(Prover(), Keep.PROOFS)
        self.write("low", f"//! low\n{BODY}")
        self.assertEqual(["apart"], self.built())
        self.assertEqual((["app", "low"], []), self.build(Prover())[:2])
        self.assertEqual(sorted([*ALL, "app"]), self.built())
        self.assertEqual(ALL, self.built_for_rt())
        self.assertEqual([], self.asked())

    def test_program(self) -> None:
        """Over libraries that keep their proofs it keeps its own."""
        self.add_program()
        self.build(Prover(), Keep.PROOFS)
        self.write("app", ANOTHER, "main.rt")
        self.build(prover := Prover())
        self.assertEqual(["app"], prover.over_kept)

    def test_program_above_cut_libraries(self) -> None:
        self.add_program()
        self.build(prover := Prover())
        self.assertEqual([], prover.over_kept)

    def test_another_body_above_cut_libraries(self) -> None:
        """These fit only the very libraries over which they were built."""
        self.build(Prover())
        self.write("low", f"//! low\n{BODY}")
        self.assertEqual(["high", "low", "middle"], self.asked())

    def test_another_contract(self) -> None:
        """All that is above is proved again, also where what is between shows what it did."""
        self.build(Prover(), Keep.PROOFS)
        self.write("low", f"{ANOTHER}{BODY}")
        self.assertEqual(["high", "low", "middle"], self.asked())

    def test_another_body_that_is_refused(self) -> None:
        """What stands above isn't taken as built before that is mended."""
        self.build(Prover(), Keep.PROOFS)
        self.write("low", f"//! low\n{BODY}")
        self.build(Prover(refused=["low"]))
        self.hold_built("apart")
        self.assertEqual(["low"], self.asked())

    def test_lost(self) -> None:
        self.build(Prover(), Keep.PROOFS)
        shutil.rmtree(self.place("high", "out", "incremental"))
        self.assertEqual(([], ["high"]), (self.asked(), self.asked(Keep.PROOFS)))


if __name__ == "__main__":
    unittest.main()
