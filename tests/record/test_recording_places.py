"""Tests where in the program calls come from: a function, and what called it."""
import shutil
import subprocess
import tempfile
import unittest
from pathlib import Path

from wire_up_tools.record.places import Places, find_lines
from wire_up_tools.record.recordings import MOST_FRAMES, Address, Recording, read_recording
from tests.support.tapes import write_file

HEAD = b"wire_up-recording 1\nprocess job 0 n 1\nbegan 1.000000\nlibrary L\n"
PROGRAM, LIBRARY = "program", "libsolver.so"
# A function in a function of the program.
INLINED = """\
#include <stdlib.h>
static inline int ask(int it)
{
    return atoi(getenv("A")) + it;
}
int solve(int it)
{
    return ask(it);
}
"""


def read(*places: str) -> Recording:
    """A recording that has these places."""
    records = "".join(f"= 0 1 0.000001 place {place}\n" for place in places)
    return read_recording("a.recording", HEAD + records.encode())


class CallersTest(unittest.TestCase):
    """A place is said with the places at which its functions were called."""

    def say(self, texts: dict[tuple[str, int], str], *places: str) -> str | None:
        """What is said of the last of some places, where texts are known."""
        known = {Address(module, offset): text for (module, offset), text in texts.items()}
        return Places(known).find(read(*places), places[-1].partition(" ")[0])

    def test_a_helper(self) -> None:
        texts = {(PROGRAM, 1): "main (a.c:9)", (PROGRAM, 2): "look_up (a.c:3)"}
        self.assertEqual(self.say(texts, "7 program 1"), "main (a.c:9)")
        said = self.say(texts, "7 program 1", "8 program 2 7")
        self.assertEqual(said, "main (a.c:9) -> look_up (a.c:3)")

    def test_of_a_library_the_last_function_is_named(self) -> None:
        texts = {(PROGRAM, 1): "main (a.c:9)", (LIBRARY, 2): "join (s.c:4)"}
        texts[LIBRARY, 3] = "ask (s.c:2)"
        said = self.say(texts, "7 program 1", "8 libsolver.so 2 7", "9 libsolver.so 3 8")
        self.assertEqual(said, "main (a.c:9) -> ask (s.c:2)")
        texts[LIBRARY, 3] = "libsolver.so+0x3"
        said = self.say(texts, "7 program 1", "8 libsolver.so 2 7", "9 libsolver.so 3 8")
        self.assertEqual(said, "main (a.c:9) -> libsolver.so+0x3")

    def test_what_calls_the_main_program_is_not_named(self) -> None:
        texts = {(PROGRAM, 1): "main (a.f90:9)", (PROGRAM, 2): "MAIN__ (a.f90:3)"}
        self.assertEqual(self.say(texts, "7 program 1", "8 program 2 7"), "MAIN__ (a.f90:3)")

    def test_three_functions_are_named(self) -> None:
        texts = {(PROGRAM, number): f"f{number} (a.c:{number})" for number in range(1, 6)}
        places = [
            "1 program 1",
            *(f"{number} program {number} {number - 1}" for number in range(2, 6)),
        ]
        self.assertEqual(self.say(texts, *places), "f3 (a.c:3) -> f4 (a.c:4) -> f5 (a.c:5)")

    def test_callers_without_lines_are_not_named(self) -> None:
        texts = {(PROGRAM, 1): "program+0x1", (PROGRAM, 2): "program+0x2"}
        self.assertEqual(self.say(texts, "7 program 1", "8 program 2 7"), "program+0x2")
        self.assertIsNone(self.say({(PROGRAM, 1): "main (a.c:9)"}, "7 program 1", "8 program 2 7"))

    def test_a_circle_ends(self) -> None:
        self.assertEqual(len(read("7 program 1 8", "8 program 2 7").list_frames("7")), MOST_FRAMES)


class InlinedTest(unittest.TestCase):
    """Functions that the compiler put into others are named with these."""

    def test_a_function_in_another(self) -> None:
        if not all(map(shutil.which, ("cc", "addr2line", "objdump"))):
            self.skipTest("there is no cc, addr2line or objdump")
        with tempfile.TemporaryDirectory(prefix="wire-up-") as room:
            source = write_file(Path(room, "solve.c"), INLINED.encode())
            made = f"{room}/solve.so"
            words = ["cc", "-g", "-O2", "-shared", "-fPIC", "-o", made, source]
            subprocess.run(words, capture_output=True, check=True)
            words = ["objdump", "-d", "--no-show-raw-insn", made]
            ran = subprocess.run(words, capture_output=True, text=True, check=True)
            calls = [
                line
                for line in ran.stdout.splitlines()
                if "<getenv@plt>" in line and "call" in line
            ]
            offset = int(calls[0].partition(":")[0], 16)
            said = find_lines(made, [offset, offset])
        self.assertEqual(said, ["solve (solve.c:8) -> ask (solve.c:4)"] * 2)


if __name__ == "__main__":
    unittest.main()
