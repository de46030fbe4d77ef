"""Holds the forms by which the recorder writes texts to those that it can do, and runs what writes
them under the sanitizers of the compiler, beside the C library's own.

The recorder has a printf of its own, since it is called for each record. The compiler looks whether
the words fit the forms; that no form is one that this printf lacks is looked at here.
"""
import glob
import re
import shutil
import subprocess
import tempfile
import unittest
from pathlib import Path

from tests.support import TOP


RECORD = TOP / "record"
# A number with zeros before it up to a width, a text, a byte, and the sign itself.
FORM = re.compile(r"%(?:0\d)?(?:l|ll|z)?[dux]|%[sc%]")
CALL = re.compile(r"\bwire_up_text_add\(")
LITERAL = re.compile(r'"((?:[^"\\]|\\.)*)"')
# Texts in C that may stand in either branch of a condition.
CHOSEN = re.compile(r'^(?:[^"?]*\?)?\s*(?:"(?:[^"\\]|\\.)*"\s*:?\s*)+$')
SANITIZED = ["-g", "-O1", "-fsanitize=address,undefined", "-fno-sanitize-recover=undefined"]
PROGRAM = """\
#include "record.h"
#include <stdio.h>
#include <string.h>

#define HOLD(...) do { \\
    struct text own; char theirs[4096]; \\
    wire_up_text_open(&own); \\
    wire_up_text_add(&own, __VA_ARGS__); \\
    snprintf(theirs, sizeof theirs, __VA_ARGS__); \\
    if (strcmp(own.at, theirs)) { printf("%s: %s\\n", own.at, theirs); failed = 1; } \\
    wire_up_text_close(&own); \\
} while (0)

int main(void)
{
    static const long long numbers[] = {0, 1, 9, 10, 99, 100, 101, 999, 1000, 123456789, -1, -10,
        -99, -100, 2147483647, -2147483647 - 1, 9223372036854775807, -9223372036854775807 - 1};
    char longer[3000];
    int failed = 0;
    memset(longer, 'x', sizeof longer);
    longer[sizeof longer - 1] = 0;
    for (size_t n = 0; n < sizeof numbers / sizeof *numbers; n++) {
        HOLD("%d %u %x", (int)numbers[n], (unsigned)numbers[n], (unsigned)numbers[n]);
        HOLD("%ld,%lu,%lx", (long)numbers[n], (unsigned long)numbers[n], (unsigned long)numbers[n]);
        HOLD("%lld%llu", numbers[n], (unsigned long long)numbers[n]);
        HOLD("%zu:%zx", (size_t)numbers[n], (size_t)numbers[n]);
        if (numbers[n] >= 0)
            HOLD("%06ld.%06llu", (long)numbers[n], (unsigned long long)numbers[n]);
    }
    HOLD("%s|%c|%%|%s", "", 'y', "text");
    HOLD("%s%s", longer, "end");
    return failed;
}
"""


def sources() -> list[str]:
    """The files with C of the recorder, also within the programs that write C."""
    found = [*glob.glob("*/*.[ch]", root_dir=RECORD), *glob.glob("*.py", root_dir=RECORD)]
    return sorted(path for path in found if not path.startswith("programs/"))


def second_argument(text: str) -> str:
    """The second argument of a call whose arguments begin a text."""
    depth, place, commas = 1, 0, []
    while depth:
        literal = LITERAL.match(text, place)
        if literal:
            place = literal.end()
            continue
        depth += {"(": 1, ")": -1}.get(text[place], 0)
        if text[place] == "," and depth == 1:
            commas.append(place)
        place += 1
    return text[commas[0] + 1:[*commas, place - 1][1]].strip()


class FormsTest(unittest.TestCase):
    """The forms that calls in the recorder give."""

    def test_forms(self) -> None:
        """Each is written out where it is given, and has no other part than `FORM` says."""
        count = 0
        for path in sources():
            text = (RECORD / path).read_text(encoding="utf-8")
            for call in CALL.finditer(text):
                given = second_argument(text[call.end():])
                if given.startswith("const char *"):
                    continue
                count += 1
                with self.subTest(path, given=given):
                    self.assertRegex(given, CHOSEN)
                    for literal in LITERAL.findall(given):
                        self.assertNotIn("%", FORM.sub("", literal))
        self.assertGreater(count, 50)

    def test_other_forms(self) -> None:
        for form in ("%5u", "%.3f", "%p", "%-3d", "%hu", "%i", "%", "%0*d"):
            with self.subTest(form):
                self.assertIn("%", FORM.sub("", form))


class SanitizedTest(unittest.TestCase):
    """What writes texts, by itself."""

    def test_texts(self) -> None:
        """It writes what the C library does, and the sanitizers find nothing, where there are
        some."""
        compiler = shutil.which("cc")
        if not compiler:
            self.skipTest("there is no cc")
        room = self.enterContext(tempfile.TemporaryDirectory())
        program = Path(room, "texts")
        source = str(RECORD / "core" / "text.c")
        words = ["-std=gnu11", f"-I{RECORD}", "-x", "c", "-", source, "-o", str(program)]
        for sanitized in (SANITIZED, list[str]()):
            built = subprocess.run(
                [compiler, *sanitized, *words], input=PROGRAM, capture_output=True, text=True,
                check=False,
            )
            if not built.returncode:
                break
        self.assertEqual((built.returncode, built.stderr), (0, ""))
        ran = subprocess.run([program], capture_output=True, text=True, check=False)
        self.assertEqual((ran.returncode, ran.stdout, ran.stderr), (0, "", ""))


if __name__ == "__main__":
    unittest.main()
