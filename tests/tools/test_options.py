"""Tests how options are read, and what is said of those that are wrong."""
import unittest

from wire_up_tools import VERSION
from wire_up_tools.failures import Unusable
from wire_up_tools.options import Option, Parser, answer_alone, describe
from tests import support

OPTIONS = (
    Option("-o", "PLAN", "where the plan goes"),
    Option("--keep-all", "FOLDER", "keeps all"),
    Option("--loud", "", "says more"),
)


class OptionsTest(unittest.TestCase):
    """Options, and the words after them."""

    def test_options(self) -> None:
        found = Parser(OPTIONS).read(["-o", "-", "--loud", "a", "--loud", "--", "b"])
        self.assertEqual((found.o, found.keep_all, found.loud), ("-", None, True))
        self.assertEqual(found.rest, ["a", "--", "b"])

    def test_options_after_words(self) -> None:
        """They mean the same there, up to two hyphens, and each has its own word."""
        found = Parser(OPTIONS).read(["a", "-o", "b", "c", "--loud", "--", "--keep-all"])
        self.assertEqual((found.o, found.keep_all, found.loud), ("b", None, True))
        self.assertEqual(found.rest, ["a", "c", "--", "--keep-all"])
        with self.assertRaisesRegex(Unusable, "-o needs a file"):
            Parser(OPTIONS).read(["a", "-o"])

    def test_tasks(self) -> None:
        """The first has the words behind it, and then those before it."""
        words = ["a", "--show", "b", "--loud", "--tell", "c", "-o", "d"]
        found = Parser(OPTIONS, ("--show", "--tell")).read(words)
        self.assertEqual((found.o, found.loud), ("d", True))
        self.assertEqual((found.show, found.rest), (["b", "--tell", "c", "a"], []))

    def test_help_and_version(self) -> None:
        """Where nothing else stands."""
        for asked in (["-V"], ["--version"]):
            self.assertEqual(answer_alone(asked, "name", "help"), f"name {VERSION}\n")
        for asked in (["-h"], ["--help"]):
            self.assertEqual(answer_alone(asked, "name", "help"), "help")
        for others in (["-V", "-V"], ["a", "--help"]):
            self.assertIsNone(answer_alone(others, "name", "help"))
        with self.assertRaisesRegex(Unusable, "--help stands alone"):
            Parser(OPTIONS).read(["--help", "-o", "b"])

    def test_the_version(self) -> None:
        """It is that of the program."""
        path = support.TOP / "crates" / "wire_command_line" / "src" / "commands.rt"
        self.assertIn(f'const VERSION: &str = "{VERSION}";', path.read_text(encoding="utf-8"))

    def test_the_end_of_options(self) -> None:
        self.assertEqual(Parser(OPTIONS).read(["--", "--loud", "--"]).rest, ["--loud", "--"])
        self.assertEqual(Parser(OPTIONS).read(["-"]).rest, ["-"])

    def test_what_is_wrong(self) -> None:
        wrong = {
            "-o needs a file": ["-o"],
            "--keep-all needs a folder": ["--loud", "--keep-all"],
            "-o stands twice": ["-o", "a", "-o", "b"],
            "--quiet is no option": ["--quiet", "a"],
            "--lou is no option": ["--lou"],
            "--loud=1 is no option": ["--loud=1"],
            "-5 is no option": ["-5"],
            "-a b is no option": ["-a b"],
            "-h stands alone": ["-o", "a", "-h"],
        }
        for said, words in wrong.items():
            with self.subTest(said), self.assertRaises(Unusable) as raised:
                Parser(OPTIONS).read(words)
            self.assertEqual(str(raised.exception), said)

    def test_describe(self) -> None:
        self.assertEqual(
            describe(OPTIONS[1:]),
            "  --keep-all FOLDER  keeps all\n"
            "  --loud           says more\n"
            "  -V, --version    shows the version\n"
            "  -h, --help       shows this\n",
        )


if __name__ == "__main__":
    unittest.main()
