"""What is installed: the Debian package, `make install`, the manual pages and the completions."""
import gzip
import json
import os
import re
import shlex
import shutil
import subprocess
import sys
import unittest
from collections.abc import Iterator, Sequence
from pathlib import Path

import helps
import manual

from tests import support
from tests.support import Word
from tests.support.needs import alone
from tests.support.running import ProgramCase


PACKAGING = support.TOP / "packaging"
EXAMPLE = support.TOP / "examples" / "early-get.plan"
SHIPPED = support.TOP / "record" / "recordings" / "names"
# A program of one's own, with a race.
OWN = support.TOP / "record" / "programs" / "early.c"
# What a live program needs: its compiler and launcher. As root Open MPI must be told that this is
# meant, and a small machine may have less cores.
LIVE = ("mpicc", "mpirun", "make", "cc", "pkg-config")
MPI = {
    "OMPI_ALLOW_RUN_AS_ROOT": "1",
    "OMPI_ALLOW_RUN_AS_ROOT_CONFIRM": "1",
    "OMPI_MCA_rmaps_base_oversubscribe": "1",
}
SECONDS, TRIES = 600, 3
# How `man` reads a page: in long lines, and without a sandbox of its own, which doesn't start in
# every container.
READER = {"MANWIDTH": "400", "LC_ALL": "C.UTF-8", "MAN_DISABLE_SECCOMP": "1"}
FOUND = "race app:0 2 app:1 1 key app:0 card\nfindings 1\n"
DPKG = ["--force-depends", "--force-not-root", "--force-script-chrootless", "--log=/dev/null"]
INSTALLED = {
    "bin/wire_up",
    "bin/wire_up-report",
    "bin/wire_up-run",
    "share/bash-completion/completions/wire_up",
    "share/man/man1/wire_up.1",
    "share/man/man1/wire_up-report.1",
    "share/man/man1/wire_up-run.1",
    "share/man/man5/wire_up.5",
    "share/doc/wire_up/README.md",
    "share/doc/wire_up/docs/report.png",
    "share/wire_up/wire_up_tools/__init__.py",
    "share/wire_up/wire_up_tools/run/plans/rules.txt",
    "share/wire_up/wire_up_tools/run/tables/openpmix-4.2.txt",
}
DIAGRAM = (": 1 race</h1>", '<line class="race"', "(early.c:")
# What each shell must offer for a line: the line, and the words of the answer, in the order of the
# alphabet.
LINES = {
    "wire_up ch": ["check"],
    "wire_up mi": ["migrate"],
    "wire_up ex": ["expand"],
    "wire_up expand --n": ["--nodes"],
    "wire_up wi": ["witness"],
    "wire_up replay --w": ["--workers"],
    "wire_up check --l": ["--large", "--lines"],
    "wire_up check --e": ["--explain"],
    "wire_up check --p": ["--pattern", "--portable"],
    "wire_up check --ans": ["--answers"],
    "wire_up why --j": ["--json"],
    "wire_up why --l": ["--large", "--lines"],
    "wire_up witness --l": ["--lines"],
    "wire_up migrate --l": ["--large"],
    "wire_up witness --m": ["--most"],
    "wire_up-record --st": ["--strict"],
    "wire_up-report --so": ["--source"],
    "wire_up-report --la": ["--large"],
    "wire_up-run --ti": ["--times"],
}
BASH = (
    "source {file}; COMP_WORDS=({line}); COMP_CWORD=$((${{#COMP_WORDS[@]}} - 1));"
    " COMP_LINE='{line}'\n"
    "$(complete -p {name} | sed 's/.*-F \\([^ ]*\\).*/\\1/')"
    " && printf '%s\\n' \"${{COMPREPLY[@]}}\" "
)
Completed = subprocess.CompletedProcess[str]


def run(
    *words: Word, folder: Path | None = None, settings: dict[str, str] | None = None
) -> Completed:
    """Runs a program in a folder, with these settings in its environment."""
    return subprocess.run(
        words,
        cwd=folder,
        env={**os.environ, **(settings or {})},
        stdin=subprocess.DEVNULL,
        capture_output=True,
        text=True,
        timeout=SECONDS,
        check=False,
    )


def need(*names: str) -> None:
    """Leaves a test out where a program isn't there."""
    for name in names:
        if not shutil.which(name):
            raise unittest.SkipTest(f"there is no {name}")


def files_below(folder: Path) -> list[str]:
    """The files below a folder, from there."""
    found = (path for path in folder.rglob("*") if not path.is_dir())
    return sorted(str(path.relative_to(folder)) for path in found)


def read(path: Path) -> str:
    """The text of a file."""
    return path.read_text(encoding="utf-8")


def read_packed(path: Path) -> str:
    """The text of a file that gzip packed."""
    with gzip.open(path, "rt", encoding="utf-8") as file:
        return file.read()


def found_in(pattern: str, text: str) -> str:
    """What the first group of a pattern has in a text; nothing where it isn't there."""
    found = re.search(pattern, text)
    return found[1] if found else ""


@alone
class InstalledCase(ProgramCase):
    """Tests of what is below a prefix."""

    def hold_works(self, prefix: Path) -> None:
        """Holds that the program below a prefix finds the race of the example, the reporter there
        tells it by that program, and the recorder there, if it is, makes a plan."""
        programs = prefix / "bin"
        ran = run(programs / "wire_up", "check", EXAMPLE)
        self.told_alike((1, FOUND, ""), (ran.returncode, ran.stdout, ran.stderr))
        ran = run(programs / "wire_up-report", "--text", EXAMPLE)
        self.assertEqual(1, ran.returncode, f"{ran.stdout}{ran.stderr}")
        self.assertTrue(ran.stdout.startswith("early-get.plan: 1 race\n"), ran.stdout)
        recorder = programs / "wire_up-record"
        if recorder.exists():
            ran = run(recorder, "-o", "-", "--from", SHIPPED)
            self.assertTrue(ran.stdout.startswith("# Recorded by wire_up-record"), ran.stderr)


class Package(InstalledCase):
    """The Debian package. The recorder is in it, where it can be built."""

    deb: str

    @classmethod
    def setUpClass(cls) -> None:
        super().setUpClass()
        need("dpkg-deb")
        cls.room.chmod(0o755)
        if all(map(shutil.which, LIVE)):
            run("make", "-s", "record", "record-mpi", folder=support.TOP)
        maker = PACKAGING / "deb.py"
        ran = run(sys.executable, maker, cls.program, cls.room)
        if ran.returncode:
            raise AssertionError(f"no package was built: {ran.stderr}")
        cls.deb = ran.stdout.strip()

    def test_no_error(self) -> None:
        """lintian finds no error."""
        need("lintian")
        ran = run("lintian", "--allow-root", "--fail-on", "error", self.deb)
        self.assertEqual(0, ran.returncode, f"{ran.stdout}{ran.stderr}")

    def test_versions(self) -> None:
        """All that says a version says the same."""
        said = dict(self.versions(self.room / "unpacked"))
        self.assertEqual(1, len(set(said.values())), str(said))

    def versions(self, room: Path) -> Iterator[tuple[str, str]]:
        """What says a version, and which: the program, the package, its changes, the changes of the
        repository, manual pages, SARIF, the page. The package is unpacked for it: where a machine
        installs no documents, dpkg leaves them out below another root too."""
        run("dpkg-deb", "--extract", self.deb, room)
        usr = room / "usr"
        programs, share = usr / "bin", usr / "share"
        ran = run(programs / "wire_up", "--version")
        yield "the program", ran.stdout.removeprefix("wire_up ").strip()
        yield "the package", run("dpkg-deb", "--field", self.deb, "Version").stdout.strip()
        yield "the package's name", Path(self.deb).name.split("_")[1]
        changes = read_packed(share / "doc" / "wire-up" / "changelog.gz")
        yield "the package's changes", found_in(r"\Awire-up \((.*?)\)", changes)
        changes = read(support.TOP / "CHANGELOG.md")
        yield "CHANGELOG.md", found_in(r"(?m)^## (\S+)", changes)
        for path in (share / "man").glob("man*/*.gz"):
            title = read_packed(path)
            yield path.name, found_in(r'\A\.TH .*"wire_up (\S+)"\n', title)
        page, sarif = room / "it.html", room / "it.sarif"
        run(programs / "wire_up-report", "-o", page, "--sarif", sarif, EXAMPLE)
        yield "the page", found_in(r"checked by wire_up (\S+)", read(page))
        yield "SARIF", json.loads(read(sarif))["runs"][0]["tool"]["driver"]["version"]

    def test_installs(self) -> None:
        """The package is installed below a fresh root, works there, leads to a diagram by the
        commands of README.md, and is removed without a trace."""
        if os.geteuid():
            raise unittest.SkipTest("to install below a root of its own takes the rights of root")
        root = self.room / "root"
        for folder in ("updates", "info"):
            (root / "var" / "lib" / "dpkg" / folder).mkdir(parents=True)
        (root / "var" / "lib" / "dpkg" / "status").touch()
        dpkg = ["dpkg", f"--root={root}", *DPKG]
        ran = run(*dpkg, "--install", self.deb)
        self.assertEqual(0, ran.returncode, ran.stderr)
        usr = root / "usr"
        with self.subTest("works"):
            self.hold_works(usr)
        with self.subTest("the commands of README.md"):
            self.hold_commands(usr, self.room / "own")
        with self.subTest("is removed"):
            ran = run(*dpkg, "--purge", "wire-up")
            left = [file for file in files_below(root) if not file.startswith("var/lib/dpkg/")]
            self.told_alike((0, []), (ran.returncode, left))

    def hold_commands(self, usr: Path, room: Path) -> None:
        """Holds that the commands of README.md lead to the diagram of the race of a program. The
        package is installed already, below `usr`."""
        text = read(support.TOP / "README.md").partition("\n**By the recorder**")[2]
        block = found_in(r"\n((?:    .*\n)+)", text)
        first, *others = (part.strip() for part in block.split("\n    "))
        self.assertIn(f" ./{Path(self.deb).name} ", first)
        self.assertEqual(3, len(others))
        need(*LIVE)
        programs = usr / "bin"
        if not (programs / "wire_up-record").exists():
            raise unittest.SkipTest("the recorder isn't built")
        if re.search(r"[\s:;]", str(usr)):
            raise unittest.SkipTest("the path of the package has a space")
        path = f"{programs}{os.pathsep}{os.environ.get('PATH', os.defpath)}"
        self.hold_by_hand(others, {**MPI, "PATH": path}, room)

    def hold_by_hand(self, commands: Sequence[str], settings: dict[str, str], room: Path) -> None:
        """Compiles a program in a new folder and runs the commands there. On a slow machine the
        race may go the other way, and MPI ends the program: so it is tried again."""
        ran: list[Completed] = []
        for n in range(TRIES):
            folder = room / str(n)
            folder.mkdir(parents=True)
            ran = [run("mpicc", "-g", "-o", "program", OWN, folder=folder, settings=settings)]
            ran += [
                run("sh", "-c", command, folder=folder, settings=settings) for command in commands
            ]
            if not ran[1].returncode:
                break
        told = str(
            [
                (each_ran.returncode, each_ran.stdout[-300:], each_ran.stderr[-300:])
                for each_ran in ran
            ]
        )
        self.assertEqual([0, 0, 1, 1], [each_ran.returncode for each_ran in ran], told)
        page = read(folder / "report.html")
        for part in DIAGRAM:
            self.assertIn(part, page)


class Install(InstalledCase):
    """What `make install` puts in place."""

    def make_install(self, room: Path) -> Path:
        """Installs below a folder, and answers the prefix."""
        words = [f"PROGRAM={self.program}", f"DESTDIR={room}", "PREFIX=/opt/it"]
        ran = run("make", "-s", "install", *words, folder=support.TOP)
        self.assertEqual(0, ran.returncode, ran.stderr)
        return room / "opt" / "it"

    def test_installs(self) -> None:
        prefix = self.make_install(self.room / "made")
        self.assertEqual([], sorted(INSTALLED.difference(files_below(prefix))))
        self.hold_works(prefix)

    def test_no_file_of_an_earlier_version_stays(self) -> None:
        """What an earlier version had of the package of the recorder and the reporter goes."""
        room = self.room / "twice"
        prefix = self.make_install(room)
        old = prefix / "share" / "wire_up" / "wire_up_tools" / "gone.py"
        old.touch()
        self.make_install(room)
        self.assertFalse(old.exists())
        self.hold_works(prefix)


class Pages(ProgramCase):
    """The manual pages: man reads them without a word, and they have what `--help` has."""

    def shown(self, name: str) -> str:
        """A page as `man` shows it."""
        manual.write_page(name, self.program, str(self.room))
        words = ("man", "--warnings", "-Tutf8", "-P", "cat", "-l")
        ran = run(*words, self.room / name, settings=READER)
        self.assertEqual((0, ""), (ran.returncode, ran.stderr))
        return re.sub("\u2010\n\\s*", "", re.sub(r"\x1b\[[\d;]*m|.\x08", "", ran.stdout))

    def wanted(self, name: str) -> list[str]:
        """The words that a page must have."""
        if name == "wire_up.5":
            return ["rehearsal 2", "keep", "get-now", "lookup-wait"]
        for script in (manual.RECORDER, manual.REPORTER, manual.RUNNER):
            if name == f"{Path(script).name}.1":
                return [
                    each_name
                    for option in helps.of_script(script).options
                    for each_name in option.names
                ]
        alone, *commands = helps.of_program(self.program)
        words = [each_command.about for each_command in commands]
        for command in commands:
            words += [name for option in command.options for name in option.names]
        lines = [line for line in alone.below.split("\n") if re.match(r" *\d", line)]
        return words + [" ".join(line.split()[1:]) for line in lines]

    def test_pages(self) -> None:
        need("man", "groff")
        for name in manual.PAGES:
            with self.subTest(name, of="man"):
                page = " ".join(self.shown(name).split())
                self.assertTrue(page)
            with self.subTest(name, of="words"):
                self.assertEqual([], [text for text in self.wanted(name) if text not in page])


class Completions(ProgramCase):
    """What shells offer at the end of a line."""

    @classmethod
    def setUpClass(cls) -> None:
        super().setUpClass()
        maker = PACKAGING / "completions.py"
        ran = run(sys.executable, maker, cls.program, cls.room)
        if ran.returncode:
            raise AssertionError(f"no completions were made: {ran.stderr}")

    def file(self, shell: str, line: str, name: str) -> str:
        """The path of the completions of the program that a line begins with."""
        return str(self.room / shell / name.format(line.split()[0]))

    def test_bash(self) -> None:
        need("bash")
        for line, wanted in LINES.items():
            with self.subTest(line):
                file = shlex.quote(self.file("bash", line, "{}"))
                script = BASH.format(file=file, line=line, name=line.split()[0])
                ran = run("bash", "--norc", "-c", f"complete_it() {{ {script}; }}; complete_it")
                self.assertEqual(wanted, sorted(ran.stdout.split()), ran.stderr)

    def test_fish(self) -> None:
        need("fish")
        for line, wanted in LINES.items():
            with self.subTest(line):
                file = shlex.quote(self.file("fish", line, "{}.fish"))
                script = f"source {file}; complete -C '{line}'"
                ran = run("fish", "--no-config", "-c", script)
                offered = sorted(re.findall(r"(?m)^\S+", ran.stdout))
                self.assertEqual(wanted, offered, ran.stderr)

    def test_zsh(self) -> None:
        """zsh reads the file."""
        need("zsh")
        for line in LINES:
            with self.subTest(line):
                ran = run("zsh", "-f", "-n", self.file("zsh", line, "_{}"))
                self.assertEqual(0, ran.returncode, ran.stderr)


if __name__ == "__main__":
    unittest.main()
