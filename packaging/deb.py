"""Builds the Debian package of the program that `make run` proved and built.

Usage: python3 packaging/deb.py PROGRAM [FOLDER]     FOLDER is where the package goes, else the
current one The recorder is in it where `make record record-mpi` built it.
"""
import email.utils
import glob
import gzip
import os
import re
import shutil
import subprocess
import sys
import tempfile
import textwrap
import time
from typing import NamedTuple

import helps
import stage
from manual import TOP

NAME = "wire-up"
MAINTAINER = "The developers of wire_up <wire-up@wire-up.invalid>"
ABOUT = "finds the races in a plan of the PMIx wire-up of a parallel job"
LONG = """\
 wire_up reads a plan: the nodes, jobs and ranks of a parallel job, and the PMIx
 calls of each rank. It reports every race between the calls. Where it finds
 nothing, every complete interleaving ends with the same replies and the same
 ranks waiting: that is proved for the code of the program. It also replays a
 plan, by one thread or by several.
 .
 wire_up-record makes such plans of real programs, and wire_up-report writes
 what is found in a plan as a page with diagrams, or as SARIF. wire_up-run runs
 a plan on a real PMIx library.
"""
COPYRIGHT = """\
wire_up was written by its developers.

No licence is granted yet: the owner of the repository has chosen none so far.
"""
# The compiled programs and libraries of the package.
COMPILED = ("usr/bin/wire_up", "usr/lib/wire_up/*.so", "usr/lib/wire_up/wire_up-rank")
# What runs only where a launcher is, which brings its libraries.
BY_LAUNCHER = "wire_up-rank"
RELEASE = re.compile(r"(?m)^## (\S+) - (\S+)\n")
CHANGE = re.compile(r"(?m)^- .*\n(?:  .*\n)*")
DEBIAN = textwrap.TextWrapper(
    78, initial_indent="  * ", subsequent_indent="    ", break_on_hyphens=False
)
SHLIBS = re.compile(r"shlibs:Depends=(.*)")


class Release(NamedTuple):
    """A version of CHANGELOG.md, with its day and what it says."""

    version: str
    day: str
    text: str


def releases() -> list[Release]:
    """The versions of CHANGELOG.md, the newest first."""
    with open(os.path.join(TOP, "CHANGELOG.md"), encoding="utf-8") as file:
        parts = RELEASE.split(file.read())[1:]
    return [Release(*pair) for pair in zip(parts[::3], parts[1::3], parts[2::3])]


def entry_of(release: Release) -> str:
    """The changes of a version in Debian's form."""
    lines = []
    for hit in CHANGE.finditer(release.text):
        words = " ".join(hit.group()[2:].split())
        lines.append(DEBIAN.fill(words))
    day = time.mktime(time.strptime(release.day, "%Y-%m-%d"))
    when, changes = email.utils.formatdate(day, True), "\n".join(lines)
    title = f"{NAME} ({release.version}) unstable; urgency=medium"
    return f"{title}\n\n{changes}\n\n -- {MAINTAINER}  {when}\n"


def changelog() -> str:
    """The changes in Debian's form."""
    return "\n".join(entry_of(release) for release in releases())


def write_packed(path: str, text: bytes) -> None:
    """Writes a text, packed by gzip without a time of its own."""
    with open(path, "wb") as to, gzip.GzipFile("", "wb", 9, to, 0) as gzip_file:
        gzip_file.write(text)


def pack_pages(root: str) -> None:
    """Packs the manual pages, as Debian wants them."""
    for path in glob.glob(os.path.join(root, "usr", "share", "man", "man*", "*.[0-9]")):
        with open(path, "rb") as file:
            write_packed(f"{path}.gz", file.read())
        os.chmod(f"{path}.gz", 0o644)
        os.remove(path)


def fill_documents(folder: str) -> None:
    """What Debian wants beside the documents. Those of over 4 KiB may stay as they are."""
    os.remove(os.path.join(folder, "CHANGELOG.md"))
    write_packed(os.path.join(folder, "changelog.gz"), changelog().encode())
    with open(os.path.join(folder, "copyright"), "w", encoding="utf-8") as file:
        file.write(COPYRIGHT)


def compiled(root: str) -> list[str]:
    """The paths of the compiled programs and libraries."""
    return [path for text in COMPILED for path in glob.glob(os.path.join(root, text))]


def strip(root: str) -> None:
    """Takes debugging data out of the program and of the recorder."""
    removed = ["--remove-section=.comment", "--remove-section=.note"]
    for path in compiled(root) if shutil.which("strip") else []:
        subprocess.run(["strip", "--strip-unneeded", *removed, path], check=True)


def needed(root: str) -> str:
    """The packages of the libraries that the program and the recorder are linked with. Those of the
    runner's ranks come with a launcher."""
    if not shutil.which("dpkg-shlibdeps"):
        return "libc6"
    with tempfile.TemporaryDirectory() as room:
        os.mkdir(os.path.join(room, "debian"))
        with open(os.path.join(room, "debian", "control"), "w", encoding="utf-8") as file:
            file.write(f"Source: {NAME}\n\nPackage: {NAME}\nArchitecture: amd64\n")
        alone = [text for text in compiled(root) if os.path.basename(text) != BY_LAUNCHER]
        words = ["dpkg-shlibdeps", "-O", *alone]
        ran = subprocess.run(words, cwd=room, capture_output=True, text=True, check=False)
    found = SHLIBS.search(ran.stdout)
    return found[1] if found else "libc6"


def files_below(root: str) -> list[str]:
    """The paths of all files below a folder, from there."""
    found = [os.path.join(at, name) for at, _, names in os.walk(root) for name in names]
    return sorted(os.path.relpath(text, root) for text in found)


def control(root: str, version: str) -> str:
    """The fields of the package."""
    size = sum(os.path.getsize(os.path.join(root, file)) for file in files_below(root))
    fields = {
        "Package": NAME,
        "Version": version,
        "Section": "devel",
        "Priority": "optional",
        "Architecture": "amd64",
        "Maintainer": MAINTAINER,
        "Installed-Size": str(-(-size // 1024)),
        "Depends": f"{needed(root)}, python3",
    }
    if glob.glob(os.path.join(root, "usr", "lib", "wire_up", "*")):
        fields["Suggests"] = "openmpi-bin, binutils, iproute2"
    fields["Description"] = ABOUT
    return "".join(f"{name}: {field}\n" for name, field in fields.items()) + LONG


def write_control(root: str, version: str) -> None:
    """Writes the fields and the sums of all files."""
    folder, fields, files = os.path.join(root, "DEBIAN"), control(root, version), files_below(root)
    sums = subprocess.run(["md5sum", *files], cwd=root, capture_output=True, check=True).stdout
    os.mkdir(folder)
    for name, text in (("control", fields.encode()), ("md5sums", sums)):
        with open(os.path.join(folder, name), "wb") as file:
            file.write(text)


def build(program: str, folder: str) -> str:
    """Builds the package in the folder, and answers its path."""
    version, newest = helps.version_of(program), releases()[0].version
    if version != newest:
        sys.exit(f"{program} is version {version}, and the newest of CHANGELOG.md is {newest}")
    path = os.path.join(folder, f"{NAME}_{version}_amd64.deb")
    with tempfile.TemporaryDirectory(prefix="wire-up-deb-") as root:
        os.chmod(root, 0o755)
        os.umask(0o022)
        fill_documents(stage.lay_out(program, os.path.join(root, "usr"), NAME))
        pack_pages(root)
        strip(root)
        write_control(root, version)
        words = ["dpkg-deb", "--root-owner-group", "--build", root, path]
        subprocess.run(words, check=True, stdout=subprocess.DEVNULL)
    return path


def main() -> None:
    if len(sys.argv) not in (2, 3):
        sys.exit(__doc__)
    if not os.access(sys.argv[1], os.X_OK):
        sys.exit(f"there is no {sys.argv[1]}: make run builds it")
    if not shutil.which("dpkg-deb"):
        sys.exit(
            "there is no dpkg-deb: a Debian package is built on Debian or on a system made from it"
        )
    folder = sys.argv[2] if len(sys.argv) == 3 else "."
    print(build(os.path.abspath(sys.argv[1]), os.path.abspath(folder)))


if __name__ == "__main__":
    main()
