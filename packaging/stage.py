"""Lays out what is installed: the program, the reporter, the recorder, the runner, the package of
these, manual pages, completions, documents and examples.

Usage: python3 packaging/stage.py PROGRAM FOLDER     FOLDER is the prefix, such as /usr/local
"""
import glob
import os
import shutil
import sys

import completions
import manual
from manual import TOP

RECORDERS = [os.path.join(TOP, "record", word) for word in ("record.so", "record-mpi.so")]
# The process that makes the calls of a rank, which the runner starts.
RANK = os.path.join(TOP, "run", "wire_up-rank")
# The package of the Python programs, and where these look for it, below the prefix.
PACKAGE, PACKAGES = os.path.join(TOP, "python", "wire_up_tools"), "share/wire_up"
# Where each shell looks for completions, below the prefix.
COMPLETIONS = {
    "bash": "share/bash-completion/completions",
    "zsh": "share/zsh/vendor-completions",
    "fish": "share/fish/vendor_completions.d",
}
# What is for developers alone.
FOR_DEVELOPERS = ("architecture.md", "proofs.md", "DECISIONS.md")
AT_TOP = ("README.md", "SECURITY.md", "CHANGELOG.md")


def put(source: str, folder: str, mode: int = 0o644, name: str = "") -> None:
    """Copies a file to a folder, which is made if it isn't there. The new file takes the place of
    an old one at once."""
    os.makedirs(folder, exist_ok=True)
    path = os.path.join(folder, name or os.path.basename(source))
    shutil.copyfile(source, f"{path}.new")
    os.chmod(f"{path}.new", mode)
    os.replace(f"{path}.new", path)


def lay_out_programs(program: str, prefix: str) -> bool:
    """The program, the reporter, the runner, and the recorder where it is built. Answers whether
    that is so."""
    put(program, os.path.join(prefix, "bin"), 0o755, "wire_up")
    for text in (manual.REPORTER, manual.RUNNER):
        put(text, os.path.join(prefix, "bin"), 0o755)
    if os.path.exists(RANK):
        put(RANK, os.path.join(prefix, "lib", "wire_up"), 0o755)
    built = [recorder for recorder in RECORDERS if os.path.exists(recorder)]
    if built:
        put(manual.RECORDER, os.path.join(prefix, "bin"), 0o755)
    for each_text in built:
        put(each_text, os.path.join(prefix, "lib", "wire_up"))
    return bool(built)


def lay_out_package(prefix: str) -> None:
    """The package of the Python programs. What an earlier version had of it goes."""
    folder = os.path.join(prefix, PACKAGES)
    place = os.path.join(folder, os.path.basename(PACKAGE))
    sources = glob.glob(os.path.join(PACKAGE, "**"), recursive=True)
    files = [os.path.relpath(source, PACKAGE) for source in sources if os.path.isfile(source)]
    wanted = [file for file in files if "__pycache__" not in file.split(os.sep)]
    for text in wanted:
        put(os.path.join(PACKAGE, text), os.path.join(place, os.path.dirname(text)))
    for at, _, names in os.walk(place):
        for path in (os.path.join(at, name) for name in names):
            if os.path.relpath(path, place) not in wanted:
                os.remove(path)


def lay_out_pages(program: str, prefix: str, has_recorder: bool) -> None:
    """The manual pages and the completions: those of the recorder only where it is there."""
    for name in manual.PAGES:
        if has_recorder or "record" not in name:
            folder = os.path.join(prefix, "share", "man", f"man{name[-1]}")
            manual.write_page(name, program, folder)
    for shell, place in COMPLETIONS.items():
        completions.write_completions(program, os.path.join(prefix, place), shell, has_recorder)


def lay_out_documents(prefix: str, name: str) -> str:
    """The documents for users with their picture, and the examples. Answers their folder."""
    folder = os.path.join(prefix, "share", "doc", name)
    for text in AT_TOP:
        put(os.path.join(TOP, text), folder)
    for ending in ("md", "png"):
        for path in sorted(glob.glob(os.path.join(TOP, "docs", f"*.{ending}"))):
            if os.path.basename(path) not in FOR_DEVELOPERS:
                put(path, os.path.join(folder, "docs"))
    for path in sorted(glob.glob(os.path.join(TOP, "examples", "**"), recursive=True)):
        if os.path.isfile(path):
            put(path, os.path.join(folder, os.path.dirname(os.path.relpath(path, TOP))))
    return folder


def lay_out(program: str, prefix: str, name: str = "wire_up") -> str:
    """Lays out all below the prefix. Answers the folder of the documents."""
    has_recorder = lay_out_programs(program, prefix)
    lay_out_package(prefix)
    lay_out_pages(program, prefix, has_recorder)
    return lay_out_documents(prefix, name)


if __name__ == "__main__":
    if len(sys.argv) != 3:
        sys.exit(__doc__)
    if not os.access(sys.argv[1], os.X_OK):
        sys.exit(f"there is no {sys.argv[1]}: make run builds it")
    try:
        lay_out(os.path.abspath(sys.argv[1]), sys.argv[2])
    except OSError as why:
        sys.exit(f"not installed: {why}")
