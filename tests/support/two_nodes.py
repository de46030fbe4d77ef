"""Runs a command on one of two nodes, which are none: each has a name and a network of its own, and
a cable joins them.

Usage: python3 -m tests.support.two_nodes COMMAND..
It takes root. What is started ends with it. A launcher starts its daemon on the other node by the
remote shell that SHELL names.
"""
import os
import subprocess
import sys
import tempfile
from collections.abc import Sequence
from pathlib import Path

from tests.support.slurm_nodes import APART, INSIDE, run_command, write_text


# The one where the command runs, and the other.
NODES = HERE, THERE = ("n0", "n1")
# The end of the cable on each node.
INTERFACE = "v0"
ADDRESSES = {HERE: "192.0.2.1", THERE: "192.0.2.2"}
# Names the remote shell to the command.
SHELL = "WIRE_UP_REMOTE_SHELL"
REMOTE = f"""\
#!/bin/sh
host=$1
shift
exec nsenter --net=/run/netns/{THERE} unshare --uts \\
    sh -c 'hostname "$1"; shift; exec sh -c "$*"' sh "$host" "$@"
"""


def make_nodes(folder: Path) -> None:
    """Makes both, in what is apart already. Raises OSError, subprocess.CalledProcessError."""
    names = str(folder / "names")
    others = (f"{address} {name}\n" for name, address in ADDRESSES.items())
    write_text(names, "".join(["127.0.0.1 localhost\n", *others]))
    other = ["ip", "-n", THERE]
    for words in (
        ["hostname", HERE],
        ["mount", "--bind", names, "/etc/hosts"],
        ["mount", "-t", "tmpfs", "none", "/run"],
        ["ip", "netns", "add", THERE],
        ["ip", "link", "add", INTERFACE, "type", "veth", "peer", INTERFACE, "netns", THERE],
    ):
        subprocess.run(words, check=True)
    for name, ip in ((HERE, ["ip"]), (THERE, other)):
        subprocess.run([*ip, "link", "set", "lo", "up"], check=True)
        subprocess.run([*ip, "addr", "add", f"{ADDRESSES[name]}/24", "dev", INTERFACE], check=True)
        subprocess.run([*ip, "link", "set", INTERFACE, "up"], check=True)


def run(words: Sequence[str]) -> int:
    """Runs a command on the first node, and answers its status."""
    with tempfile.TemporaryDirectory(prefix="nodes-") as folder:
        make_nodes(Path(folder))
        path = os.environ[SHELL] = f"{folder}/shell"
        write_text(path, REMOTE)
        os.chmod(path, 0o700)
        return run_command(words)


if __name__ == "__main__":
    if sys.argv[1] == INSIDE:
        sys.exit(run(sys.argv[2:]))
    again = [sys.executable, "-m", "tests.support.two_nodes", INSIDE, *sys.argv[1:]]
    sys.exit(subprocess.run([*APART, *again], check=False).returncode)
