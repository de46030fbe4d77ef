"""Nodes that are none: on this machine, each with a host name and a daemon of its own.

A run has a network, a table of processes and a host name of its own: nothing that it starts can be
reached from outside, and all of it ends with the first of its processes.
"""
import os
import re
import shutil
from collections.abc import Iterable
from pathlib import Path

from wire_up_tools.failures import Refused
from wire_up_tools.files import write_file

HEAD = "wire-up-head"
NEEDED = {"unshare": "util-linux", "ip": "iproute2", "hostname": "hostname"}
# A launcher may take other names for addresses, or for this machine.
PLAIN, LOCAL = re.compile(r"[a-z][a-z0-9-]{0,40}"), "localhost"
# What is done first. PRRTE 3 fails where there is loopback alone, and at a host without an address:
# so there is a pair of ends beside it, and a table of names, whose addresses nobody connects to.
NETWORK = f"hostname {HEAD} && ip link set lo up"
PAIR = (
    "ip link add v0 type veth peer name v1 && ip addr add 192.0.2.1/24 dev v0 && "
    "ip link set v0 up && ip link set v1 up"
)
NAMES = 'mount --bind "$1" /etc/hosts'
# The remote shell of the launcher: it runs the command here, on a host of that name.
AGENT = """\
#!/bin/sh
host=$1
shift
exec unshare --uts sh -c 'hostname "$1"; shift; exec sh -c "$*"' sh "$host" "$@"
"""


def hold_possible() -> None:
    """Raises Refused where a program is missing that fake nodes need."""
    for name, package in NEEDED.items():
        if not shutil.which(name):
            raise Refused(f"fake nodes need {name}, which Debian has in the package {package}")


def write_agent(folder: Path) -> Path:
    """Writes the remote shell into a folder, and answers its path. Raises Refused, OSError."""
    path = folder / "agent"
    if len(str(path).split()) > 1:
        raise Refused(f"{folder}: a launcher takes no path with a blank: set TMPDIR")
    write_file(path, AGENT)
    path.chmod(0o700)
    return path


def name_host(index: int, node: str) -> str:
    """The name of the host that a node is: its own, if that is plain."""
    is_plain = PLAIN.fullmatch(node) and node not in (LOCAL, HEAD)
    return node if is_plain else f"wire-up-node-{index}"


def write_names(folder: Path, hosts: Iterable[str]) -> Path:
    """Writes a table of the names of hosts into a folder, and answers its path. Raises OSError."""
    path = folder / "names"
    # Addresses that are kept for documents.
    others = enumerate(each_host for each_host in dict.fromkeys(hosts) if each_host != HEAD)
    lines = [f"198.51.100.{at % 254 + 1} {host}\n" for at, host in others]
    write_file(path, "".join([f"127.0.0.1 {LOCAL} {HEAD}\n", *lines]))
    return path


def write_start(names: Path | None) -> list[str]:
    """The words before a command that is to run among fake nodes: with a table of names, or
    without."""
    user = ["--user", "--map-root-user"] if os.geteuid() else []
    apart = ["--uts", "--net", "--pid", "--fork", "--kill-child", "--mount-proc"]
    first = " && ".join([NETWORK, PAIR, NAMES] if names else [NETWORK])
    # The shell stays, in the session of `unshare`: it is the first process, and takes the ends of
    # those without a parent.
    script = f'{first} || exit 1; shift; "$@"; exit $?'
    return ["unshare", *user, *apart, "sh", "-c", script, "sh", str(names or "")]
