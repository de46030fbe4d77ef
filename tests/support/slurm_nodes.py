"""Runs a command where Slurm has three nodes, which are none: all in a network of its own.

Usage: python3 -m tests.support.slurm_nodes COMMAND..
It takes root. Daemons that it starts end with it.
"""
import os
import shutil
import subprocess
import sys
import tempfile
import time
from collections.abc import Sequence

NODES = ("n0", "n1", "n2")
HEAD = "head"
MUNGE = "/run/munge"
# Where this runs: what is started there ends with it, and nothing outside reaches it.
APART = "unshare --net --uts --mount --pid --fork --kill-child --mount-proc".split()
INSIDE = "--inside"
CONFIGURATION = """\
ClusterName=one
SlurmctldHost={head}(127.0.0.1)
SlurmUser=root
SlurmdUser=root
AuthType=auth/munge
CredType=cred/munge
StateSaveLocation={folder}/state
TmpFS={folder}/tmp.%n
SlurmdSpoolDir={folder}/spool.%n
SlurmctldPidFile={folder}/controller.pid
SlurmdPidFile={folder}/node.%n.pid
ProctrackType=proctrack/linuxproc
TaskPlugin=task/none
SelectType=select/cons_tres
SelectTypeParameters=CR_CPU
SchedulerType=sched/builtin
MpiDefault=none
SwitchType=switch/none
JobAcctGatherType=jobacct_gather/none
AccountingStorageType=accounting_storage/none
ReturnToService=2
MinJobAge=2
MpiParams=ports=20000-21000
SlurmdParameters=config_overrides
{nodes}
PartitionName=p Nodes=ALL Default=YES OverSubscribe=FORCE:8 State=UP
"""
SECONDS = 30


def write_text(path: str, text: str) -> None:
    """Writes a file. Raises OSError."""
    with open(path, "w", encoding="ascii") as file:
        file.write(text)


def configure(folder: str) -> None:
    """Writes what Slurm is told, and names it to all that is started. Raises OSError."""
    nodes = "\n".join(
        f"NodeName={each_node} NodeAddr=127.0.0.1 Port={17001 + at} CPUs=16 State=UNKNOWN"
        for at, each_node in enumerate(NODES)
    )
    path = os.path.join(folder, "slurm.conf")
    write_text(path, CONFIGURATION.format(head=HEAD, folder=folder, nodes=nodes))
    # Each node has a folder for temporary files: two that make one there at a time fail at times.
    for text in ("state", *(f"{word}.{node}" for word in ("spool", "tmp") for node in NODES)):
        os.mkdir(os.path.join(folder, text))
    os.environ["SLURM_CONF"] = path


def make_network(folder: str) -> None:
    """Names this machine and the nodes, which are on the loopback. A daemon looks for no address
    where there is nothing but that, so there is a pair of ends beside it."""
    names = os.path.join(folder, "names")
    write_text(names, f"127.0.0.1 localhost {HEAD} {' '.join(NODES)}\n")
    for words in (
        ["hostname", HEAD],
        ["ip", "link", "set", "lo", "up"],
        ["ip", "link", "add", "v0", "type", "veth", "peer", "name", "v1"],
        ["ip", "addr", "add", "192.0.2.1/24", "dev", "v0"],
        ["ip", "link", "set", "v0", "up"],
        ["ip", "link", "set", "v1", "up"],
        ["mount", "--bind", names, "/etc/hosts"],
    ):
        subprocess.run(words, check=True)


def start_munge(folder: str) -> None:
    """Starts what signs messages, as the user that it takes."""
    key = os.path.join(folder, "munge.key")
    with open(key, "wb") as file:
        file.write(os.urandom(1024))
    os.makedirs(MUNGE, exist_ok=True)
    # Another one may run beside it.
    subprocess.run(["mount", "-t", "tmpfs", "none", MUNGE], check=True)
    os.chmod(folder, 0o755)
    for path, mode in ((key, 0o600), (MUNGE, 0o755)):
        shutil.chown(path, "munge")
        os.chmod(path, mode)
    room = os.path.join(folder, "munge")
    os.mkdir(room)
    shutil.chown(room, "munge")
    files = [f"--{word}-file={room}/{word}" for word in ("log", "pid", "seed")]
    user = ["setpriv", "--reuid=munge", "--regid=munge", "--clear-groups"]
    start([*user, "munged", "-F", "-f", f"--key-file={key}", *files], folder)


def start(words: Sequence[str], folder: str) -> None:
    """Starts a daemon, whose words go to a file."""
    with open(os.path.join(folder, "said"), "ab") as said:
        # It ends with the first process of this table.
        subprocess.Popen(words, stdin=subprocess.DEVNULL, stdout=said, stderr=said)


def wait_for_nodes() -> bool:
    """Waits until all nodes are idle, and answers whether they are."""
    for _ in range(SECONDS):
        ran = subprocess.run(["sinfo", "-hNo", "%T"], capture_output=True, text=True, check=False)
        if ran.stdout.split() == ["idle"] * len(NODES):
            return True
        time.sleep(1)
    return False


def run_command(words: Sequence[str]) -> int:
    """Runs a command, and answers its status. As the first process of its table this one takes the
    ends of all those without a parent."""
    process = subprocess.Popen(words)
    while True:
        ended, status = os.wait()
        if ended == process.pid:
            return os.waitstatus_to_exitcode(status)


def run(words: Sequence[str]) -> int:
    """Runs a command among the nodes, and answers its status."""
    with tempfile.TemporaryDirectory(prefix="slurm-") as folder:
        configure(folder)
        make_network(folder)
        start_munge(folder)
        time.sleep(1)
        start(["slurmctld", "-D"], folder)
        for node in NODES:
            named = ["sh", "-c", 'hostname "$0" && exec slurmd -D -N "$0"', node]
            start(["unshare", "--uts", *named], folder)
        if wait_for_nodes():
            return run_command(words)
        with open(os.path.join(folder, "said"), encoding="utf-8", errors="replace") as said:
            print("Slurm doesn't come up:", said.read(), file=sys.stderr)
    return 1


if __name__ == "__main__":
    if sys.argv[1] == INSIDE:
        sys.exit(run(sys.argv[2:]))
    again = [sys.executable, "-m", "tests.support.slurm_nodes", INSIDE, *sys.argv[1:]]
    sys.exit(subprocess.run([*APART, *again], check=False).returncode)
