"""The sockets between a run and its ranks."""
import contextlib
import ipaddress
import os
import secrets
import selectors
import socket
from collections.abc import Iterable, Iterator, Sequence
from dataclasses import dataclass, field
from pathlib import Path

from wire_up_tools.failures import Refused

READ_BYTES = 1 << 16
# A socket's path has at most so many bytes.
PATH_BYTES = 100
# Every address of this machine, and the one that nothing outside reaches.
EVERY, LOOPBACK = "", "127.0.0.1"
# No datagram goes to this port: it is named to learn the way to a host.
ANY_PORT = 9
# How often a port is looked for that is free at each address.
TRIES = 20


@dataclass(eq=False)
class Channel:
    """A connection: what came of a line that isn't whole yet."""

    connection: socket.socket
    begun: bytes = b""

    def send(self, *lines: str) -> None:
        """Sends lines. What has gone isn't sent to: reading says so."""
        try:
            self.connection.sendall("".join(f"{line}\n" for line in lines).encode())
        except OSError:
            pass

    def receive(self) -> list[str] | None:
        """The lines that came; None at the end."""
        try:
            came = self.connection.recv(READ_BYTES)
        except OSError:
            came = b""
        if not came:
            return None
        *whole, self.begun = (self.begun + came).split(b"\n")
        return [part.decode("ascii", "replace") for part in whole]


@dataclass(frozen=True)
class Heard:
    """A line that came over a channel; None: its end."""

    channel: Channel
    line: str | None


@dataclass(eq=False)
class Hall:
    """Where the ranks of a run connect, and what the launcher writes."""

    listeners: Sequence[socket.socket]
    address: str
    # What a process shows to prove that it belongs to the run.
    word: str = field(default_factory=lambda: secrets.token_hex(16))
    selector: selectors.DefaultSelector = field(default_factory=selectors.DefaultSelector)
    # The end of what the launcher wrote.
    said: bytes = b""

    def watch(self, output: int) -> None:
        """Watches the launcher's output too."""
        self.selector.register(output, selectors.EVENT_READ, output)

    def hear(self, seconds: float) -> Iterator[Heard]:
        """What comes within a time."""
        for key, _ in self.selector.select(seconds):
            if isinstance(key.data, Channel):
                yield from self.hear_channel(key.data)
            elif isinstance(key.data, int):
                self.hear_launcher(key.data)
            elif isinstance(key.data, socket.socket):
                connection, _ = key.data.accept()
                self.selector.register(connection, selectors.EVENT_READ, Channel(connection))

    def hear_channel(self, channel: Channel) -> Iterator[Heard]:
        """The lines of a channel, or its end."""
        lines = channel.receive()
        if lines is None:
            self.selector.unregister(channel.connection)
            channel.connection.close()
            yield Heard(channel, None)
        yield from (Heard(channel, line) for line in lines or [])

    def hear_launcher(self, output: int) -> None:
        """Keeps the end of what the launcher writes."""
        came = os.read(output, READ_BYTES)
        self.said = (self.said + came)[-READ_BYTES:]
        if not came:
            self.selector.unregister(output)

    def close(self) -> None:
        """Closes all; again, it does nothing."""
        for key in list((self.selector.get_map() or {}).values()):
            if isinstance(key.data, Channel):
                key.data.connection.close()
        self.selector.close()
        for listener in self.listeners:
            listener.close()


def open_hall(folder: Path, hosts: Iterable[str] | None) -> Hall:
    """Opens a hall: at a port that the hosts reach, or without hosts for ranks of this machine, in
    a folder. Raises Refused, OSError."""
    if hosts is None:
        listeners, address = listen_here(folder)
    else:
        listeners, address = listen_at(find_addresses(hosts))
    hall = Hall(listeners, address)
    for listener in listeners:
        listener.listen(1024)
        hall.selector.register(listener, selectors.EVENT_READ, listener)
    return hall


def listen_here(folder: Path) -> tuple[list[socket.socket], str]:
    """A socket in a folder, and its path. Raises Refused, OSError."""
    path = str(folder / "talk")
    if len(os.fsencode(path)) > PATH_BYTES:
        raise Refused(f"{folder}: the path is too long for a socket: set TMPDIR")
    listener = socket.socket(socket.AF_UNIX)
    listener.bind(path)
    return [listener], path


def listen_at(addresses: Sequence[str]) -> tuple[list[socket.socket], str]:
    """A socket at each address, all at one port; and how ranks are told of them. Raises OSError."""
    for left in reversed(range(TRIES)):
        with contextlib.ExitStack() as opened:
            first = opened.enter_context(create_server(addresses[0], 0))
            port = first.getsockname()[1]
            try:
                rest = [
                    opened.enter_context(create_server(each_address, port))
                    for each_address in addresses[1:]
                ]
            except OSError:
                if not left:
                    raise
                continue
            opened.pop_all()
            named = [address or socket.gethostname() for address in addresses]
            return [first, *rest], f"{','.join(named)}:{port}"
    raise AssertionError


def create_server(address: str, port: int) -> socket.socket:
    """A socket at an address of this machine. Raises OSError."""
    family = socket.AF_INET6 if ":" in address else socket.AF_INET
    return socket.create_server((address, port), family=family)


def find_addresses(hosts: Iterable[str]) -> list[str]:
    """The addresses of this machine that hosts need: those from which it reaches them, or the
    loopback alone where they are this machine. Where the way to one isn't known, it is every
    address."""
    found: dict[str, None] = {}
    for host in dict.fromkeys(hosts):
        own = find_own_address(host)
        if own is None:
            return [EVERY]
        found[own] = None
    outer = [text for text in found if not ipaddress.ip_address(text).is_loopback]
    return outer or [LOOPBACK]


def find_own_address(host: str) -> str | None:
    """The address from which this machine reaches a host; the loopback where the host is this
    machine. None where the way to it isn't known."""
    if host == socket.gethostname():
        return LOOPBACK
    with contextlib.suppress(OSError, UnicodeError):
        for family, kind, _, _, to in socket.getaddrinfo(host, ANY_PORT, type=socket.SOCK_DGRAM):
            with contextlib.suppress(OSError), socket.socket(family, kind) as way:
                way.connect(to)
                own = str(way.getsockname()[0])
                return LOOPBACK if own == to[0] else own
    return None
