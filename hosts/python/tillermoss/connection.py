"""How a server is reached, and when a client beats."""

import math
import select
import socket
import ssl
import threading
from typing import Optional

from . import codec
from .session import OLD_EPOCH

CONNECTING = 5.0
WRITING = 10.0
ANSWER_PAUSES = 200, 10_000
PACE = 20
KEPT_LONG = 20_000
# How long after the end of its lease a client of several servers waits for an answer before it tries another.
SILENCE = 3_000


def kind_of(server: str) -> str:
    """How a server is reached: by `unix`, `tls` or `tcp`."""
    kind = server.partition(":")[0]
    return kind if kind in ("unix", "tls") else "tcp"


def place_of(server: str) -> tuple:
    """Host and port of a server; without a host it is loopback. Empty of a word that is no address."""
    host, _, port = server.removeprefix("tls:").removeprefix("tcp:").rpartition(":")
    is_port = port.isascii() and port.isdigit() and int(port) < 65536
    return (host.strip("[]") or "127.0.0.1", int(port)) if is_port else ()


def check_address(server: str, tls: Optional[ssl.SSLContext]) -> None:
    """Whether it is an address, and this client has what that wants."""
    if not place_of(server) and not (kind_of(server) == "unix" and server != "unix:"):
        raise ValueError(f"{server}: a server is unix:PATH, tls:HOST:PORT, tcp:HOST:PORT or HOST:PORT")
    if kind_of(server) == "tls" and tls is None:
        raise ValueError(f"{server}: tls= wants an ssl.SSLContext, with a certificate and the server's authority")


def is_followed(told: str, present: str) -> bool:
    """Whether a client that trusts the present server goes where that one sends it: to another that is reached in the same way. One that
    knows its servers by TLS would give itself away over TCP."""
    return kind_of(told) == kind_of(present) != "unix" and bool(place_of(told))


class Schedule:
    """When the next Beat goes."""

    def __init__(self):
        self.number, self.sent, self.first, self.until, self.due = None, 0, 0, 0, 0
        self.pause, self.usual, self.is_answered = ANSWER_PAUSES[0], 0, True

    def beaten(self, moment: int, number: int, until: int) -> None:
        """One was sent. None follows while its answer may be on its way, which a master keeps until the lease is near its end."""
        wait = max(until - moment, 0)
        if self.is_answered:
            self.first, self.until, self.pause = moment, until, ANSWER_PAUSES[0]
            wait = min(wait, self.usual // 2) if self.usual >= KEPT_LONG else wait
        else:
            self.pause = min(2 * self.pause, ANSWER_PAUSES[1])
        self.number, self.sent, self.due, self.is_answered = number, moment, moment + max(wait, self.pause), False

    def silent_from(self) -> float:
        """From when on the server has been silent for so long that another may be master."""
        return math.inf if self.is_answered else max(self.first, self.until) + SILENCE

    def heard(self, moment: int, message: codec.Message) -> None:
        is_answer = message.kind != codec.NOTICE and message.kind != codec.REPLY and message.number == self.number
        paced = max(moment, self.sent + PACE)
        if message.kind == codec.NOTICE and message.number == 0:
            self.due = moment
        elif is_answer and (message.invalidations or message.events):
            self.due = moment
        elif is_answer or (message.kind == codec.REFUSED and message.result.number == OLD_EPOCH):
            self.due = min(self.due, paced)
        if is_answer:
            self.usual, self.is_answered = moment - self.first, True


class Connection:
    """Blocks over a stream, each after its length in four bytes."""

    def __init__(self, server: str, tls: Optional[ssl.SSLContext]):
        try:
            self.stream = self.connected(server)
        except OSError as why:
            raise ConnectionError(f"{server}: {why}: is tillermossd running there?") from why
        self.stream.settimeout(WRITING)
        if kind_of(server) == "tls":
            self.encrypt(server, tls)
        self.held, self.using = bytearray(), threading.Lock()
        # (it takes descriptors above 1,023 too, which `select` doesn't)
        self.watched = select.poll()
        self.watched.register(self.stream, select.POLLIN)

    @staticmethod
    def connected(server: str) -> socket.socket:
        if kind_of(server) == "unix":
            stream = socket.socket(socket.AF_UNIX)
            stream.settimeout(WRITING)
            try:
                stream.connect(server.removeprefix("unix:"))
            except OSError:
                stream.close()
                raise
            return stream
        stream = socket.create_connection(place_of(server), CONNECTING)
        stream.setsockopt(socket.IPPROTO_TCP, socket.TCP_NODELAY, 1)
        return stream

    def encrypt(self, server: str, tls: ssl.SSLContext) -> None:
        host, _ = place_of(server)
        try:
            self.stream = tls.wrap_socket(self.stream, server_hostname="localhost" if host in ("127.0.0.1", "::1") else host)
        except OSError as why:
            self.stream.close()
            cure = "tls= has to trust the server's authority, and to show a certificate that the server takes"
            raise ConnectionError(f"{server}: {why}: {cure}") from why

    def send(self, block: bytes) -> None:
        with self.using:
            self.stream.sendall(codec.sized(block))

    def next(self, patience: float) -> Optional[bytes]:
        """The next block; None where none came in so many seconds. At the stream's end a ConnectionError."""
        while len(self.held) < 4 or len(self.held) < 4 + int.from_bytes(self.held[:4], "big"):
            if not self.has_more(max(patience, 0.0)):
                return None
            with self.using:
                more = self.stream.recv(65536)
            if not more:
                raise ConnectionError("the server closed the connection")
            self.held += more
        length = 4 + int.from_bytes(self.held[:4], "big")
        block = bytes(self.held[4:length])
        del self.held[:length]
        return block

    def has_more(self, patience: float) -> bool:
        is_held = isinstance(self.stream, ssl.SSLSocket) and self.stream.pending() > 0
        return is_held or bool(self.watched.poll(math.ceil(patience * 1000)))

    def end(self) -> None:
        """Nothing more is sent; who waits for a block hears that the stream has ended."""
        try:
            self.stream.shutdown(socket.SHUT_RDWR)
        except OSError:
            pass  # (it has ended already)

    def close(self) -> None:
        self.stream.close()
