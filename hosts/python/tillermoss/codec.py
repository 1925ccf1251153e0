"""The bytes of messages, as docs/PROTOCOL.md and docs/FORMATS.md give them."""

import re
import struct
from dataclasses import dataclass, field
from typing import NamedTuple, Optional

VERSION = 2
GREETING = 1
START, BEAT, CALL = range(3)
STARTED, ALIVE, REPLY, REFUSED, NOTICE = range(5)
OPEN, CLOSE, READ, STAT, LIST, SET, SET_ACL, DELETE, ACQUIRE, TRY_ACQUIRE = range(10)
RELEASE, GET_SEQUENCER, SET_SEQUENCER, CHECK_SEQUENCER, LEAVE = range(10, 15)

REFUSALS = (
    "NoMemory BadName OtherCell BadPrincipal BadAcl NotFound Exists WrongKind NotEmpty Denied WrongGeneration TooLarge Exhausted "
    "StaleInstance StoreRefused StoreDamaged BadHandle BadSequencer NoSession BadAck Repeat Busy Held Delayed NotHolder SequencerStale "
    "DelayTooLong OldEpoch Recovering InJeopardy SessionExpired Poisoned CallOutstanding Unknown ProtocolFault UnfairClock "
    "NoSuchMessage MasterDown MasterUp WatchFull PassMissing ReceiptApart NoRoom"
).split()
TURNED_AWAY = (
    "the greeting wasn't understood",
    "not a principal",
    "the number was given to another client",
    "no number could be given",
    "too many clients",
    "the connection is that of another principal",
    "too many clients of this principal",
    "the server isn't master",
)
WRONG_TOKEN, NOT_MASTER = 2, 7
# What of these may be otherwise a little later.
TURNED_AWAY_FOR_NOW = (3, 4, 6, NOT_MASTER)
EVENTS = "failover contents child-added child-removed child-modified invalid locked conflict lost".split()


class Malformed(Exception):
    """Bytes that no server sends."""


@dataclass(frozen=True)
class Refusal:
    """Why a master refuses something: a number of docs/FORMATS.md, and its argument where it has one."""

    number: int
    argument: object = None

    @property
    def name(self) -> str:
        return REFUSALS[self.number - 1]

    def __str__(self) -> str:
        return self.name if self.argument is None else f"{self.name} {self.argument}"


@dataclass(frozen=True)
class View:
    """A node as a read finds it."""

    is_directory: bool
    instance: int
    content_generation: int
    acl_generation: int
    acls: tuple
    is_ephemeral: bool
    content: bytes = b""
    children: tuple = ()


@dataclass(frozen=True)
class NodeStat:
    """The numbers of a node."""

    is_directory: bool
    instance: int
    content_generation: int
    acl_generation: int
    lock_generation: int
    acls: tuple
    is_ephemeral: bool
    length: int


class Opened(NamedTuple):
    """The handle that an Open gave."""

    handle: bytes
    instance: int
    is_ephemeral: bool


@dataclass(frozen=True)
class Event:
    """What a master tells of: its kind, the number of the Open of the handle that it is for, if it is for one, and the rest."""

    kind: str
    opened: Optional[int] = None
    instance: Optional[int] = None
    generation: Optional[int] = None
    name: Optional[str] = None


@dataclass
class Message:
    """A message of a master, or a notice of the server in front of it."""

    kind: int
    client: int = 0
    epoch: int = 0
    number: int = 0
    span: int = 0
    invalidations: list = field(default_factory=list)
    events: list = field(default_factory=list)
    stamp: Optional[int] = None
    result: object = None
    text: str = ""


def word(number: int) -> bytes:
    return struct.pack(">Q", number)


def sized(content: bytes) -> bytes:
    return struct.pack(">I", len(content)) + content


def text(name: str) -> bytes:
    return sized(name.encode())


def optional(content: Optional[bytes]) -> bytes:
    return b"\0" if content is None else b"\1" + content


class Fields:
    """Takes fields from the left of a block."""

    def __init__(self, block: bytes):
        self.block, self.at = block, 0

    def take(self, count: int) -> bytes:
        if self.at + count > len(self.block):
            raise Malformed("the block ends within a field")
        self.at += count
        return self.block[self.at - count : self.at]

    def byte(self) -> int:
        return self.take(1)[0]

    def choice(self, count: int) -> int:
        found = self.byte()
        if found >= count:
            raise Malformed(f"a choice of {found} among {count}")
        return found

    def word(self) -> int:
        return struct.unpack(">Q", self.take(8))[0]

    def count(self) -> int:
        return struct.unpack(">I", self.take(4))[0]

    def sized(self) -> bytes:
        return self.take(self.count())

    def text(self) -> str:
        return self.sized().decode()

    def optional_word(self) -> Optional[int]:
        return self.word() if self.choice(2) else None

    def listed(self, read) -> list:
        return [read() for _ in range(self.count())]

    def end(self) -> None:
        if self.at != len(self.block):
            raise Malformed("bytes after the last field")


# ---- what a client sends


def hello(principal: str, client: Optional[int] = None, token: int = 0) -> bytes:
    if client is None:
        return bytes([GREETING, 0]) + text(principal)
    return bytes([GREETING, 1]) + text(principal) + word(client) + word(token)


def start(client: int, number: int, principal: str) -> bytes:
    return bytes([VERSION, START]) + word(client) + word(number) + text(principal)


def beat(client: int, epoch: int, number: int, invalidations: int, events: int) -> bytes:
    return bytes([VERSION, BEAT]) + b"".join(map(word, (client, epoch, number, invalidations, events)))


def call(client: int, epoch: int, number: int, body: bytes, sequencer: Optional[bytes]) -> bytes:
    return bytes([VERSION, CALL]) + word(client) + word(epoch) + word(number) + body + optional(sequencer and sized(sequencer))


def create(content: Optional[bytes], must: bool, is_ephemeral: bool, acls: Optional[tuple]) -> bytes:
    """What an Open may make: a file with its content, or a directory where that is None."""
    out = bytes([int(must)]) + (b"\1" if content is None else b"\0" + sized(content))
    return out + bytes([int(is_ephemeral)]) + optional(acls and b"".join(map(text, acls)))


def opening(name: str, mode: int, made: Optional[bytes], delay: int, events: int) -> bytes:
    return bytes([OPEN]) + text(name) + bytes([mode]) + optional(made) + word(delay) + bytes([events])


def on_handle(kind: int, handle: bytes, rest: bytes = b"") -> bytes:
    return bytes([kind]) + sized(handle) + rest


# ---- what no server takes

CONTENT_LIMIT, SEQUENCER_LIMIT = 262_144, 532
COMPONENT = re.compile(r"[a-z0-9._-]{1,64}")


def is_component(text: str) -> bool:
    """Whether it may stand between the slashes of a name, or be a principal."""
    return bool(COMPONENT.fullmatch(text)) and text not in (".", "..")


def is_name(text: str) -> bool:
    """Whether it is the whole name of a node."""
    return text.startswith("/ls/") and len(text) <= 512 and all(map(is_component, text[4:].split("/")))


# ---- what a sequencer says


def fencing_number(sequencer: bytes) -> int:
    """A number that rises from one holder of a name to the next: the instance and the lock's generation in order, in 64 bits each."""
    if len(sequencer) < 20 or sequencer[0] != 1 or len(sequencer) != 20 + int.from_bytes(sequencer[18:20], "big"):
        raise Malformed("not a sequencer")
    return int.from_bytes(sequencer[2:18], "big")


# ---- what a server sends


def read_welcome(block: bytes) -> tuple:
    """The client's number and its token; or None and the reason why there is none. After them where the master is, as a server
    says that isn't."""
    fields = Fields(block)
    if fields.byte() != GREETING:
        raise Malformed("a greeting of another version")
    if not fields.choice(2):
        found = fields.word(), fields.word(), ""
    else:
        reason = fields.byte()
        found = None, reason, fields.text() if reason == NOT_MASTER else ""
    fields.end()
    return found


def read_refusal(fields: Fields) -> Refusal:
    number = fields.byte() + 1
    if number > len(REFUSALS):
        raise Malformed(f"a refusal {number}")
    words = {8: ("file", "dir"), 10: ("read", "write", "change"), 23: ("x", "s")}.get(number)
    if words:
        return Refusal(number, words[fields.choice(len(words))])
    return Refusal(number, fields.word() if number in (11, 20, 24, 28, 41, 42, 43) else None)


def read_event(fields: Fields) -> Event:
    kind = fields.choice(len(EVENTS))
    if kind in (0, 8):
        return Event(EVENTS[kind])
    opened = fields.word()
    if kind == 1:
        return Event(EVENTS[kind], opened, instance=fields.word(), generation=fields.word())
    return Event(EVENTS[kind], opened, name=fields.text() if kind < 5 else None)


def read_view(fields: Fields) -> View:
    is_directory = bool(fields.choice(2))
    numbers = fields.word(), fields.word(), fields.word()
    acls = fields.text(), fields.text(), fields.text()
    is_ephemeral = bool(fields.choice(2))
    return View(is_directory, *numbers, acls, is_ephemeral, fields.sized(), tuple(fields.listed(fields.text)))


def read_stat(fields: Fields) -> NodeStat:
    is_directory = bool(fields.choice(2))
    numbers = fields.word(), fields.word(), fields.word(), fields.word()
    acls = fields.text(), fields.text(), fields.text()
    return NodeStat(is_directory, *numbers, acls, bool(fields.choice(2)), fields.word())


def read_result(fields: Fields) -> object:
    kind = fields.choice(8)
    if kind == 0:
        return Opened(fields.sized(), fields.word(), bool(fields.choice(2)))
    if kind in (2, 4):
        return read_view(fields)
    if kind == 3:
        return read_stat(fields)
    if kind == 5:
        return fields.sized()
    return read_refusal(fields) if kind == 7 else None


def read_message(block: bytes) -> Message:
    """What a server sends after its welcome."""
    fields = Fields(block)
    if fields.byte() != VERSION:
        raise Malformed("a message of another version")
    kind = fields.choice(5)
    if kind == NOTICE:
        return Message(NOTICE, number=fields.word(), text=block[fields.at :].decode(errors="replace"))
    message = Message(kind, fields.word(), fields.word(), fields.word())
    if kind == STARTED:
        message.span = fields.word()
    elif kind == ALIVE:
        message.span = fields.word()
        message.invalidations = fields.listed(lambda: (fields.word(), fields.text()))
        message.events = fields.listed(lambda: (fields.word(), read_event(fields)))
    elif kind == REPLY:
        message.stamp = fields.optional_word()
        message.result = read_result(fields)
    else:
        message.result = read_refusal(fields)
    fields.end()
    return message
