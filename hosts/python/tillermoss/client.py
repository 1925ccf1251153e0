"""A client that keeps its session by a thread of its own."""

import math
import os
import queue
import random
import ssl
import threading
import time
import weakref
from dataclasses import dataclass
from typing import Optional

from . import codec
from .codec import Malformed, NodeStat, Refusal, View
from .connection import CONNECTING, Connection, Schedule, check_address, is_followed
from .session import EXPIRED, NO_SESSION, NOT_FOUND, UNKNOWN, Session, leased_until

MODES = {"r": 1, "w": 2, "c": 4}
EVENT_LETTERS = {"m": 1, "d": 2, "l": 4, "x": 8}
BAD_NAME, TOO_LARGE, STALE_INSTANCE, BAD_SEQUENCER, BUSY, RECOVERING, IN_JEOPARDY = 2, 12, 14, 18, 22, 29, 30
# Between two tries to connect, at first and at most, in seconds; of each a random part, half at least, so that not all clients of a
# server that is gone come back at once.
PAUSES = 0.02, 0.5
# Between two tries of a call that is refused for now.
PAUSE = 0.05
# How long at most a client that is closed waits until its session has ended.
PARTING = 2.0
NO_SEQUENCER = "it is what sequencer() of a handle gives"


class Refused(Exception):
    """The master refused a call, or the client did: `refusal` says why, `limit` which limit of the server stands against it, and `about`
    of which node, or of what."""

    def __init__(self, refusal: Refusal, limit: Optional[str] = None, about: Optional[str] = None):
        super().__init__(": ".join(filter(None, (limit or str(refusal), about))))
        self.refusal, self.limit, self.about = refusal, limit, about


class TurnedAway(Exception):
    """The server binds no connection for this principal."""


@dataclass(eq=False)
class Handle:
    """A node that is open; `opened` is the number by which events of it are told, `served` whether the last read was the cache's."""

    name: str
    content: bytes
    instance: int
    opened: int
    may_read: bool
    sequencer: Optional[bytes] = None
    served: bool = False


# The clients of this process.
CLIENTS: weakref.WeakSet = weakref.WeakSet()


def void_all() -> None:
    """In a child process no thread keeps the clients that its parent has: they are void, and the parent's go on."""
    for client in list(CLIENTS):
        client.void()


os.register_at_fork(after_in_child=void_all)


def read_letters(what: str, letters: str, known: dict) -> int:
    """The sum of what letters stand for."""
    for letter in letters:
        if letter not in known:
            raise ValueError(f"{what} has {letter!r}: its letters are {', '.join(known)}")
    return sum(known[letter] for letter in letters)


def now() -> int:
    """Milliseconds by a clock that goes on while the machine sleeps."""
    return time.clock_gettime_ns(time.CLOCK_BOOTTIME) // 1_000_000


class Client:
    """A client that keeps its session by a thread of its own, and connects again where a connection is lost. Of several servers,
    with commas between, it goes to the one that is master. In a child process, after `fork`, it is void: connect anew there."""

    def __init__(self, servers: str, principal: str, patience: float = 90.0, tls: Optional[ssl.SSLContext] = None):
        self.principal, self.patience, self.tls = principal, patience, tls
        self.servers, self.told, self.was_told = servers.split(","), "", False
        for server in self.servers:
            check_address(server, tls)
        if not codec.is_component(principal):
            raise TurnedAway(f"{principal!r} is not a principal: that is 1 to 64 of a-z 0-9 . _ -")
        # (which of them say that they don't know this client, since one took it)
        self.denying: set = set()
        self.set_apart()
        connection = self.greet_one(codec.hello(principal))
        self.session = Session(self.number, principal)
        self.schedule = Schedule()
        CLIENTS.add(self)
        self.keeper = threading.Thread(target=self.run, args=(connection,), name="tillermoss", daemon=True)
        self.keeper.start()
        with self.changed:
            self.changed.wait_for(lambda: self.session.state != "unstarted" or self.fault, patience)
            self.check()

    def set_apart(self) -> None:
        """What threads share."""
        self.changed = threading.Condition()
        self.calling, self.parting = threading.Lock(), threading.Lock()
        self.events: queue.Queue = queue.Queue()
        self.connection: Optional[Connection] = None
        self.reached: Optional[Connection] = None
        self.fault: Optional[Exception] = None

    def void(self) -> None:
        """It is another process' client: here nothing is served, asked or sent, and its connection stays as it is."""
        reached = self.reached
        # (a thread that isn't here any more may have held the locks)
        self.set_apart()
        self.fault = ConnectionError("the client is that of the process before the fork: connect anew")
        if reached:
            reached.close()
        self.session.cache.clear()
        self.session.enabled = False
        self.session.end((Refusal(EXPIRED), None))

    def __enter__(self) -> "Client":
        return self

    def __exit__(self, *_) -> None:
        self.close()

    def close(self) -> None:
        """Ends its session, and waits for that for 2 seconds at most: its locks are free then, its ephemeral nodes go, and nothing waits
        for its cache. A call of another thread that waits is given up, and refused as NoSession. If no master answers by then, the
        session ends with its lease."""
        ends = time.monotonic() + PARTING
        with self.parting:
            while self.leave_once(ends):
                time.sleep(PAUSE)
        CLIENTS.discard(self)
        with self.changed:
            self.fault = self.fault or ConnectionError("the client is closed: connect anew")
            if self.connection:
                self.connection.end()
            self.session.end((Refusal(EXPIRED), None))
            self.changed.notify_all()
        self.keeper.join(2.0)

    def leave_once(self, ends: float) -> bool:
        """Asks for the end of the session, and waits until that moment; whether it is to be asked for again. A master that has still to
        do the call before it drops the message, which so goes out again and again."""
        with self.changed:
            self.tell(self.session.note(now()))
            if self.fault or self.session.state != "live" or time.monotonic() >= ends:
                return False
            if self.session.jeopardy is None:
                waiting = self.session.leave()
                self.send(waiting.block)
                while not self.changed.wait_for(lambda: waiting.ends, PAUSE) and time.monotonic() < ends:
                    self.send(waiting.block)
            return self.session.state == "live"

    # ---- the keeper's thread

    def run(self, connection: Connection) -> None:
        """Keeps the session. Whatever ends that, who waits for an answer hears of it."""
        try:
            self.keep(connection)
        except BaseException as why:
            fault = ConnectionError(f"the client's thread has ended: {why!r}")
            fault.__cause__ = why
            self.give_up(fault, fault)
        finally:
            self.reached.close()

    def greet_one(self, greeting: bytes) -> Connection:
        """Greets until a server takes the client, where there are several."""
        ends = time.monotonic() + self.patience
        while True:
            try:
                return self.greet(greeting)
            except OSError:
                if len(self.servers) == 1 and not self.was_told or time.monotonic() >= ends:
                    raise
                time.sleep(PAUSES[0])

    def greet(self, greeting: bytes) -> Connection:
        server, self.told = self.told or self.servers[0], ""
        try:
            self.reached = connection = Connection(server, self.tls)
            try:
                self.number, self.token = self.welcomed(connection, greeting, server)
            except BaseException:
                connection.close()
                raise
        except OSError:
            # (the next time another one)
            self.servers.append(self.servers.pop(0))
            raise
        if server in self.servers:
            at = self.servers.index(server)
            self.servers = self.servers[at:] + self.servers[:at]
        return connection

    def welcomed(self, connection: Connection, greeting: bytes, server: str) -> tuple:
        try:
            connection.send(greeting)
            block = connection.next(CONNECTING)
        except OSError as why:
            raise ConnectionError(f"{server} gives no greeting: {why}: does it listen there, and by tls: or tcp: as this says?") from why
        if block is None:
            raise ConnectionError(f"{server} gives no greeting: does it listen there, and by tls: or tcp: as this says?")
        number, other, told = codec.read_welcome(block)
        if number is not None:
            self.denying.clear()
            return number, other
        # (one that stands by says that there are others, also where it is the only one that is known)
        self.was_told = self.was_told or other == codec.NOT_MASTER
        if told in self.servers or is_followed(told, server):
            self.told = told
        reason = codec.TURNED_AWAY[other] if other < len(codec.TURNED_AWAY) else f"reason {other}"
        if other == codec.WRONG_TOKEN or (other == codec.NOT_MASTER and self.is_denying(told)):
            self.denying.add(server)
            others = [one for one in self.servers if one not in self.denying]
            raise ConnectionError(reason) if others else TurnedAway(codec.TURNED_AWAY[codec.WRONG_TOKEN])
        raise ConnectionError(reason) if other in codec.TURNED_AWAY_FOR_NOW else TurnedAway(reason)

    def is_denying(self, server: str) -> bool:
        """Whether the server said that it doesn't know this client. One that was replaced says so of what its successor gave, so one of
        several ends no session before the others said the same, or that it is master."""
        return any(server.removeprefix("tcp:") == one.removeprefix("tcp:") for one in self.denying)

    def keep(self, connection: Optional[Connection]) -> None:
        pause = PAUSES[0]
        while self.goes_on():
            try:
                connection = connection or self.greet(codec.hello(self.principal, self.number, self.token))
                pause = PAUSES[0]
                self.hear(connection)
            except TurnedAway as why:
                self.give_up(why)
            except (OSError, Malformed):
                pass  # (whatever ends a connection, another is made)
            with self.changed:
                self.connection = None
                self.tell(self.session.note(now()))
            if connection:
                connection.close()
                connection = None
            if self.goes_on():
                time.sleep(pause * random.uniform(0.5, 1))
                pause = min(2 * pause, PAUSES[1])

    def goes_on(self) -> bool:
        return self.fault is None and self.session.state in ("unstarted", "live")

    def hear(self, connection: Connection) -> None:
        with self.changed:
            self.connection = connection
            self.schedule.is_answered = True
            self.beat(is_again=True)
        while self.goes_on():
            silent_from = self.schedule.silent_from() if len(self.servers) > 1 else math.inf
            block = connection.next((min(self.schedule.due, silent_from) - now()) / 1000)
            with self.changed:
                if block is not None:
                    self.take(codec.read_message(block))
                if now() >= silent_from and not self.schedule.is_answered:
                    self.servers.append(self.servers.pop(0))
                    raise ConnectionError("the server is silent")
                if now() >= self.schedule.due:
                    self.beat(is_again=not self.schedule.is_answered)

    def take(self, message: codec.Message) -> None:
        waiting = self.session.waiting
        if message.kind == codec.NOTICE and waiting and message.number == waiting.number:
            waiting.limit = message.text
        elif message.kind != codec.NOTICE:
            self.tell(self.session.give(now(), message))
        self.schedule.heard(now(), message)

    def beat(self, is_again: bool) -> None:
        """Beats; and sends the call that has no reply yet again, where its message or the reply may be lost."""
        moment = now()
        self.tell(self.session.note(moment))
        block = self.session.beat(moment)
        if block is not None:
            self.send(block)
            self.schedule.beaten(moment, self.session.beats, leased_until(self.session.lease))
        if is_again and self.session.waiting:
            self.send(self.session.waiting.block)

    def send(self, block: bytes) -> None:
        try:
            if self.connection:
                self.connection.send(block)
        except OSError:
            pass  # (what is lost with a connection goes again with the next one)

    def tell(self, events: list) -> None:
        for event in events:
            self.events.put(event)
        self.changed.notify_all()

    def give_up(self, why: Exception, ends: object = Refusal(EXPIRED)) -> None:
        with self.changed:
            self.fault = why
            self.session.end((ends, None))
            self.changed.notify_all()

    # ---- calls

    def check(self) -> None:
        if self.fault:
            raise self.fault
        if self.session.state != "live" or self.session.leaving:
            raise Refused(Refusal(EXPIRED if self.session.state == "lost" else NO_SESSION))
        if self.session.jeopardy is not None:
            raise Refused(Refusal(IN_JEOPARDY))

    @staticmethod
    def refuse(number: int, is_refused: bool, about: str) -> None:
        """Refuses what no server takes before it is sent: each such message would end the connection, until the session is lost."""
        if is_refused:
            raise Refused(Refusal(number), None, about)

    def check_content(self, content: bytes) -> None:
        """Whether it may be a file's."""
        if not isinstance(content, (bytes, bytearray, memoryview)):
            raise TypeError(f"a content is bytes, not {type(content).__name__}: encode a text")
        self.refuse(TOO_LARGE, len(content) > codec.CONTENT_LIMIT, f"{len(content):,} bytes, of {codec.CONTENT_LIMIT:,} at most")

    def call(self, body: bytes, only_reads: bool = False, handle: Optional[Handle] = None, name: Optional[str] = None, sequencer: Optional[bytes] = None) -> object:
        """Makes a call, again while it is refused for now; one that only reads also where its outcome got lost. Gives its result."""
        return self.call_numbered(body, only_reads, handle, name, sequencer)[0]

    def call_numbered(self, body: bytes, only_reads: bool, handle: Optional[Handle], name: Optional[str], sequencer: Optional[bytes]) -> tuple:
        """The same, with the number of the call."""
        ends = time.monotonic() + self.patience
        for_now = {BUSY, RECOVERING, IN_JEOPARDY} | ({UNKNOWN} if only_reads else set())
        while True:
            try:
                return self.call_once(body, handle, name, sequencer)
            except Refused as why:
                if why.limit or why.refusal.number not in for_now or time.monotonic() >= ends:
                    raise
                time.sleep(PAUSE)

    def call_once(self, body: bytes, handle: Optional[Handle], name: Optional[str], sequencer: Optional[bytes]) -> tuple:
        """The result, and the number of the call."""
        with self.calling, self.changed:
            self.tell(self.session.note(now()))
            self.check()
            under = sequencer or (handle.sequencer if handle else None)
            waiting = self.session.ask(body, handle.name if handle else name, under, handle is None)
            self.send(waiting.block)
            self.changed.wait_for(lambda: waiting.ends)
            result, limit = waiting.ends
            if isinstance(result, Refusal):
                raise Refused(result, limit, handle.name if handle else name)
            if isinstance(result, Exception):
                raise result
            return result, waiting.number

    def open(self, name: str, mode: str = "r", make: Optional[bytes] = None, directory: bool = False, must: bool = False,
             ephemeral: bool = False, acls: Optional[tuple] = None, events: str = "", delay: int = 0) -> Handle:
        """Opens a node; one that isn't there is made with the content `make`, or as a `directory`. With `must` it may not be there."""
        self.refuse(BAD_NAME, not codec.is_name(name), f"{name}: it is /ls/CELL and components of 1 to 64 of a-z 0-9 . _ -")
        self.refuse(BAD_NAME, not all(map(codec.is_component, acls or ())), f"{acls}: each is the last component of an ACL's name")
        self.check_content(make or b"")
        letters = read_letters("mode", mode, MODES)
        told = read_letters("events", events, EVENT_LETTERS)
        makes = make is not None or directory
        if not must:
            try:
                return self.open_as(name, letters, None, delay, told)
            except Refused as why:
                if not makes or why.refusal.number != NOT_FOUND:
                    raise
        made = codec.create(None if directory else make or b"", must, ephemeral, acls)
        return self.open_as(name, letters, made, delay, told)

    def open_as(self, name: str, mode: int, made: Optional[bytes], delay: int, events: int) -> Handle:
        if made is None:
            with self.changed:
                self.tell(self.session.note(now()))
                is_served, view = self.session.cached(now(), name)
            if is_served and view is None:
                raise Refused(Refusal(NOT_FOUND), None, name)
        body = codec.opening(name, mode, made, delay, events)
        try:
            opened, number = self.call_numbered(body, False, None, name if made is None else None, None)
        except Refused as why:
            raise Refused(why.refusal, why.limit, name) from None
        return Handle(name, opened.handle, opened.instance, number, bool(mode & 1))

    def read(self, handle: Handle) -> View:
        """Reads a node, out of the cache where that holds it under a lease that runs."""
        return self.view(handle, codec.READ)

    def list(self, handle: Handle) -> tuple:
        """The last components of a directory's children, in the order of their bytes."""
        return self.view(handle, codec.LIST).children

    def view(self, handle: Handle, kind: int) -> View:
        with self.changed:
            self.tell(self.session.note(now()))
            self.check()
            is_served, view = self.session.cached(now(), handle.name)
        handle.served = is_served and handle.may_read and handle.sequencer is None and (kind == codec.READ or view is None or view.is_directory)
        if not handle.served:
            return self.call(codec.on_handle(kind, handle.content), True, handle)
        if view is None or view.instance != handle.instance:
            raise Refused(Refusal(STALE_INSTANCE), None, handle.name)
        return view

    def stat(self, handle: Handle) -> NodeStat:
        return self.call(codec.on_handle(codec.STAT, handle.content), True, handle)

    def set(self, handle: Handle, content: bytes, generation: Optional[int] = None) -> None:
        """A new content; with a generation only where the node has that one."""
        self.check_content(content)
        rest = codec.sized(content) + codec.optional(None if generation is None else codec.word(generation))
        self.call(codec.on_handle(codec.SET, handle.content, rest), handle=handle)

    def delete(self, handle: Handle) -> None:
        self.call(codec.on_handle(codec.DELETE, handle.content), handle=handle)

    def close_handle(self, handle: Handle) -> None:
        self.call(codec.on_handle(codec.CLOSE, handle.content))

    def acquire(self, handle: Handle, shared: bool = False, wait: bool = True) -> None:
        """Gets the node's lock; without `wait` it is refused where it can't be had at once."""
        kind = codec.ACQUIRE if wait else codec.TRY_ACQUIRE
        self.call(codec.on_handle(kind, handle.content, bytes([int(shared)])), handle=handle)

    def release(self, handle: Handle) -> None:
        self.call(codec.on_handle(codec.RELEASE, handle.content), handle=handle)

    def sequencer(self, handle: Handle) -> bytes:
        """Bytes by which another program can test that the lock is still held."""
        return self.call(codec.on_handle(codec.GET_SEQUENCER, handle.content), True, handle)

    def fencing_number(self, handle: Handle) -> int:
        """A number of up to 128 bits that rises from one holder of the node's name to the next, also where the node was deleted and made
        again. Who keeps the greatest that it has seen, and refuses a smaller one, is written to by no holder of before."""
        return codec.fencing_number(self.sequencer(handle))

    def set_sequencer(self, handle: Handle, sequencer: bytes) -> None:
        """The handle's later calls stand under this sequencer, and the cache answers none of them."""
        self.refuse(BAD_SEQUENCER, len(sequencer) > codec.SEQUENCER_LIMIT, NO_SEQUENCER)
        self.call(codec.on_handle(codec.SET_SEQUENCER, handle.content), handle=handle, sequencer=sequencer)
        handle.sequencer = sequencer

    def check_sequencer(self, sequencer: bytes) -> None:
        """Refused as SequencerStale where it isn't valid any more."""
        self.refuse(BAD_SEQUENCER, len(sequencer) > codec.SEQUENCER_LIMIT, NO_SEQUENCER)
        try:
            self.call(bytes([codec.CHECK_SEQUENCER]) + codec.sized(sequencer), True)
        except Refused as why:
            raise Refused(why.refusal, why.limit, NO_SEQUENCER if why.refusal.number == BAD_SEQUENCER else None) from None
