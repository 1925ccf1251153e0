"""What a client knows of its session, its lease and its cache: the rules of docs/PROTOCOL.md, without a thread, a clock or a socket."""

from dataclasses import dataclass
from typing import Optional

from . import codec
from .codec import Event, Refusal, View

GRACE = 45_000
CACHE_LIMIT = 4096
NOT_FOUND, NO_SESSION, OLD_EPOCH, EXPIRED, UNKNOWN = 6, 19, 28, 31, 34


@dataclass
class Waiting:
    """The one call that has no reply yet."""

    number: int
    block: bytes
    name: Optional[str]
    teaches_absence: bool = False
    limit: Optional[str] = None
    ends: Optional[tuple] = None


def leased_until(lease: tuple) -> int:
    """The first moment at which a lease runs no more: by the rule that 17 * (now - sent + 1) is below 16 * span."""
    sent, span = lease
    return sent + max((16 * span + 16) // 17 - 1, 0)


class Session:
    """What a client knows: its session, lease and cache. It has no thread and no connection; each moment is handed to it."""

    def __init__(self, client: int, principal: str):
        self.client, self.principal = client, principal
        self.state, self.epoch = "unstarted", 0
        self.beats, self.sent, self.calls = 0, 0, 0
        self.processed, self.heard = 0, 0
        self.lease, self.jeopardy = (0, 0), None
        self.enabled, self.cache = False, {}
        self.leaving = False
        self.waiting: Optional[Waiting] = None

    def note(self, moment: int) -> list:
        """Looks at the lease: what has ended with it is let go of before anything else is done. Gives what is to be told."""
        if self.state != "live" or moment < leased_until(self.lease):
            return []
        self.cache.clear()
        self.enabled = False
        if self.jeopardy is None:
            self.jeopardy = moment
            return [Event("jeopardy")]
        return self.lose("lost") if moment - self.jeopardy >= GRACE else []

    def lose(self, state: str) -> list:
        self.state = state
        self.cache.clear()
        self.enabled = False
        self.end((Refusal(EXPIRED), None))
        return [Event("lost")]

    def end(self, ends: tuple) -> None:
        if self.waiting is not None:
            self.waiting.ends = ends
            self.waiting = None

    def beat(self, moment: int) -> Optional[bytes]:
        """A Start until there is a session, then a Beat, which acknowledges all that was processed."""
        if self.state not in ("unstarted", "live"):
            return None
        self.beats += 1
        self.sent = moment
        if self.state == "unstarted":
            return codec.start(self.client, self.beats, self.principal)
        return codec.beat(self.client, self.epoch, self.beats, self.processed, self.heard)

    def cached(self, moment: int, name: str) -> tuple:
        """Whether the cache answers for this name, and what: a view, or None where it isn't there."""
        is_served = self.enabled and moment < leased_until(self.lease) and name in self.cache
        return is_served, self.cache.get(name)

    def ask(self, body: bytes, name: Optional[str], sequencer: Optional[bytes], teaches_absence: bool) -> Waiting:
        self.calls += 1
        block = codec.call(self.client, self.epoch, self.calls, body, sequencer)
        self.waiting = Waiting(self.calls, block, name, teaches_absence)
        return self.waiting

    def leave(self) -> Waiting:
        """Asks for the end of the session. Before that goes out the cache is emptied and turned off, for good; nothing else is asked,
        and a call that waits is given up."""
        self.leaving, self.enabled = True, False
        self.cache.clear()
        self.end((Refusal(NO_SESSION), None))
        return self.ask(bytes([codec.LEAVE]), None, None, False)

    def give(self, moment: int, message: codec.Message) -> list:
        """Takes a message of a master; gives the events that it tells of."""
        told = self.note(moment)
        if message.client != self.client:
            return told
        takes = {codec.STARTED: self.started, codec.ALIVE: self.alive, codec.REPLY: self.replied, codec.REFUSED: self.refused}
        return told + takes[message.kind](moment, message)

    def started(self, moment: int, message: codec.Message) -> list:
        if self.state == "unstarted" and message.number == self.beats:
            self.state, self.epoch = "live", message.epoch
            self.take_lease(moment, (self.sent, message.span))
        return []

    def take_lease(self, moment: int, lease: tuple) -> bool:
        """Whether it runs."""
        self.lease = lease
        runs = moment < leased_until(lease)
        self.enabled = runs and not self.leaving
        if not self.enabled:
            self.cache.clear()
        return runs

    def alive(self, moment: int, message: codec.Message) -> list:
        if self.state != "live" or message.epoch != self.epoch:
            return []
        for number, name in message.invalidations:
            if number > self.processed:
                self.cache.pop(name, None)
                self.processed = number
        told = [event for number, event in message.events if number > self.heard]
        self.heard = max([self.heard] + [number for number, _ in message.events])
        offer = (self.sent, message.span)
        is_better = 17 * offer[0] + 16 * offer[1] > 17 * self.lease[0] + 16 * self.lease[1]
        if message.number == self.beats and is_better and self.take_lease(moment, offer) and self.jeopardy is not None:
            self.jeopardy = None
            told.append(Event("safe"))
        return told

    def replied(self, moment: int, message: codec.Message) -> list:
        call = self.waiting
        if self.state != "live" or message.epoch != self.epoch or call is None or message.number != call.number:
            return []
        if message.stamp is not None and self.processed <= message.stamp and self.enabled and self.jeopardy is None:
            self.learn(call, message.result)
        if self.leaving and message.result is None:
            self.state = "left"
        self.end((message.result, call.limit))
        return []

    def learn(self, call: Waiting, result: object) -> None:
        is_absent = call.teaches_absence and isinstance(result, Refusal) and result.number == NOT_FOUND
        if call.name is None or not (isinstance(result, View) or is_absent):
            return
        self.cache.pop(call.name, None)
        while len(self.cache) >= CACHE_LIMIT:
            del self.cache[next(iter(self.cache))]
        self.cache[call.name] = None if is_absent else result

    def refused(self, moment: int, message: codec.Message) -> list:
        why = message.result
        if why.number == NO_SESSION and self.state == "unstarted":
            return self.lose("turned away")
        if why.number == NO_SESSION and self.state == "live" and self.epoch <= message.epoch:
            return self.lose("lost")
        if why.number == OLD_EPOCH and self.state == "live" and self.epoch <= message.epoch and self.epoch < why.argument:
            self.epoch, self.processed, self.heard = why.argument, 0, 0
            self.cache.clear()
            self.end((Refusal(UNKNOWN), None))
        return []
