"""The bytes that all clients share, hosts/conformance/vectors.txt: what is sent is these, and what comes is read so."""

import unittest
from pathlib import Path

from tillermoss import Event, Malformed, NodeStat, Refusal, View, codec

VECTORS = Path(__file__).resolve().parents[2] / "conformance" / "vectors.txt"


def vectors(*kinds: str) -> list:
    rows = [[part.strip() for part in line.split("|")] for line in VECTORS.read_text().splitlines() if line and line[0] != "#"]
    return [(words.split(), bytes.fromhex(block)) for kind, words, block in rows if kind in kinds]


def plain(word: str) -> bytes:
    return b"" if word == "-" else bytes.fromhex(word)


def some(word: str, read=int):
    return None if word == "none" else read(word)


class Words:
    """Takes words from the left."""

    def __init__(self, words: list):
        self.left = list(words)

    def next(self, *names: str) -> str:
        """The word after these."""
        for name in names:
            found = self.left.pop(0)
            assert found == name, (found, name)
        return self.left.pop(0)


def body(words: Words) -> bytes:
    """The bytes of a call."""
    kind = words.next()
    lock = {"Acquire": codec.ACQUIRE, "TryAcquire": codec.TRY_ACQUIRE}
    alone = {"Close": codec.CLOSE, "Read": codec.READ, "Stat": codec.STAT, "List": codec.LIST, "Delete": codec.DELETE,
             "Release": codec.RELEASE, "GetSequencer": codec.GET_SEQUENCER, "SetSequencer": codec.SET_SEQUENCER}
    if kind == "Open":
        name, mode = words.next(), int(words.next("mode"))
        made = create(words, words.next("create"))
        return codec.opening(name, mode, made, int(words.next("lock-delay")), int(words.next("events")))
    if kind == "Leave":
        return bytes([codec.LEAVE])
    if kind == "CheckSequencer":
        return bytes([codec.CHECK_SEQUENCER]) + codec.sized(plain(words.next()))
    handle = plain(words.next())
    if kind in lock:
        return codec.on_handle(lock[kind], handle, bytes([("x", "s").index(words.next())]))
    if kind == "Set":
        content, generation = plain(words.next("content")), some(words.next("generation"), lambda word: codec.word(int(word)))
        return codec.on_handle(codec.SET, handle, codec.sized(content) + codec.optional(generation))
    return codec.on_handle(alone[kind], handle)


def create(words: Words, must: str):
    if must == "none":
        return None
    content = plain(words.next()) if words.next() == "file" else None
    life, acls = words.next(), words.next("acls")
    names = None if acls == "none" else (acls, words.next(), words.next())
    return codec.create(content, must == "must", life == "ephemeral", names)


def request(words: Words) -> bytes:
    kind, client = words.next(), int(words.next("client"))
    if kind == "Start":
        return codec.start(client, int(words.next("number")), words.next("principal"))
    epoch, number = int(words.next("epoch")), int(words.next("number"))
    if kind == "Beat":
        return codec.beat(client, epoch, number, int(words.next("invalidations")), int(words.next("events")))
    call = body(words)
    return codec.call(client, epoch, number, call, some(words.next("sequencer"), plain))


def life(is_ephemeral: bool) -> str:
    return "ephemeral" if is_ephemeral else "permanent"


def shown(content: bytes) -> str:
    return content.hex() or "-"


def told(event: Event) -> str:
    return " ".join(str(part) for part in (event.kind, event.opened, event.instance, event.generation, event.name) if part is not None)


def result(found: object) -> str:
    if isinstance(found, codec.Opened):
        return f"opened {shown(found.handle)} instance {found.instance} {life(found.is_ephemeral)}"
    if isinstance(found, View):
        numbers = f"{found.instance} {found.content_generation} {found.acl_generation}"
        kind = "dir" if found.is_directory else "file"
        text = f"view {kind} {numbers} {' '.join(found.acls)} {life(found.is_ephemeral)} content {shown(found.content)} children"
        return " ".join((text, *found.children))
    if isinstance(found, NodeStat):
        numbers = f"{found.instance} {found.content_generation} {found.acl_generation} {found.lock_generation}"
        kind = "dir" if found.is_directory else "file"
        return f"stat {kind} {numbers} {' '.join(found.acls)} {life(found.is_ephemeral)} length {found.length}"
    if isinstance(found, Refusal):
        return f"refused {found.number} {found}"
    return "done" if found is None else f"sequencer {shown(found)}"


def message(found: codec.Message) -> str:
    if found.kind == codec.NOTICE:
        return f"Notice number {found.number} text {found.text or '-'}"
    head = f"client {found.client} epoch {found.epoch} number {found.number}"
    if found.kind == codec.STARTED:
        return f"Started {head} span {found.span}"
    if found.kind == codec.REFUSED:
        return f"Refused {head} {found.result.number} {found.result}"
    if found.kind == codec.REPLY:
        return f"Reply {head} stamp {'none' if found.stamp is None else found.stamp} {result(found.result)}"
    parts = ["Alive", head, f"span {found.span} invalidations", *(f"{number} {name}" for number, name in found.invalidations)]
    return " ".join([*parts, "events", *(f"{number} {told(event)}" for number, event in found.events)])


class Vectors(unittest.TestCase):
    def test_requests(self):
        rows = vectors("request")
        self.assertGreater(len(rows), 20)
        for words, block in rows:
            self.assertEqual(request(Words(words)), block, words)

    def test_greetings(self):
        for words, block in vectors("greeting"):
            self.assertEqual(codec.hello(words[1], *map(int, words[3::2])), block, words)

    def test_welcomes(self):
        for words, block in vectors("welcome"):
            number, other, master = codec.read_welcome(block)
            found = f"client {number} token {other}" if number is not None else f"reason {other}"
            found += f" master {master or '-'}" if other == codec.NOT_MASTER and number is None else ""
            self.assertEqual(found.split(), words)

    def test_messages(self):
        rows = vectors("message")
        self.assertGreater(len(rows), 20)
        for words, block in rows:
            self.assertEqual(message(codec.read_message(block)).split(), words)

    def test_messages_that_are_cut(self):
        for words, block in vectors("message"):
            for length in range(len(block)):
                # (the text of a notice ends with its block)
                if words[0] != "Notice" or length < 10:
                    with self.assertRaises(Malformed, msg=(words, length)):
                        codec.read_message(block[:length])

    def test_no_messages(self):
        for words, block in vectors("wrong"):
            with self.assertRaises(Malformed, msg=words):
                codec.read_message(block)


if __name__ == "__main__":
    unittest.main()
