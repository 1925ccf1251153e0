"""The bytes that the client sends are those of the pages; and each message of a master is read."""

import re
import unittest
from pathlib import Path

from tillermoss import Event, Malformed, NodeStat, Refusal, View, codec

DOCS = Path(__file__).resolve().parents[3] / "docs"


def blocks_to_server(page: str) -> list:
    """The blocks that a page shows after `to`, without their lengths, which are compared with them."""
    lines = (DOCS / page).read_text().splitlines()
    found = []
    for at, line in enumerate(lines):
        if not line.startswith("    to    "):
            continue
        parts = [line[10:]]
        for more in lines[at + 1 :]:
            if not more.startswith(" " * 14):
                break
            parts.append(more.strip())
        # (what stands after two spaces is said of the bytes)
        parts = [re.split(r" {2,}", part)[0] for part in parts]
        block = "".join(part for part in parts if re.fullmatch(r"[0-9a-f ]+", part))
        block = bytes.fromhex(block.replace(" ", ""))
        assert int.from_bytes(block[:4], "big") == len(block) - 4, line
        found.append(block[4:])
    return found


class Sent(unittest.TestCase):
    def test_the_connection_of_the_page(self):
        made = codec.create(b"hi", must=False, is_ephemeral=False, acls=None)
        wanted = [
            codec.hello("ann"),
            codec.start(1, 1, "ann"),
            codec.beat(1, 1, 2, 0, 0),
            codec.call(1, 1, 1, codec.opening("/ls/c/f", 3, made, 0, 0), None),
            codec.call(1, 1, 2, bytes([codec.LEAVE]), None),
        ]
        self.assertEqual(blocks_to_server("PROTOCOL.md"), wanted)

    def test_the_start_of_the_formats(self):
        frame = blocks_to_server("FORMATS.md")[1]
        self.assertEqual(frame[10:], codec.start(1, 1, "ann"))

    def test_what_may_be_made(self):
        rows = [
            ((b"", True, False, None), "01 00 00000000 00 00"),
            ((None, False, True, None), "00 01 01 00"),
            ((None, False, False, ("a", "b", "c")), "00 01 00 01 00000001 61 00000001 62 00000001 63"),
        ]
        for arguments, wanted in rows:
            self.assertEqual(codec.create(*arguments), bytes.fromhex(wanted), arguments)


HEAD = "0000000000000001 0000000000000002 0000000000000003"
VIEW = "00 0000000000000004 0000000000000005 0000000000000006 00000001 61 00000001 62 00000001 63 01 00000002 6869 00000000"
ROWS = [
    (f"02 00 {HEAD} 0000000000002ee0", {"kind": codec.STARTED, "span": 12_000}),
    (
        f"02 01 {HEAD} 0000000000000007 00000001 0000000000000008 00000002 2f61 00000002 0000000000000001 00"
        " 0000000000000002 01 0000000000000009 0000000000000004 0000000000000005",
        {
            "kind": codec.ALIVE,
            "span": 7,
            "invalidations": [(8, "/a")],
            "events": [(1, Event("failover")), (2, Event("contents", 9, 4, 5))],
        },
    ),
    (f"02 02 {HEAD} 00 00 00000003 616263 0000000000000004 01", {"kind": codec.REPLY, "result": codec.Opened(b"abc", 4, True)}),
    (
        f"02 02 {HEAD} 01 0000000000000008 02 {VIEW}",
        {"kind": codec.REPLY, "stamp": 8, "result": View(False, 4, 5, 6, ("a", "b", "c"), True, b"hi", ())},
    ),
    (
        f"02 02 {HEAD} 00 03 01 0000000000000004 0000000000000005 0000000000000006 0000000000000007 00000001 61 00000001 62"
        " 00000001 63 00 0000000000000000",
        {"kind": codec.REPLY, "result": NodeStat(True, 4, 5, 6, 7, ("a", "b", "c"), False, 0)},
    ),
    (f"02 02 {HEAD} 00 05 00000001 ff", {"kind": codec.REPLY, "result": b"\xff"}),
    (f"02 02 {HEAD} 00 06", {"kind": codec.REPLY}),
    (f"02 02 {HEAD} 00 07 09 02", {"kind": codec.REPLY, "result": Refusal(10, "change")}),
    (f"02 03 {HEAD} 1b 0000000000000009", {"kind": codec.REFUSED, "result": Refusal(28, 9)}),
]


class Read(unittest.TestCase):
    def test_the_fencing_number_of_a_sequencer(self):
        sequencer = bytes.fromhex("01010000000000000004000000000000000100072f6c732f632f66")
        self.assertEqual(codec.fencing_number(sequencer), (4 << 64) + 1)
        for wrong in (b"", sequencer[:-1], sequencer + b"f", b"\2" + sequencer[1:]):
            with self.assertRaises(codec.Malformed):
                codec.fencing_number(wrong)

    def test_messages(self):
        for block, fields in ROWS:
            wanted = codec.Message(**{"client": 1, "epoch": 2, "number": 3, **fields})
            self.assertEqual(codec.read_message(bytes.fromhex(block)), wanted, block)

    def test_cut_or_followed_by_more(self):
        for block, _ in ROWS:
            block = bytes.fromhex(block)
            for wrong in [block[:-1], block + b"\0", b"\1" + block[1:], block[:1] + b"\5" + block[2:]]:
                with self.assertRaises(Malformed, msg=wrong.hex()):
                    codec.read_message(wrong)

    def test_notices(self):
        found = codec.read_message(b"\2\4\0\0\0\0\0\0\1\2no room")
        self.assertEqual((found.kind, found.number, found.text), (codec.NOTICE, 258, "no room"))

    def test_welcomes(self):
        rows = [
            ("01 00 0000000000000007 0000000000000009", (7, 9, "")),
            ("01 01 04", (None, 4, "")),
            ("01 01 07 00000007 7463703a683a37", (None, 7, "tcp:h:7")),
            ("01 01 07 00000000", (None, 7, "")),
        ]
        for block, wanted in rows:
            self.assertEqual(codec.read_welcome(bytes.fromhex(block)), wanted)


if __name__ == "__main__":
    unittest.main()
