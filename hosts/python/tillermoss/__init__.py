"""A client of a Tillermoss cell, in Python alone: sessions, files, locks, events, and reads out of a cache.

    with Client("127.0.0.1:7171", "ann") as client:
        file = client.open("/ls/c/motd", "rw", make=b"hello")
        client.read(file)               # asks the master
        client.read(file)               # the cache answers

It is written from docs/PROTOCOL.md, and keeps each of its rules; nothing of it is proved. One call is under way at a time, so a
client that waits for a lock lets its other threads wait, but for reads that the cache answers.
"""

from .client import Client, Handle, Refused, TurnedAway
from .codec import Event, Malformed, NodeStat, Refusal, View

__all__ = ["Client", "Event", "Handle", "Malformed", "NodeStat", "Refusal", "Refused", "TurnedAway", "View"]
