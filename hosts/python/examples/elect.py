#!/usr/bin/env python3
"""Stands for primary: waits for the lock of a file, writes into it who it is, and does its work as long as its session lives.

Usage: PYTHONPATH=hosts/python python3 hosts/python/examples/elect.py SERVER NAME OWN_NAME
"""

import sys

from tillermoss import Client


def main(server: str, name: str, own_name: str) -> None:
    with Client(server, "ann") as client:
        file = client.open(name, "rw", make=b"")
        client.acquire(file)
        # Whoever gets this along with a request asks the cell whether it still holds: check_sequencer. Who can only compare numbers
        # takes client.fencing_number(file), which is greater with each primary.
        sequencer = client.sequencer(file)
        client.set(file, own_name.encode())
        print(f"{own_name} is primary, by {sequencer.hex()}", flush=True)
        try:
            serve(client, own_name)
        except KeyboardInterrupt:
            print(f"{own_name} stands down", flush=True)
            client.release(file)


def serve(client: Client, own_name: str) -> None:
    """Does the work, until it isn't certain any more that this is the primary."""
    while True:
        event = client.events.get()
        if event.kind in ("jeopardy", "lost"):
            print(f"{own_name} stops: {event.kind}", flush=True)
            return
        if event.kind == "failover":
            print(f"{own_name} goes on under another master", flush=True)


if __name__ == "__main__":
    main(*sys.argv[1:])
