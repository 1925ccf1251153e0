#!/usr/bin/env python3
"""Reads a configuration whenever it is needed: out of the cache, and yet always the one that the cell holds.

Usage: PYTHONPATH=hosts/python python3 hosts/python/examples/configuration.py SERVER NAME ROUNDS
"""

import sys
import time

from tillermoss import Client


def main(server: str, name: str, rounds: str) -> None:
    with Client(server, "ann") as client:
        file = client.open(name)
        shown = None
        served = 0
        for _ in range(int(rounds)):
            content = client.read(file).content.decode()
            served += file.served
            if content != shown:
                print(f"configured: {content}", flush=True)
                shown = content
            time.sleep(0.01)
        print(f"{rounds} reads, {served} of them out of the cache", flush=True)


if __name__ == "__main__":
    main(*sys.argv[1:])
