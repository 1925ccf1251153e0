#!/usr/bin/env python3
"""Does with the client in Python what play says, as its text has it. Usage: PYTHONPATH=hosts/python python3 hosts/conformance/driver.py"""

import os
import sys
import threading

from tillermoss import Client, Refused


class Driver:
    def __init__(self):
        self.client, self.handles = None, {}
        self.saying = threading.Lock()

    def run(self) -> None:
        for line in sys.stdin:
            label, kind, *words = line.split()
            threading.Thread(target=self.do, args=(label, kind, words), daemon=True).start()

    def do(self, label: str, kind: str, words: list) -> None:
        said = self.said(kind, words)
        with self.saying:
            print(label, said, flush=True)

    def said(self, kind: str, words: list) -> str:
        try:
            return getattr(self, f"do_{kind}")(*words)
        except Refused as why:
            return f"refused {why.refusal.number}"
        except Exception as why:  # (whatever else it is, nothing was answered)
            return f"closed {type(why).__name__}"

    def do_connect(self, address: str, patience: str) -> str:
        self.client = Client(address, "ann", patience=int(patience) / 1000)
        return "connected"

    def do_open(self, handle: str, name: str) -> str:
        self.handles[handle] = self.client.open(name, "rw")
        return f"opened {self.handles[handle].instance}"

    def do_read(self, handle: str) -> str:
        view = self.client.read(self.handles[handle])
        return f"view {view.content.hex()} {'cache' if self.handles[handle].served else 'master'}"

    def do_set(self, handle: str, content: str) -> str:
        self.client.set(self.handles[handle], bytes.fromhex(content))
        return "done"

    def do_event(self) -> str:
        return f"event {self.client.events.get().kind}"

    def do_leave(self) -> str:
        self.client.close()
        return "left"

    def do_fork(self, handle: str) -> str:
        ours, theirs = os.pipe()
        child = os.fork()
        if child == 0:
            os.write(theirs, self.said("read", [handle]).encode())
            os._exit(0)
        os.close(theirs)
        said = os.read(ours, 4096).decode()
        os.waitpid(child, 0)
        return said


if __name__ == "__main__":
    Driver().run()
