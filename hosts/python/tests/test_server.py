"""The client beside a real server: TILLERMOSSD and CELLCTL name the two programs."""

import getpass
import os
import signal
import socket
import subprocess
import sys
import tempfile
import threading
import time
import unittest
from pathlib import Path

from tillermoss import Client, Handle, Refused, TurnedAway

NAME = "/ls/c/f"


class Server:
    """A server over a store of its own, which can go and come again at the same port."""

    def __init__(self):
        self.folder = tempfile.TemporaryDirectory()
        self.port = "0"
        self.start()

    def start(self) -> None:
        folder = Path(self.folder.name)
        words = [os.environ["TILLERMOSSD"], self.port, f"unix:{folder}/cell", "--store", folder / "store.db", "--master", os.environ["CELLCTL"]]
        with open(folder / "log", "a") as log:
            self.child = subprocess.Popen(words, stdout=subprocess.PIPE, stderr=log, text=True)
        self.address = self.child.stdout.readline().split()[1].removeprefix("tcp:")
        self.socket = self.child.stdout.readline().split()[1]
        self.port = self.address.rpartition(":")[2]

    def stop(self, how: int = signal.SIGTERM) -> None:
        self.child.send_signal(how)
        self.child.wait(30)
        self.child.stdout.close()


class WithServer(unittest.TestCase):
    @classmethod
    def setUpClass(cls):
        cls.server = Server()

    @classmethod
    def tearDownClass(cls):
        cls.server.stop()
        cls.server.folder.cleanup()

    def client(self, principal: str = "ann") -> Client:
        client = Client(self.server.address, principal)
        self.addCleanup(client.close)
        return client

    def set_again(self, client: Client, file: Handle, content: bytes) -> None:
        """Sets a content, once more where it isn't known whether that was done."""
        try:
            client.set(file, content)
        except Refused as why:
            self.assertEqual(why.refusal.name, "Unknown")
            client.set(file, content)

    def refusal(self, call, *words) -> str:
        with self.assertRaises(Refused) as found:
            call(*words)
        return found.exception.refusal.name


class Files(WithServer):
    def test_a_file_from_its_making_to_its_end(self):
        client = self.client()
        name = "/ls/c/all"
        self.assertEqual(self.refusal(client.open, name), "NotFound")
        file = client.open(name, "rw", make=b"one", must=True)
        self.assertEqual((client.read(file).content, file.served), (b"one", False))
        self.assertEqual((client.read(file).content, file.served), (b"one", True))
        client.set(file, b"two", generation=1)
        self.assertEqual(client.read(file).content, b"two")
        self.assertEqual(self.refusal(client.set, file, b"three", 1), "WrongGeneration")
        stat = client.stat(file)
        self.assertEqual((stat.length, stat.content_generation, stat.is_directory), (3, 2, False))
        client.delete(file)
        self.assertEqual(self.refusal(client.read, file), "StaleInstance")

    def test_directories(self):
        client = self.client()
        directory = client.open("/ls/c/d", directory=True)
        for name in ("b", "a"):
            client.open(f"/ls/c/d/{name}", "rw", make=b"")
        self.assertEqual((client.list(directory), directory.served), (("a", "b"), False))
        self.assertEqual((client.list(directory), directory.served), (("a", "b"), True))

    def test_what_is_made(self):
        client = self.client()
        rows = [("file", {"make": b""}, (False, False)), ("here", {"make": b"", "ephemeral": True}, (False, True)), ("dir", {"directory": True}, (True, False))]
        for name, made, wanted in rows:
            stat = client.stat(client.open(f"/ls/c/{name}", "rw", must=True, acls=("base",) * 3, delay=1000, **made))
            self.assertEqual((stat.is_directory, stat.is_ephemeral, stat.acls), (*wanted, ("base",) * 3), name)

    def test_many_bytes(self):
        client = self.client()
        content = bytes(range(256)) * 1024
        file = client.open("/ls/c/large", "rw", make=content)
        self.assertEqual(client.read(file).content, content)
        self.assertEqual(self.refusal(client.set, file, content + b"x"), "TooLarge")


class Coherence(WithServer):
    def test_a_cache_never_shows_what_a_write_has_replaced(self):
        writer, readers = self.client(), [self.client("bob") for _ in range(3)]
        file = writer.open("/ls/c/count", "rw", make=b"0")
        written, stale, served = [0], [], [0]

        def read(client: Client) -> None:
            handle = client.open("/ls/c/count")
            while written[0] < 40:
                least = written[0]
                found = int(client.read(handle).content)
                served[0] += handle.served
                if found < least:
                    stale.append((least, found))

        threads = [threading.Thread(target=read, args=(client,)) for client in readers]
        for thread in threads:
            thread.start()
        for number in range(1, 41):
            writer.set(file, str(number).encode())
            written[0] = number
            time.sleep(0.01)
        for thread in threads:
            thread.join()
        self.assertEqual(stale, [])
        self.assertGreater(served[0], 0)

    def test_a_client_that_is_closed_holds_up_no_write(self):
        writer, reader = self.client(), self.client("bob")
        file = writer.open("/ls/c/left", "rw", make=b"a")
        reader.read(reader.open("/ls/c/left"))
        reader.close()
        begun = time.monotonic()
        writer.set(file, b"b")
        self.assertLess(time.monotonic() - begun, 2)


class Leaving(WithServer):
    def test_what_a_client_that_is_closed_has_is_free_at_once(self):
        first, second = self.client(), self.client("bob")
        first.acquire(first.open("/ls/c/kept", "rw", make=b"", delay=60_000))
        wanted = second.open("/ls/c/kept", "rw")
        waiter = threading.Thread(target=second.acquire, args=(wanted,))
        waiter.start()
        time.sleep(0.2)
        self.assertTrue(waiter.is_alive())
        first.close()
        waiter.join(2)
        self.assertFalse(waiter.is_alive())
        with self.assertRaises(ConnectionError):
            first.open("/ls/c/kept")

    def test_a_close_gives_up_what_another_thread_waits_for(self):
        first, second, third = self.client(), self.client("bob"), self.client()
        held, wanted = first.open("/ls/c/awaited", "rw", make=b""), second.open("/ls/c/awaited", "rw")
        first.acquire(held)
        refused = []
        waiter = threading.Thread(target=lambda: refused.append(self.refusal(second.acquire, wanted)))
        waiter.start()
        time.sleep(0.2)
        self.assertTrue(waiter.is_alive())
        second.close()
        waiter.join(5)
        self.assertEqual(refused, ["NoSession"])
        # (the lock isn't kept for it)
        first.release(held)
        third.acquire(third.open("/ls/c/awaited", "rw"), wait=False)


class Forks(WithServer):
    def said_by_a_child(self, deed) -> str:
        """What this gives in a child process, which ends after it."""
        reading, writing = os.pipe()
        child = os.fork()
        if child == 0:
            signal.alarm(10)
            try:
                os.write(writing, deed().encode())
            finally:
                os._exit(0)
        os.close(writing)
        with os.fdopen(reading) as said:
            found = said.read()
        self.assertEqual(os.waitpid(child, 0)[1], 0)
        return found

    def test_a_client_is_void_in_a_child(self):
        client = self.client()
        file = client.open("/ls/c/forked", "rw", make=b"old")
        client.read(file)
        self.assertEqual((client.read(file).content, file.served), (b"old", True))

        def read_and_close() -> str:
            try:
                return client.read(file).content.decode()
            except ConnectionError as why:
                return str(why)
            finally:
                client.close()

        with client.changed:  # (another thread may hold it at the fork)
            said = self.said_by_a_child(read_and_close)
        self.assertEqual(said, "the client is that of the process before the fork: connect anew")
        client.set(file, b"new")
        self.assertEqual(client.read(file).content, b"new")
        kinds = [client.events.get_nowait().kind for _ in range(client.events.qsize())]
        self.assertEqual((client.session.state, kinds), ("live", []))

    def test_a_child_may_connect_anew(self):
        self.client().open("/ls/c/before", "rw", make=b"told")

        def read() -> str:
            with Client(self.server.address, "ann") as client:
                return client.read(client.open("/ls/c/before")).content.decode()

        self.assertEqual(self.said_by_a_child(read), "told")


class Restarts(WithServer):
    def test_a_server_waits_for_no_client_that_left(self):
        Client(self.server.address, "ann").close()
        self.server.stop()
        begun = time.monotonic()
        self.server.start()
        self.client().open(NAME, "rw", make=b"")
        # (for one that didn't leave it waits a minute)
        self.assertLess(time.monotonic() - begun, 20)

    def test_a_client_that_nobody_answers_is_closed_all_the_same(self):
        client = self.client()
        self.server.stop(signal.SIGKILL)
        begun = time.monotonic()
        client.close()
        self.assertLess(time.monotonic() - begun, 5)
        self.server.start()


class NotSent(WithServer):
    def test_what_no_server_takes_is_refused_at_once(self):
        client, large = self.client(), bytes(1 << 20)
        file = client.open("/ls/c/f", "rw", make=b"first")
        begun = time.monotonic()
        for name in ("f", "/ls/c/F", "/ls/c/", "/ls/c/\u00e9", "/ls/c/f\n", "/ls/" + "/".join(["a" * 60] * 9)):
            self.assertEqual(self.refusal(client.open, name), "BadName")
        self.assertEqual(self.refusal(client.open, "/ls/c/g", "r", None, True, False, False, ("a", "B", "c")), "BadName")
        self.assertEqual(self.refusal(client.open, "/ls/c/g", "r", large), "TooLarge")
        self.assertEqual(self.refusal(client.set, file, large), "TooLarge")
        self.assertEqual(self.refusal(client.check_sequencer, large), "BadSequencer")
        self.assertEqual(self.refusal(client.set_sequencer, file, large), "BadSequencer")
        self.assertLess(time.monotonic() - begun, 2)
        self.assertEqual(client.read(file).content, b"first")
        client.set(file, bytes(262_144))


class Locks(WithServer):
    def test_one_holder_and_one_who_waits(self):
        first, second = self.client(), self.client("bob")
        file = first.open("/ls/c/lock", "rw", make=b"")
        other = second.open("/ls/c/lock", "rw")
        first.acquire(file)
        self.assertEqual(self.refusal(second.acquire, other, False, False), "Held")
        sequencer = first.sequencer(file)
        second.check_sequencer(sequencer)
        waiter = threading.Thread(target=second.acquire, args=(other,))
        waiter.start()
        time.sleep(0.2)
        self.assertTrue(waiter.is_alive())
        first.release(file)
        waiter.join(10)
        self.assertFalse(waiter.is_alive())
        self.assertEqual(self.refusal(first.check_sequencer, sequencer), "SequencerStale")
        first.set_sequencer(file, second.sequencer(other))
        first.set(file, b"under a sequencer")
        second.release(other)
        self.assertEqual(self.refusal(first.set, file, b"late"), "SequencerStale")

    def test_each_holder_has_a_greater_number(self):
        client, numbers = self.client(), []
        for deletes in (False, True, False, False):
            file = client.open("/ls/c/fenced", "rw", make=b"")
            client.acquire(file)
            numbers.append(client.fencing_number(file))
            if deletes:
                client.delete(file)
            else:
                client.release(file)
        self.assertEqual([number % (1 << 64) for number in numbers], [1, 2, 1, 2])
        self.assertEqual(numbers, sorted(set(numbers)))


class Examples(WithServer):
    def run_example(self, name: str, *words: str) -> subprocess.Popen:
        program = Path(__file__).parents[1] / "examples" / name
        # (what a shell starts beside itself ignores SIGINT, and so would the example)
        heeding = ["env", "--default-signal=INT", sys.executable]
        return subprocess.Popen([*heeding, program, self.server.address, *words], stdout=subprocess.PIPE, text=True)

    def test_a_primary_and_the_next_one(self):
        name = "/ls/c/primary"
        first = self.run_example("elect.py", name, "alpha")
        self.assertRegex(first.stdout.readline(), "^alpha is primary, by [0-9a-f]{60,}\n$")
        second = self.run_example("elect.py", name, "beta")
        client = self.client()
        self.assertEqual(client.read(client.open(name)).content, b"alpha")
        first.send_signal(signal.SIGINT)
        self.assertEqual(first.stdout.readline(), "alpha stands down\n")
        self.assertRegex(second.stdout.readline(), "^beta is primary")
        self.assertEqual(client.read(client.open(name)).content, b"beta")
        second.kill()
        for program in (first, second):
            program.wait()
            program.stdout.close()

    def test_a_configuration_that_changes(self):
        client = self.client()
        file = client.open("/ls/c/configuration", "rw", make=b"one")
        program = self.run_example("configuration.py", "/ls/c/configuration", "300")
        self.assertEqual(program.stdout.readline(), "configured: one\n")
        client.set(file, b"two")
        self.assertEqual(program.stdout.readline(), "configured: two\n")
        last = program.stdout.readline()
        program.wait(60)
        program.stdout.close()
        self.assertRegex(last, "^300 reads, 29[0-8] of them out of the cache\n$")


class Connections(WithServer):
    def test_a_lost_connection_is_made_again(self):
        client = self.client()
        file = client.open("/ls/c/cut", "rw", make=b"")
        client.connection.stream.shutdown(2)
        client.set(file, b"again")
        self.assertEqual(client.read(file).content, b"again")


class Told(WithServer):
    def test_events(self):
        client, other = self.client(), self.client("bob")
        client.open(NAME, "rw", make=b"")
        handle = client.open(NAME, events="ml")
        file = other.open(NAME, "rw")
        other.set(file, b"new")
        event = client.events.get(timeout=10)
        self.assertEqual((event.kind, event.opened, event.generation), ("contents", handle.opened, 2))
        other.acquire(file)
        self.assertEqual(client.events.get(timeout=10).kind, "locked")


class FailOvers(WithServer):
    def test_sessions_handles_and_locks_outlive_a_server(self):
        client, other = self.client(), self.client("bob")
        file = client.open(NAME, "rw", make=b"before")
        handle = other.open(NAME)
        client.acquire(file)
        other.read(handle)
        for how in (signal.SIGTERM, signal.SIGKILL):
            self.server.stop(how)
            self.server.start()
            self.set_again(client, file, str(how).encode())
            self.assertEqual(other.read(handle).content, str(how).encode())
            self.assertEqual(self.refusal(other.acquire, other.open(NAME, "w"), False, False), "Held")
        kinds = [client.events.get_nowait().kind for _ in range(client.events.qsize())]
        self.assertEqual(kinds, ["failover"] * 2)


class Standby(threading.Thread):
    """A server that isn't master, and says where the one is that is, so many times."""

    def __init__(self, master: str, times: int):
        super().__init__(daemon=True)
        self.master, self.times = master, times
        self.door = socket.create_server(("127.0.0.1", 0))
        self.address = f"127.0.0.1:{self.door.getsockname()[1]}"

    def run(self) -> None:
        for _ in range(self.times):
            stream, _ = self.door.accept()
            with stream:
                stream.recv(256)
                block = b"\1\1\7" + len(self.master).to_bytes(4, "big") + self.master.encode()
                stream.sendall(len(block).to_bytes(4, "big") + block)
        self.door.close()


class Several(WithServer):
    def test_a_client_goes_to_the_master(self):
        for told in (self.server.address, ""):
            standby = Standby(told, 1)
            standby.start()
            with Client(f"{standby.address},{self.server.address}", "ann") as client:
                self.assertEqual(client.list(client.open("/ls/c/acl")), ("base",))
            standby.join()


class Doors(WithServer):
    def test_a_socket_knows_who_comes(self):
        with Client(self.server.socket, getpass.getuser()) as client:
            self.assertEqual(self.refusal(client.open, "/ls/c/acl/base", "w"), "Denied")
        with self.assertRaises(TurnedAway):
            Client(self.server.socket, "somebody-else")


if __name__ == "__main__":
    unittest.main()
