"""What a client does of whom it meets: servers of these tests' own, which say what they are told to."""

import resource
import socket
import ssl
import subprocess
import tempfile
import threading
import time
import unittest
from pathlib import Path
from unittest import mock

from tillermoss import Client, Refused, TurnedAway, codec
from tillermoss.connection import Connection, is_followed

WELCOME = bytes([1, 0]) + codec.word(7) + codec.word(9)
WRONG_TOKEN = bytes([1, 1, 2])


def not_master(address: str = "") -> bytes:
    return bytes([1, 1, 7]) + codec.text(address)


class Server(threading.Thread):
    """A server that answers each greeting by the next of these, the last again and again. After a welcome it begins a session, answers
    each call by the next answer, or not at all, and keeps each Beat."""

    def __init__(self, greetings: list, answers: tuple = (), tls: ssl.SSLContext = None, span: int = 60_000):
        super().__init__(daemon=True)
        self.greetings, self.answers, self.tls, self.span = list(greetings), list(answers), tls, span
        self.door = socket.create_server(("127.0.0.1", 0))
        self.place = f"127.0.0.1:{self.door.getsockname()[1]}"
        self.hellos, self.streams = [], []
        self.start()

    def run(self) -> None:
        while True:
            try:
                stream, _ = self.door.accept()
            except OSError:
                return
            threading.Thread(target=self.serve, args=(stream,), daemon=True).start()

    def close(self) -> None:
        if self.door.fileno() >= 0:
            self.door.shutdown(socket.SHUT_RDWR)
            self.door.close()
        self.cut()

    def cut(self) -> None:
        """Ends the connections that there are."""
        while self.streams:
            stream = self.streams.pop()
            try:
                stream.shutdown(socket.SHUT_RDWR)
            except OSError:
                pass  # (its client has ended it)
            stream.close()

    def serve(self, stream: socket.socket) -> None:
        if self.tls:
            stream = self.tls.wrap_socket(stream, server_side=True)
        self.streams.append(stream)
        try:
            with stream.makefile("rb") as blocks:
                self.hellos.append(self.next(blocks))
                greeting = self.greetings.pop(0) if len(self.greetings) > 1 else self.greetings[0]
                stream.sendall(codec.sized(greeting))
                while greeting[1] == 0:
                    self.answer(stream, self.next(blocks))
        except (OSError, ValueError):
            pass  # (it was cut off)

    def next(self, blocks) -> bytes:
        length = int.from_bytes(blocks.read(4), "big")
        block = blocks.read(length)
        if not length or len(block) < length:
            raise OSError("the connection has ended")
        return block

    def answer(self, stream: socket.socket, block: bytes) -> None:
        client, number = block[2:10], block[18:26]
        if block[1] == codec.START:
            stream.sendall(codec.sized(bytes([2, codec.STARTED]) + client + codec.word(1) + block[10:18] + codec.word(self.span)))
        elif block[1] == codec.CALL and self.answers:
            stream.sendall(codec.sized(bytes([2, codec.REPLY]) + client + codec.word(1) + number + self.answers.pop(0)))


# (no stamp; a handle of one byte, an instance, and a permanent node)
OPENED = b"\0" + b"\0" + codec.sized(b"h") + codec.word(4) + b"\0"


class WithServers(unittest.TestCase):
    def server(self, *greetings, **words) -> Server:
        server = Server(list(greetings), **words)
        self.addCleanup(server.close)
        return server

    def client(self, *servers: Server, **words) -> Client:
        with mock.patch("tillermoss.client.PARTING", 0.1):
            client = Client(",".join(server.place for server in servers), "ann", patience=5.0, **words)
        self.addCleanup(self.part, client)
        return client

    def part(self, client: Client) -> None:
        with mock.patch("tillermoss.client.PARTING", 0.1):
            client.close()

    def wait_until(self, is_so) -> None:
        ends = time.monotonic() + 10
        while not is_so():
            self.assertLess(time.monotonic(), ends)
            time.sleep(0.01)


class WrongTokens(WithServers):
    def test_one_server_of_several_ends_no_session(self):
        """One that was replaced doesn't know the numbers that its successor gave."""
        replaced, master = self.server(WRONG_TOKEN), self.server(WELCOME)
        client = self.client(master, replaced)
        with client.changed:
            client.servers.sort(key=lambda server: server != replaced.place)
        master.cut()
        self.wait_until(lambda: len(master.hellos) == 2)
        self.assertEqual(master.hellos[1], codec.hello("ann", 7, 9))
        self.assertEqual((len(replaced.hellos), client.session.state, client.fault), (1, "live", None))

    def test_all_of_them_end_it(self):
        first, second = self.server(WELCOME, WRONG_TOKEN), self.server(WRONG_TOKEN)
        client = self.client(first, second)
        first.cut()
        self.wait_until(lambda: client.fault)
        self.assertIsInstance(client.fault, TurnedAway)
        self.assertGreaterEqual(len(second.hellos), 1)

    def test_the_master_ends_it_by_whom_the_others_call_so(self):
        second = self.server(not_master())
        first = self.server(WELCOME, WRONG_TOKEN)
        second.greetings = [not_master(first.place)]
        client = self.client(first, second)
        first.cut()
        self.wait_until(lambda: client.fault)
        self.assertIsInstance(client.fault, TurnedAway)

    def test_one_server_alone_ends_it(self):
        only = self.server(WELCOME, WRONG_TOKEN)
        client = self.client(only)
        only.cut()
        self.wait_until(lambda: client.fault)
        self.assertEqual((len(only.hellos), client.session.state), (2, "live"))
        with self.assertRaises(TurnedAway):
            client.open("/ls/c/f")


class Sent(WithServers):
    def test_a_client_of_one_server_that_stands_by_waits_for_a_master(self):
        gone = self.server(WELCOME)
        gone.close()
        server = self.server(not_master(gone.place), not_master(), WELCOME)
        client = self.client(server)
        self.assertEqual((client.session.state, len(server.hellos)), ("live", 3))


class Silence(WithServers):
    def test_a_server_that_answers_nothing_is_left_for_another(self):
        silent, master = self.server(WELCOME, span=1000), self.server(WELCOME)
        client = self.client(silent, master)
        self.wait_until(lambda: master.hellos)
        self.assertEqual((len(silent.hellos), master.hellos, client.session.state), (1, [codec.hello("ann", 7, 9)], "live"))

    def test_one_that_is_known_alone_is_not(self):
        only = self.server(WELCOME, span=1000)
        client = self.client(only)
        time.sleep(5)
        self.assertEqual((len(only.hellos), client.session.state), (1, "live"))
        self.assertEqual([client.events.get_nowait().kind], ["jeopardy"])


class Faults(WithServers):
    def test_a_thread_that_dies_ends_who_waits(self):
        for fault in (RuntimeError("a slip"), MemoryError(), SystemExit()):
            master = self.server(WELCOME)
            client, found = self.client(master), []

            def wait() -> None:
                try:
                    client.open("/ls/c/f")
                except Exception as why:  # (whatever it is)
                    found.append(why)

            waiter = threading.Thread(target=wait)
            waiter.start()
            self.wait_until(lambda: client.session.waiting)
            with client.changed:
                client.session.give = mock.Mock(side_effect=fault)
            master.streams[0].sendall(codec.sized(bytes([2, codec.REFUSED]) + codec.word(7) + codec.word(1) + codec.word(1) + b"\0"))
            waiter.join(5)
            self.assertFalse(waiter.is_alive(), fault)
            self.assertIsInstance(found[0], ConnectionError)
            self.assertIs(found[0].__cause__, fault)
            with self.assertRaises(ConnectionError):
                client.open("/ls/c/f")


class Descriptors(WithServers):
    def test_a_client_takes_a_high_one(self):
        soft, hard = resource.getrlimit(resource.RLIMIT_NOFILE)
        self.assertGreater(hard, 1100)
        resource.setrlimit(resource.RLIMIT_NOFILE, (max(soft, 1200), hard))
        self.addCleanup(resource.setrlimit, resource.RLIMIT_NOFILE, (soft, hard))
        with open("/dev/null") as null, tempfile.TemporaryFile():
            held = [open(null.fileno(), closefd=False)]
            held += [socket.socket() for _ in range(1050)]
            try:
                client = self.client(self.server(WELCOME))
                self.assertGreater(client.connection.stream.fileno(), 1023)
                self.assertEqual(client.session.state, "live")
                self.part(client)
            finally:
                for one in held:
                    one.close()


class Numbers(WithServers):
    def test_each_open_has_its_own(self):
        """Of two threads that open at once: the number is that of the handle's own call."""
        client = self.client(self.server(WELCOME, answers=(OPENED, OPENED)))
        both, found = threading.Barrier(2), []
        call_once = client.call_once

        def slow(*words):
            result = call_once(*words)
            both.wait(5)
            return result

        client.call_once = slow
        threads = [threading.Thread(target=lambda: found.append(client.open("/ls/c/f").opened)) for _ in range(2)]
        for thread in threads:
            thread.start()
        for thread in threads:
            thread.join()
        self.assertEqual(sorted(found), [1, 2])


class Ways(WithServers):
    def test_which_are_followed(self):
        rows = [
            ("tcp:h:7", "i:7", True),
            ("h:7", "tcp:i:7", True),
            ("tls:h:7", "tls:i:7", True),
            ("tcp:h:7", "tls:i:7", False),
            ("h:7", "tls:i:7", False),
            ("tls:h:7", "i:7", False),
            ("unix:/s", "unix:/t", False),
            ("unix:/s", "i:7", False),
        ]
        for told, present, wanted in rows:
            self.assertEqual(is_followed(told, present), wanted, (told, present))

    def test_a_client_at_tls_goes_to_no_tcp(self):
        folder = tempfile.TemporaryDirectory()
        self.addCleanup(folder.cleanup)
        made = Path(folder.name) / "made"
        subprocess.run([Path(__file__).parents[2] / "certificates", made, "ann"], check=True, stdout=subprocess.DEVNULL)
        servers = ssl.SSLContext(ssl.PROTOCOL_TLS_SERVER)
        servers.load_cert_chain(made / "server.pem", made / "server.key")
        clients = ssl.create_default_context(cafile=made / "ca.pem")
        clients.load_cert_chain(made / "ann.pem", made / "ann.key")
        lure = self.server(WELCOME)
        for told in (lure.place, f"tcp:{lure.place}"):
            standby = self.server(not_master(told), tls=servers)
            with self.assertRaises(ConnectionError):
                Client(f"tls:{standby.place}", "ann", patience=0.3, tls=clients)
            self.assertEqual(lure.hellos, [])

    def test_a_server_that_is_known_is_followed_in_any_way(self):
        master = self.server(WELCOME)
        standby = self.server(not_master(f"tcp:{master.place}"))
        client = self.client(standby, master)
        self.assertEqual(client.session.state, "live")


class Connections(WithServers):
    def test_what_comes_in_pieces_is_put_together(self):
        ours, theirs = socket.socketpair()
        self.addCleanup(theirs.close)
        with mock.patch("socket.create_connection", return_value=ours), mock.patch.object(socket.socket, "setsockopt"):
            connection = Connection("127.0.0.1:7", None)
        self.addCleanup(connection.close)
        self.assertIsNone(connection.next(0.01))
        for byte in codec.sized(b"hello"):
            self.assertIsNone(connection.next(0.0))
            theirs.sendall(bytes([byte]))
        self.assertEqual(connection.next(1.0), b"hello")
        theirs.shutdown(socket.SHUT_RDWR)
        with self.assertRaises(ConnectionError):
            connection.next(1.0)


if __name__ == "__main__":
    unittest.main()
