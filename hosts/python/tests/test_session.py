"""The rules of a session, by hand and without a server: each row is a rule of docs/PROTOCOL.md at its limit."""

import math
import unittest

from tillermoss import Refusal, View, codec
from tillermoss.connection import Schedule
from tillermoss.session import Session, leased_until

NAME = "/ls/c/f"


def view(instance: int = 4) -> View:
    return View(False, instance, 1, 1, ("base",) * 3, False, b"hi")


def message(kind: int, number: int, **fields) -> codec.Message:
    return codec.Message(kind, **{"client": 1, "epoch": 5, "number": number, **fields})


def live(span: int = 12_000) -> Session:
    """A session that began at 1000."""
    session = Session(1, "ann")
    session.beat(1000)
    session.give(1010, message(codec.STARTED, 1, span=span))
    return session


def read(session: Session, moment: int, stamp=0, name: str = NAME, result=None) -> None:
    waiting = session.ask(b"", name, None, result is not None)
    session.give(moment, message(codec.REPLY, waiting.number, stamp=stamp, result=result or view()))


class Leases(unittest.TestCase):
    def test_its_end(self):
        for lease, wanted in [((0, 12_000), 11_294), ((1000, 12_000), 12_294), ((0, 17), 15), ((0, 0), 0), ((7, 1), 7)]:
            self.assertEqual(leased_until(lease), wanted, lease)
            sent, span = lease
            runs = [moment for moment in range(sent, sent + 13_000) if 17 * (moment - sent + 1) < 16 * span]
            self.assertEqual(max(runs, default=sent - 1) + 1, wanted, lease)

    def test_nothing_is_served_behind_it(self):
        session = live()
        read(session, 1020)
        self.assertEqual(session.cached(12_293, NAME), (True, view()))
        self.assertFalse(session.cached(12_294, NAME)[0])
        self.assertEqual([event.kind for event in session.note(12_294)], ["jeopardy"])
        self.assertEqual((session.cache, session.enabled), ({}, False))

    def test_jeopardy_lasts_45_seconds(self):
        for moment, state in [(57_293, "live"), (57_294, "lost")]:
            session = live()
            session.note(12_294)
            session.note(moment)
            self.assertEqual(session.state, state)

    def test_only_the_answer_to_the_newest_beat_counts(self):
        for number, wanted in [(2, (1000, 12_000)), (3, (3000, 12_000))]:
            session = live()
            session.beat(2000)
            session.beat(3000)
            session.give(3010, message(codec.ALIVE, number, span=12_000))
            self.assertEqual(session.lease, wanted)

    def test_a_worse_lease_is_left(self):
        session = live()
        session.beat(2000)
        session.give(2010, message(codec.ALIVE, 2, span=1))
        self.assertEqual(session.lease, (1000, 12_000))

    def test_a_better_lease_ends_a_jeopardy(self):
        session = live()
        session.beat(13_000)
        session.note(13_000)
        told = session.give(13_010, message(codec.ALIVE, 2, span=12_000))
        self.assertEqual([event.kind for event in told], ["safe"])
        self.assertEqual((session.enabled, session.jeopardy), (True, None))

    def test_a_started_for_another_start_is_dropped(self):
        session = Session(1, "ann")
        session.beat(1000)
        session.beat(2000)
        session.give(2010, message(codec.STARTED, 1, span=12_000))
        self.assertEqual(session.state, "unstarted")


class Caches(unittest.TestCase):
    def test_what_an_invalidation_overtook_is_not_kept(self):
        for stamp, is_kept in [(None, False), (0, False), (1, True), (2, True)]:
            session = live()
            session.give(1020, message(codec.ALIVE, 1, span=12_000, invalidations=[(1, "/ls/c/other")]))
            read(session, 1030, stamp)
            self.assertEqual(NAME in session.cache, is_kept, stamp)

    def test_an_invalidation_takes_the_name_out(self):
        session = live()
        read(session, 1020)
        session.give(1030, message(codec.ALIVE, 1, span=12_000, invalidations=[(1, NAME)]))
        self.assertEqual((session.cache, session.processed), ({}, 1))
        read(session, 1040, stamp=1)
        session.give(1050, message(codec.ALIVE, 1, span=12_000, invalidations=[(1, NAME)]))
        self.assertIn(NAME, session.cache)

    def test_an_absence_is_kept(self):
        session = live()
        read(session, 1020, result=Refusal(6))
        self.assertEqual(session.cached(1030, NAME), (True, None))

    def test_the_oldest_goes_first(self):
        session = live()
        for at in range(4097):
            read(session, 1020, name=f"/ls/c/{at}")
        self.assertEqual((len(session.cache), "/ls/c/0" in session.cache, "/ls/c/1" in session.cache), (4096, False, True))

    def test_nothing_is_kept_in_jeopardy(self):
        session = live()
        read(session, 13_000)
        self.assertEqual(session.cache, {})

    def test_a_message_of_another_epoch_or_client_is_dropped(self):
        for other in [{"epoch": 4}, {"epoch": 6}, {"client": 2}]:
            session = live()
            read(session, 1020)
            session.give(1030, message(codec.ALIVE, 1, span=12_000, invalidations=[(1, NAME)], **other))
            self.assertEqual((NAME in session.cache, session.processed), (True, 0), other)


class Refusals(unittest.TestCase):
    def test_a_later_epoch(self):
        session = live()
        read(session, 1020)
        waiting = session.ask(b"", NAME, None, False)
        session.give(1030, message(codec.REFUSED, 9, result=Refusal(28, 6)))
        self.assertEqual((session.epoch, session.cache, session.enabled, session.state), (6, {}, True, "live"))
        self.assertEqual(waiting.ends, (Refusal(34), None))

    def test_no_later_epoch(self):
        for fields, argument in [({}, 5), ({"epoch": 4}, 6)]:
            session = live()
            session.give(1030, message(codec.REFUSED, 9, result=Refusal(28, argument), **fields))
            self.assertEqual(session.epoch, 5, fields)

    def test_no_session(self):
        for epoch, state in [(4, "live"), (5, "lost"), (6, "lost")]:
            session = live()
            session.give(1030, message(codec.REFUSED, 9, epoch=epoch, result=Refusal(19)))
            self.assertEqual(session.state, state, epoch)
        session = Session(1, "ann")
        session.beat(1000)
        session.give(1010, message(codec.REFUSED, 1, result=Refusal(19)))
        self.assertEqual(session.state, "turned away")

    def test_a_repeated_reply_ends_nothing(self):
        session = live()
        read(session, 1020)
        waiting = session.ask(b"", NAME, None, False)
        session.give(1030, message(codec.REPLY, 1, result=None))
        self.assertIsNone(waiting.ends)


class Leaving(unittest.TestCase):
    def test_nothing_is_kept_or_served_from_then_on(self):
        session = live()
        read(session, 1020)
        session.leave()
        self.assertEqual((session.cache, session.enabled), ({}, False))
        session.beat(2000)
        session.give(2010, message(codec.ALIVE, 2, span=12_000))
        self.assertEqual((session.lease, session.enabled, session.state), ((2000, 12_000), False, "live"))

    def test_a_better_lease_ends_its_jeopardy(self):
        session = live()
        session.leave()
        session.beat(13_000)
        session.note(13_000)
        told = session.give(13_010, message(codec.ALIVE, 2, span=12_000))
        self.assertEqual([event.kind for event in told], ["safe"])
        self.assertEqual((session.enabled, session.jeopardy), (False, None))

    def test_its_end(self):
        rows = [
            (message(codec.REPLY, 1, result=None), "left", (None, None)),
            (message(codec.REPLY, 1, result=Refusal(29)), "live", (Refusal(29), None)),
            (message(codec.REFUSED, 1, result=Refusal(19)), "lost", (Refusal(31), None)),
            (message(codec.REFUSED, 1, result=Refusal(28, 6)), "live", (Refusal(34), None)),
        ]
        for given, state, ends in rows:
            session = live()
            waiting = session.leave()
            session.give(1030, given)
            self.assertEqual((session.state, session.enabled, waiting.ends), (state, False, ends), given)
        again = session.leave()
        session.give(1040, message(codec.REPLY, 2, epoch=6, result=None))
        self.assertEqual((again.number, session.state), (2, "left"))

    def test_a_call_that_waits_is_given_up(self):
        session = live()
        waiting = session.ask(b"", NAME, None, False)
        leave = session.leave()
        self.assertEqual((waiting.ends, leave.number), ((Refusal(19), None), 2))
        session.give(1030, message(codec.REPLY, 1, stamp=0, result=view()))
        self.assertEqual((leave.ends, session.cache, session.state), (None, {}, "live"))
        session.give(1040, message(codec.REPLY, 2, result=None))
        self.assertEqual(session.state, "left")


class Schedules(unittest.TestCase):
    def test_no_beat_while_an_answer_may_be_on_its_way(self):
        schedule = Schedule()
        schedule.beaten(1000, 1, 5000)
        self.assertEqual(schedule.due, 5000)
        dues = []
        for number in range(2, 10):
            schedule.beaten(schedule.due, number, 0)
            dues.append(schedule.due)
        self.assertEqual(dues, [5400, 6200, 7800, 11_000, 17_400, 27_400, 37_400, 47_400])

    def test_a_silent_server_is_left(self):
        for until, wanted in [(0, 4000), (5000, 8000)]:
            schedule = Schedule()
            self.assertEqual(schedule.silent_from(), math.inf)
            schedule.beaten(1000, 7, until)
            self.assertEqual(schedule.silent_from(), wanted)
            schedule.beaten(schedule.due, 8, until)
            self.assertEqual(schedule.silent_from(), wanted)
            schedule.heard(6000, message(codec.ALIVE, 8))
            self.assertEqual(schedule.silent_from(), math.inf)

    def test_behind_an_answer(self):
        rows = [
            (message(codec.ALIVE, 7), 1020),
            (message(codec.ALIVE, 7, invalidations=[(1, NAME)]), 1005),
            (message(codec.ALIVE, 6, invalidations=[(1, NAME)]), 5000),
            (message(codec.REFUSED, 3, result=Refusal(28, 9)), 1020),
            (message(codec.REFUSED, 3, result=Refusal(29)), 5000),
            (codec.Message(codec.NOTICE, number=0), 1005),
            (codec.Message(codec.NOTICE, number=7), 5000),
        ]
        for given, due in rows:
            schedule = Schedule()
            schedule.beaten(1000, 7, 5000)
            schedule.heard(1005, given)
            self.assertEqual(schedule.due, due, given)


if __name__ == "__main__":
    unittest.main()
