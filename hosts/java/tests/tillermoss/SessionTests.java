package tillermoss;

import java.util.List;
import java.util.Optional;

/** The rules of a session, by hand and without a server: each is a rule of docs/PROTOCOL.md at its limit. */
final class SessionTests {
    private static final String NAME = "/ls/c/f";
    private static final View FILE = new View(false, 4, 1, 1, List.of("base", "base", "base"), false, new byte[] {1}, List.of());

    private SessionTests() {}

    private static Message of(int kind, long number) {
        Message message = new Message(kind);
        message.client = 1;
        message.epoch = 5;
        message.number = number;
        return message;
    }

    private static Message started(long span) {
        Message message = of(Message.STARTED, 1);
        message.span = span;
        return message;
    }

    private static Message alive(long number, long span, String... invalidated) {
        Message message = of(Message.ALIVE, number);
        message.span = span;
        for (String name : invalidated) {
            message.invalidations.add(new Message.Invalidation(message.invalidations.size() + 1, name));
        }
        return message;
    }

    private static Message refused(int number, long argument) {
        Message message = of(Message.REFUSED, 9);
        message.result = new Refusal(number, argument, null);
        return message;
    }

    /** One that began at 1000. */
    private static Session live() {
        Session session = new Session(1, "ann");
        session.beat(1000);
        session.give(1010, started(12_000));
        return session;
    }

    private static Session.Waiting ask(Session session, String name) {
        return session.ask(new Client.Request(new byte[0], null, name, null, true, true, true, null), null);
    }

    private static void teach(Session session, long moment, long stamp, String name, Object result) {
        Message reply = of(Message.REPLY, ask(session, name).number);
        reply.hasStamp = stamp >= 0;
        reply.stamp = stamp;
        reply.result = result;
        session.give(moment, reply);
    }

    static void theEndOfALease() {
        for (long[] row : new long[][] {{0, 12_000, 11_294}, {1000, 12_000, 12_294}, {0, 17, 15}, {0, 0, 0}, {7, 1, 7}}) {
            Session.Lease lease = new Session.Lease(row[0], row[1]);
            Check.equal(lease.until(), row[2]);
            for (long moment = row[0]; moment < row[0] + 13_000; moment++) {
                Check.equal(17 * (moment - row[0] + 1) < 16 * row[1], moment < lease.until());
            }
        }
        Session session = new Session(1, "ann");
        session.beat(1000);
        session.give(1010, started(-1));
        Check.equal(session.enabled && session.lease.until() > 1000, true);
    }

    static void nothingIsServedBehindIt() {
        Session session = live();
        teach(session, 1020, 0, NAME, FILE);
        Check.equal(session.cached(12_293, NAME), Optional.of(FILE));
        Check.equal(session.cached(12_294, NAME), null);
        Check.equal(session.note(12_293), List.of());
        Check.equal(session.note(12_294), List.of(Event.of(Event.Kind.JEOPARDY)));
        Check.equal(session.cache.isEmpty() && !session.enabled, true);
    }

    static void jeopardyLasts45Seconds() {
        for (long moment : new long[] {57_293, 57_294}) {
            Session session = live();
            session.note(12_294);
            session.note(moment);
            Check.equal(session.state, moment == 57_293 ? Session.State.LIVE : Session.State.LOST);
        }
    }

    static void aLeaseCountsFromTheSendingOfTheNewestBeat() {
        for (long number = 2; number <= 4; number++) {
            Session session = live();
            session.beat(2000);
            session.beat(3000);
            session.give(9000, alive(number, 12_000));
            Check.equal(session.lease.sent(), number == 3 ? 3000L : 1000L);
        }
    }

    static void aWorseLeaseIsLeft() {
        Session session = live();
        session.beat(2000);
        session.give(2010, alive(2, 1));
        Check.equal(session.lease, new Session.Lease(1000, 12_000));
    }

    static void aBetterLeaseEndsAJeopardy() {
        Session session = live();
        session.beat(13_000);
        session.note(13_000);
        Check.equal(session.give(13_010, alive(2, 12_000)), List.of(Event.of(Event.Kind.SAFE)));
        Check.equal(session.enabled && !session.isInJeopardy, true);
    }

    static void aStartedForAnotherStartIsDropped() {
        Session session = new Session(1, "ann");
        session.beat(1000);
        session.beat(2000);
        session.give(2010, started(12_000));
        Check.equal(session.state, Session.State.UNSTARTED);
    }

    static void whatAnInvalidationOvertookIsNotKept() {
        for (long stamp = -1; stamp <= 2; stamp++) {
            Session session = live();
            session.give(1020, alive(1, 12_000, "/ls/c/other"));
            teach(session, 1030, stamp, NAME, FILE);
            Check.equal(session.cache.containsKey(NAME), stamp >= 1);
        }
    }

    static void anInvalidationTakesTheNameOut() {
        Session session = live();
        teach(session, 1020, 0, NAME, FILE);
        session.give(1030, alive(1, 12_000, NAME));
        Check.equal(session.cache.isEmpty() && session.processed == 1, true);
        teach(session, 1040, 1, NAME, FILE);
        session.give(1050, alive(1, 12_000, NAME));
        Check.equal(session.cache.containsKey(NAME), true);
    }

    static void anAbsenceIsKept() {
        Session session = live();
        teach(session, 1020, 0, NAME, new Refusal(Refused.NOT_FOUND, 0, null));
        Check.equal(session.cached(1030, NAME), Optional.empty());
    }

    static void theOldestGoesFirst() {
        Session session = live();
        for (int at = 0; at <= Session.CACHE_LIMIT; at++) {
            teach(session, 1020, 0, "/ls/c/" + at, FILE);
        }
        Check.equal(session.cache.size(), Session.CACHE_LIMIT);
        Check.equal(session.cache.containsKey("/ls/c/0") || !session.cache.containsKey("/ls/c/1"), false);
    }

    static void nothingIsKeptInJeopardy() {
        Session session = live();
        teach(session, 13_000, 0, NAME, FILE);
        Check.equal(session.cache.isEmpty(), true);
    }

    static void aMessageOfAnotherEpochOrClientIsDropped() {
        for (long[] other : new long[][] {{1, 4}, {1, 6}, {2, 5}}) {
            Session session = live();
            teach(session, 1020, 0, NAME, FILE);
            Message message = alive(1, 12_000, NAME);
            message.client = other[0];
            message.epoch = other[1];
            session.give(1030, message);
            Check.equal(session.cache.containsKey(NAME) && session.processed == 0, true);
        }
    }

    static void aLaterEpoch() {
        Session session = live();
        teach(session, 1020, 0, NAME, FILE);
        Session.Waiting call = ask(session, NAME);
        session.give(1030, refused(Refused.OLD_EPOCH, 6));
        Check.equal(session.epoch == 6 && session.cache.isEmpty() && session.enabled && session.state == Session.State.LIVE, true);
        Check.equal(((Refusal) call.result).number(), Refused.UNKNOWN);
        Session same = live();
        same.give(1030, refused(Refused.OLD_EPOCH, 5));
        Check.equal(same.epoch, 5L);
    }

    static void noSession() {
        for (long epoch = 4; epoch <= 6; epoch++) {
            Session session = live();
            Message message = refused(Refused.NO_SESSION, 0);
            message.epoch = epoch;
            session.give(1030, message);
            Check.equal(session.state, epoch == 4 ? Session.State.LIVE : Session.State.LOST);
        }
        Session session = new Session(1, "ann");
        session.beat(1000);
        session.give(1010, refused(Refused.NO_SESSION, 0));
        Check.equal(session.state, Session.State.TURNED_AWAY);
    }

    static void aRepeatedReplyEndsNothing() {
        Session session = live();
        teach(session, 1020, 0, NAME, FILE);
        Session.Waiting call = ask(session, NAME);
        session.give(1030, of(Message.REPLY, 1));
        Check.equal(call.hasEnded, false);
    }

    static void nothingIsServedFromALeaveOn() {
        Session session = live();
        teach(session, 1020, 0, NAME, FILE);
        session.leave();
        Check.equal(session.cache.isEmpty() && !session.enabled, true);
        session.beat(2000);
        session.give(2010, alive(2, 12_000));
        Check.equal(session.lease.sent() == 2000 && !session.enabled && session.state == Session.State.LIVE, true);
        session.give(2020, of(Message.REPLY, 2));
        Check.equal(session.state, Session.State.LEFT);
    }

    static void beatsThatNobodyAnswers() {
        Schedule schedule = new Schedule();
        schedule.beaten(1000, 1, 5000);
        for (long due : new long[] {5000, 5400, 6200, 7800, 11_000, 17_400, 27_400, 37_400, 47_400}) {
            Check.equal(schedule.due, due);
            schedule.beaten(schedule.due, 2, 0);
        }
    }

    static void aBeatBehindAnAnswer() {
        Message notice = new Message(Message.NOTICE), limit = new Message(Message.NOTICE);
        limit.number = 7;
        Message[] given = {alive(7, 1), alive(7, 1, NAME), alive(6, 1, NAME), refused(Refused.OLD_EPOCH, 9), refused(Refused.RECOVERING, 0), notice, limit};
        long[] dues = {1020, 1005, 5000, 1020, 5000, 1005, 5000};
        for (int at = 0; at < given.length; at++) {
            Schedule schedule = new Schedule();
            schedule.beaten(1000, 7, 5000);
            schedule.heard(1005, given[at]);
            Check.equal(schedule.due, dues[at]);
        }
    }

    static void theClockGoesOn() throws Exception {
        long before = Clock.earliest(), nanos = System.nanoTime();
        Thread.sleep(100);
        long took = (System.nanoTime() - nanos) / 1_000_000;
        Check.equal(Clock.latest() - before >= took, true);
        Check.equal(Clock.latest() - before < took + 5000, true);
    }
}
