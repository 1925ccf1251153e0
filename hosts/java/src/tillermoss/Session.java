package tillermoss;

import java.util.ArrayList;
import java.util.LinkedHashMap;
import java.util.List;
import java.util.Optional;

/**
 * What a client knows of its session, its lease and its cache: the rules of docs/PROTOCOL.md, without a thread, a clock or a socket. Each
 * moment is handed to it, in milliseconds.
 */
final class Session {
    static final long GRACE = 45_000;
    static final int CACHE_LIMIT = 4096;
    /** A span above this is no lease that anybody waits for; below it nothing overflows. */
    static final long SPAN_LIMIT = 1L << 50;

    enum State {
        UNSTARTED,
        LIVE,
        LOST,
        LEFT,
        TURNED_AWAY
    }

    /** It runs from the moment at which its Start or Beat was sent. */
    record Lease(long sent, long span) {
        /** The first moment at which it runs no more: by the rule that 17 * (now - sent + 1) is below 16 * span. */
        long until() {
            return sent + Math.max((16 * span + 16) / 17 - 1, 0);
        }

        boolean isBetterThan(Lease other) {
            return 17 * sent + 16 * span > 17 * other.sent + 16 * other.span;
        }
    }

    /** The one call that has no reply yet. */
    static final class Waiting {
        final long number;
        final byte[] block;
        final Client.Request request;
        String limit;
        boolean hasEnded;
        Object result;

        Waiting(long number, byte[] block, Client.Request request) {
            this.number = number;
            this.block = block;
            this.request = request;
        }
    }

    final long client;
    final String principal;
    State state = State.UNSTARTED;
    long epoch;
    long beats;
    private long sent;
    private long calls;
    long processed;
    private long heard;
    Lease lease = new Lease(0, 0);
    boolean isInJeopardy;
    private long jeopardy;
    long jeopardies;
    boolean enabled;
    boolean leaving;
    Waiting waiting;
    /** By the name; nothing where the name isn't there. The oldest first. */
    final LinkedHashMap<String, Optional<View>> cache = new LinkedHashMap<>();

    Session(long client, String principal) {
        this.client = client;
        this.principal = principal;
    }

    /** Looks at the lease: what has ended with it is let go of before anything else is done. Gives what is to be told. */
    List<Event> note(long moment) {
        if (state != State.LIVE || moment < lease.until()) {
            return List.of();
        }
        turnOff();
        if (!isInJeopardy) {
            isInJeopardy = true;
            jeopardy = moment;
            jeopardies++;
            return List.of(Event.of(Event.Kind.JEOPARDY));
        }
        return moment - jeopardy >= GRACE ? lose(State.LOST) : List.of();
    }

    private void turnOff() {
        cache.clear();
        enabled = false;
    }

    List<Event> lose(State into) {
        state = into;
        turnOff();
        end(new Refusal(Refused.SESSION_EXPIRED, 0, null));
        return List.of(Event.of(Event.Kind.LOST));
    }

    private void end(Object result) {
        if (waiting != null) {
            waiting.result = result;
            waiting.hasEnded = true;
            waiting = null;
        }
    }

    /** A Start until there is a session, then a Beat, which acknowledges all that was processed; null where nothing is to be kept. */
    byte[] beat(long moment) {
        if (state != State.UNSTARTED && state != State.LIVE) {
            return null;
        }
        beats++;
        sent = moment;
        return state == State.UNSTARTED ? Codec.start(client, beats, principal) : Codec.beat(client, epoch, beats, processed, heard);
    }

    /** What the cache answers for this name at this moment; null where it doesn't. */
    Optional<View> cached(long moment, String name) {
        return enabled && moment < lease.until() ? cache.get(name) : null;
    }

    Waiting ask(Client.Request request, byte[] sequencer) {
        calls++;
        waiting = new Waiting(calls, Codec.call(client, epoch, calls, request.body(), sequencer), request);
        return waiting;
    }

    /** Asks for the end of the session. Before that goes out the cache is emptied and turned off, for good; nothing else is asked. */
    Waiting leave() {
        leaving = true;
        turnOff();
        return ask(Client.Request.of(new byte[] {Codec.LEAVE}), null);
    }

    /** Takes a message of a master; gives the events that are to be told. */
    List<Event> give(long moment, Message message) {
        List<Event> told = new ArrayList<>(note(moment));
        if (message.client != client) {
            return told;
        }
        switch (message.kind) {
            case Message.STARTED -> started(moment, message);
            case Message.ALIVE -> told.addAll(alive(moment, message));
            case Message.REPLY -> replied(message);
            default -> told.addAll(refused(message));
        }
        return told;
    }

    private void started(long moment, Message message) {
        if (state == State.UNSTARTED && message.number == beats) {
            state = State.LIVE;
            epoch = message.epoch;
            takeLease(moment, offer(message));
        }
    }

    /** The lease of the newest Start or Beat: it counts from when that was sent. */
    private Lease offer(Message message) {
        return new Lease(sent, message.span < 0 ? SPAN_LIMIT : Math.min(message.span, SPAN_LIMIT));
    }

    private boolean takeLease(long moment, Lease offer) {
        lease = offer;
        boolean runs = moment < offer.until();
        enabled = runs && !leaving;
        if (!enabled) {
            turnOff();
        }
        return runs;
    }

    private List<Event> alive(long moment, Message message) {
        if (state != State.LIVE || message.epoch != epoch) {
            return List.of();
        }
        for (Message.Invalidation one : message.invalidations) {
            if (Long.compareUnsigned(one.number(), processed) > 0) {
                cache.remove(one.name());
                processed = one.number();
            }
        }
        List<Event> told = new ArrayList<>();
        for (Message.Told one : message.events) {
            if (Long.compareUnsigned(one.number(), heard) > 0) {
                told.add(one.event());
                heard = one.number();
            }
        }
        Lease offer = offer(message);
        if (message.number == beats && offer.isBetterThan(lease) && takeLease(moment, offer) && isInJeopardy) {
            isInJeopardy = false;
            told.add(Event.of(Event.Kind.SAFE));
        }
        return told;
    }

    private void replied(Message message) {
        if (state != State.LIVE || message.epoch != epoch || waiting == null || message.number != waiting.number) {
            return;
        }
        boolean isNotOvertaken = message.hasStamp && Long.compareUnsigned(processed, message.stamp) <= 0;
        if (isNotOvertaken && enabled && !isInJeopardy) {
            learn(waiting.request, message.result);
        }
        if (leaving && message.result == null) {
            state = State.LEFT;
        }
        end(message.result);
    }

    private void learn(Client.Request request, Object result) {
        boolean isAbsence = result instanceof Refusal why && why.number() == Refused.NOT_FOUND && request.teachesAbsence();
        if (!isAbsence && !(result instanceof View && request.teachesView())) {
            return;
        }
        cache.remove(request.name());
        while (cache.size() >= CACHE_LIMIT) {
            cache.remove(cache.keySet().iterator().next());
        }
        cache.put(request.name(), isAbsence ? Optional.empty() : Optional.of((View) result));
    }

    private List<Event> refused(Message message) {
        boolean isOfNow = state == State.LIVE && Long.compareUnsigned(epoch, message.epoch) <= 0;
        if (message.isRefusal(Refused.NO_SESSION) && state == State.UNSTARTED) {
            return lose(State.TURNED_AWAY);
        }
        if (message.isRefusal(Refused.NO_SESSION) && isOfNow) {
            return lose(State.LOST);
        }
        if (message.isRefusal(Refused.OLD_EPOCH) && isOfNow) {
            long present = ((Refusal) message.result).argument();
            if (Long.compareUnsigned(epoch, present) < 0) {
                epoch = present;
                processed = 0;
                heard = 0;
                cache.clear();
                end(new Refusal(Refused.UNKNOWN, 0, null));
            }
        }
        return List.of();
    }
}
