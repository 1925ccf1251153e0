package tillermoss;

import java.util.ArrayList;
import java.util.List;

/** A message of a master, or a notice of the server in front of it. */
final class Message {
    static final int STARTED = 0, ALIVE = 1, REPLY = 2, REFUSED = 3, NOTICE = 4;

    record Invalidation(long number, String name) {}

    record Told(long number, Event event) {}

    record Opened(byte[] handle, long instance, boolean isEphemeral) {}

    final int kind;
    long client;
    long epoch;
    long number;
    long span;
    final List<Invalidation> invalidations = new ArrayList<>();
    final List<Told> events = new ArrayList<>();
    boolean hasStamp;
    long stamp;
    /** Opened, View, Stat, byte[], Refusal, or null where something is done. */
    Object result;

    String text = "";

    Message(int kind) {
        this.kind = kind;
    }

    boolean isRefusal(int number) {
        return kind == REFUSED && result instanceof Refusal why && why.number() == number;
    }
}
