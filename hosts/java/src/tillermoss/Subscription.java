package tillermoss;

import java.util.concurrent.LinkedBlockingQueue;
import java.util.concurrent.TimeUnit;

/** A queue of what the client is told of from when it was made: of its session, and of handles with events. */
public final class Subscription implements AutoCloseable {
    private final Client client;
    private final LinkedBlockingQueue<Event> events = new LinkedBlockingQueue<>();

    Subscription(Client client) {
        this.client = client;
    }

    void put(Event event) {
        events.add(event);
    }

    /** Waits for the next event. */
    public Event next() throws InterruptedException {
        return events.take();
    }

    /** Waits for the next event for so many milliseconds; null where none came. */
    public Event next(long milliseconds) throws InterruptedException {
        return events.poll(milliseconds, TimeUnit.MILLISECONDS);
    }

    /** Ends the queue. */
    @Override
    public void close() {
        client.unsubscribe(this);
    }
}
