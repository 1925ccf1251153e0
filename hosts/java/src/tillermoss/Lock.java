package tillermoss;

import java.io.IOException;
import java.math.BigInteger;

/** A lock that is held. What it protects is done only while isHeld says so. */
public final class Lock {
    private static final long LOOK = 50;

    private final Client client;
    private final Handle handle;
    private final byte[] sequencer;
    private final long safety;
    private volatile boolean isOver;

    Lock(Client client, Handle handle, byte[] sequencer, long safety) {
        this.client = client;
        this.handle = handle;
        this.sequencer = sequencer;
        this.safety = safety;
    }

    /** The handle of the file whose lock it is. */
    public Handle handle() {
        return handle;
    }

    /** Bytes by which another program can test that this lock is still held. */
    public byte[] sequencer() {
        return sequencer.clone();
    }

    /** A number that rises from one holder of the name to the next. */
    public BigInteger number() {
        return Client.fencingNumber(sequencer);
    }

    /** Whether it is certain at this moment that the lock is held. If the lease has ended once, it never is again. */
    public boolean isHeld() {
        isOver = isOver || safety < 0 || client.safety() != safety;
        return !isOver;
    }

    /** Waits until it isn't certain any more that the lock is held. */
    public void awaitLoss() throws InterruptedException {
        while (isHeld()) {
            Thread.sleep(LOOK);
        }
    }

    /** Gives the lock back. */
    public void unlock() throws IOException, InterruptedException {
        isOver = true;
        try {
            client.release(handle);
        } catch (Refused why) {
            if (why.number() != Refused.NOT_HOLDER) {
                throw why;
            }
        }
        client.closeHandle(handle);
    }
}
