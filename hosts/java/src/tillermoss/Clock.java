package tillermoss;

import java.io.IOException;
import java.io.UncheckedIOException;
import java.nio.ByteBuffer;
import java.nio.channels.FileChannel;
import java.nio.charset.StandardCharsets;
import java.nio.file.Path;

/**
 * Milliseconds by a clock that goes on while the machine sleeps: CLOCK_BOOTTIME, as Linux shows it in /proc/uptime. System.nanoTime stands
 * still meanwhile. The file has hundredths of a second, cut off; so a moment is told by the two ends of its hundredth, and the client
 * takes for each use the end at which its lease is the shorter.
 */
final class Clock {
    private static final int STEP = 10;
    private static final FileChannel UPTIME = open();

    private Clock() {}

    private static FileChannel open() {
        try {
            return FileChannel.open(Path.of("/proc/uptime"));
        } catch (IOException why) {
            throw new UncheckedIOException(why);
        }
    }

    /** No later than now: for when something is sent. */
    static long earliest() {
        try {
            ByteBuffer read = ByteBuffer.allocate(64);
            UPTIME.read(read, 0);
            String text = new String(read.array(), 0, read.position(), StandardCharsets.US_ASCII);
            int dot = text.indexOf('.');
            return Long.parseLong(text.substring(0, dot)) * 1000 + Long.parseLong(text.substring(dot + 1, dot + 3)) * STEP;
        } catch (IOException why) {
            throw new UncheckedIOException(why);
        }
    }

    /** No earlier than now: for whether a lease runs. */
    static long latest() {
        return earliest() + STEP;
    }
}
