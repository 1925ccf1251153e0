package tillermoss;

import java.util.Arrays;
import java.util.Objects;

/** What tests say. */
final class Check {
    /** What may fail. */
    interface Does {
        void run() throws Exception;
    }

    private Check() {}

    static void equal(Object found, Object wanted) {
        boolean isSame = found instanceof byte[] one && wanted instanceof byte[] other ? Arrays.equals(one, other) : Objects.equals(found, wanted);
        if (!isSame) {
            throw new AssertionError("found " + found + ", wanted " + wanted);
        }
    }

    static void refused(int number, Does does) throws Exception {
        try {
            does.run();
        } catch (Refused why) {
            equal(why.number(), number);
            return;
        }
        throw new AssertionError("it wasn't refused");
    }
}
