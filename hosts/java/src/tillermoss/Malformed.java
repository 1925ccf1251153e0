package tillermoss;

import java.io.IOException;

/** Bytes that no server sends. */
final class Malformed extends IOException {
    private static final long serialVersionUID = 1;

    Malformed(String what) {
        super(what);
    }
}
