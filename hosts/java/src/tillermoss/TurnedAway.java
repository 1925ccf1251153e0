package tillermoss;

import java.io.IOException;

/** The servers bind no connection for this client. */
public final class TurnedAway extends IOException {
    private static final long serialVersionUID = 1;

    TurnedAway(String reason) {
        super(reason);
    }
}
