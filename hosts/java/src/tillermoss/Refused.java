package tillermoss;

/** The master refused a call, or the client did. */
public final class Refused extends RuntimeException {
    private static final long serialVersionUID = 1;

    /** Numbers of refusals, as docs/FORMATS.md lists them. */
    public static final int BAD_NAME = 2,
            BAD_PRINCIPAL = 4,
            NOT_FOUND = 6,
            EXISTS = 7,
            DENIED = 10,
            WRONG_GENERATION = 11,
            TOO_LARGE = 12,
            STALE_INSTANCE = 14,
            STORE_REFUSED = 15,
            BAD_HANDLE = 17,
            BAD_SEQUENCER = 18,
            NO_SESSION = 19,
            BUSY = 22,
            HELD = 23,
            DELAYED = 24,
            NOT_HOLDER = 25,
            SEQUENCER_STALE = 26,
            DELAY_TOO_LONG = 27,
            OLD_EPOCH = 28,
            RECOVERING = 29,
            IN_JEOPARDY = 30,
            SESSION_EXPIRED = 31,
            POISONED = 32,
            UNKNOWN = 34,
            PROTOCOL_FAULT = 35,
            NO_ROOM = 43;

    static final String[] NAMES =
            ("NoMemory BadName OtherCell BadPrincipal BadAcl NotFound Exists WrongKind NotEmpty Denied WrongGeneration TooLarge Exhausted "
                            + "StaleInstance StoreRefused StoreDamaged BadHandle BadSequencer NoSession BadAck Repeat Busy Held Delayed "
                            + "NotHolder SequencerStale DelayTooLong OldEpoch Recovering InJeopardy SessionExpired Poisoned CallOutstanding "
                            + "Unknown ProtocolFault UnfairClock NoSuchMessage MasterDown MasterUp WatchFull PassMissing ReceiptApart "
                            + "NoRoom")
                    .split(" ");

    private final Refusal refusal;
    private final String limit;

    Refused(int number) {
        this(new Refusal(number, 0, null), null);
    }

    Refused(Refusal refusal, String limit) {
        super(limit != null ? limit : refusal.text());
        this.refusal = refusal;
        this.limit = limit;
    }

    /** Which refusal it is. */
    public int number() {
        return refusal.number();
    }

    /** The refusal's name. */
    public String name() {
        return NAMES[refusal.number() - 1];
    }

    /** The argument of a refusal that has a number as one: the present generation, the milliseconds that are left, the limit that leaves no room. */
    public long argument() {
        return refusal.argument();
    }

    /** The argument of a refusal that has a word as one, or null. */
    public String word() {
        return refusal.word();
    }

    /** Which limit of the server was met, or null. */
    public String limit() {
        return limit;
    }
}
