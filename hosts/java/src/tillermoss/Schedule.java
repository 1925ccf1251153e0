package tillermoss;

/** When the next Beat goes. */
final class Schedule {
    static final long FIRST_PAUSE = 200, LAST_PAUSE = 10_000, PACE = 20, KEPT_LONG = 20_000;

    private long number = -1;
    private long sent;
    private long first;
    long due;
    private long pause = FIRST_PAUSE;
    private long usual;
    boolean isAnswered = true;

    /** One was sent. None follows while its answer may be on its way, which a master keeps until the lease is near its end. */
    void beaten(long moment, long beat, long until) {
        long wait = Math.max(until - moment, 0);
        if (isAnswered) {
            first = moment;
            pause = FIRST_PAUSE;
            wait = usual >= KEPT_LONG ? Math.min(wait, usual / 2) : wait;
        } else {
            pause = Math.min(2 * pause, LAST_PAUSE);
        }
        number = beat;
        sent = moment;
        due = moment + Math.max(wait, pause);
        isAnswered = false;
    }

    void heard(long moment, Message message) {
        boolean isAnswer = message.kind != Message.NOTICE && message.kind != Message.REPLY && message.number == number;
        boolean tells = !message.invalidations.isEmpty() || !message.events.isEmpty();
        if (message.kind == Message.NOTICE && message.number == 0 || isAnswer && tells) {
            due = moment;
        } else if (isAnswer || message.isRefusal(Refused.OLD_EPOCH)) {
            due = Math.min(due, Math.max(moment, sent + PACE));
        }
        if (isAnswer) {
            usual = moment - first;
            isAnswered = true;
        }
    }
}
