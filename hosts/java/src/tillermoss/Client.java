package tillermoss;

import java.io.IOException;
import java.math.BigInteger;
import java.util.ArrayList;
import java.util.Arrays;
import java.util.HashSet;
import java.util.List;
import java.util.Optional;
import java.util.Set;
import java.util.concurrent.CopyOnWriteArrayList;
import java.util.concurrent.Semaphore;
import java.util.concurrent.ThreadLocalRandom;
import java.util.concurrent.TimeUnit;
import java.util.function.Function;
import javax.net.ssl.SSLContext;

/**
 * A client that keeps its session by threads of its own, and connects again where a connection is lost.
 *
 * <p>It is written from docs/PROTOCOL.md, and keeps each of its rules; nothing of it is proved. One call is under way at a time, so a
 * client that waits for a lock lets its other calls wait, but for reads that the cache answers: use a client of its own for each lock that
 * may have to be waited for. A thread that is interrupted in a call leaves it under way until its answer comes; what it gave is taken back
 * then.
 */
public final class Client implements AutoCloseable {
    private static final long FIRST_WAIT = 20, LAST_WAIT = 500, CALL_PAUSE = 50, PARTING = 2000, LONGEST_WAIT = 1000;
    private static final int WRONG_TOKEN = 2;
    private static final Set<Integer> TURNED_AWAY_FOR_NOW = Set.of(3, 4, 6);
    private static final String[] REASONS = {
        "the greeting wasn't understood",
        "not a principal",
        "the number was given to another client",
        "no number could be given",
        "too many clients",
        "the connection is that of another principal",
        "too many clients of this principal",
        "the server isn't master"
    };

    /** A call, and what is to be made of its answer. Undo gives a call that takes back what this one was given, or null. */
    record Request(
            byte[] body,
            Handle handle,
            String name,
            byte[] sequencer,
            boolean onlyReads,
            boolean teachesView,
            boolean teachesAbsence,
            Function<Object, byte[]> undo) {
        static Request of(byte[] body) {
            return new Request(body, null, null, null, false, false, false, null);
        }

        static Request on(Handle handle, byte[] body, boolean onlyReads) {
            return new Request(body, handle, handle.name, null, onlyReads, false, false, null);
        }
    }

    private record Answer(long number, Object result) {}

    private final String principal;
    private final long patience;
    private final SSLContext trust;
    private final Semaphore calling = new Semaphore(1, true);
    private final List<Subscription> subscriptions = new CopyOnWriteArrayList<>();
    // (of the thread that greets)
    private final List<String> servers;
    private final Set<String> denying = new HashSet<>();
    private String told = "";
    private long number;
    private long token;
    // (under the guard)
    private final Object guard = new Object();
    private final Schedule schedule = new Schedule();
    private Session session;
    private Connection connection;
    private IOException fault;

    /** Connects to a server, HOST:PORT or unix:PATH, or to the one of several, with commas between, that is master. */
    public static Client connect(String servers, String principal) throws IOException, InterruptedException {
        return connect(servers, principal, 90_000, null);
    }

    /**
     * The same.
     *
     * @param patience for how many milliseconds a call that is refused for now is made again
     * @param trust for servers that are reached as tls:HOST:PORT: the client's certificate, and whom it trusts
     */
    public static Client connect(String servers, String principal, long patience, SSLContext trust)
            throws IOException, InterruptedException {
        if (!Codec.isComponent(principal)) {
            throw new Refused(Refused.BAD_PRINCIPAL);
        }
        return new Client(servers, principal, patience, trust);
    }

    private Client(String servers, String principal, long patience, SSLContext trust) throws IOException, InterruptedException {
        this.servers = new ArrayList<>(Arrays.asList(servers.split(",")));
        this.principal = principal;
        this.patience = patience;
        this.trust = trust;
        long ends = ends(patience);
        Connection first = greetOne(ends);
        session = new Session(number, principal);
        daemon(() -> keep(first), "tillermoss-keeper");
        daemon(this::tick, "tillermoss-clock");
        try {
            synchronized (guard) {
                while (session.state == Session.State.UNSTARTED && fault == null && left(ends) > 0) {
                    guard.wait(left(ends));
                }
                check();
            }
        } catch (IOException | RuntimeException | InterruptedException why) {
            shut(new IOException("no session was begun"));
            throw why;
        }
    }

    private static Thread daemon(Runnable runs, String name) {
        Thread thread = new Thread(runs, name);
        thread.setDaemon(true);
        thread.start();
        return thread;
    }

    private static long ends(long milliseconds) {
        return System.nanoTime() + TimeUnit.MILLISECONDS.toNanos(milliseconds);
    }

    private static long left(long ends) {
        return Math.max((ends - System.nanoTime() + 999_999) / 1_000_000, 0);
    }

    /**
     * Ends the session, and waits for that for 2 seconds at most: its locks are free then, its ephemeral nodes go, and nothing waits for
     * its cache. If no master answers by then, or another call is under way for so long, the session ends with its lease.
     */
    @Override
    public void close() {
        long ends = ends(PARTING);
        try {
            if (calling.tryAcquire(PARTING, TimeUnit.MILLISECONDS)) {
                try {
                    while (leaveOnce(ends)) {
                        Thread.sleep(CALL_PAUSE);
                    }
                } finally {
                    calling.release();
                }
            }
        } catch (InterruptedException why) {
            Thread.currentThread().interrupt();
        }
        shut(new IOException("the client is closed"));
    }

    private boolean leaveOnce(long ends) throws InterruptedException {
        synchronized (guard) {
            tell(session.note(Clock.latest()));
            if (fault != null || session.state != Session.State.LIVE || left(ends) == 0) {
                return false;
            }
            if (!session.isInJeopardy) {
                Session.Waiting call = session.leave();
                send(call.block);
                while (!call.hasEnded && left(ends) > 0) {
                    guard.wait(left(ends));
                }
            }
            return session.state == Session.State.LIVE;
        }
    }

    /** Lets no call go on. */
    private void shut(IOException why) {
        synchronized (guard) {
            fault = fault == null ? why : fault;
            if (session.state != Session.State.LEFT && session.state != Session.State.LOST) {
                tell(session.lose(Session.State.LOST));
            }
            if (connection != null) {
                connection.end();
            }
            guard.notifyAll();
        }
    }

    // ---- the threads that keep the session

    private Connection greetOne(long ends) throws IOException, InterruptedException {
        while (true) {
            try {
                return greet(Codec.hello(principal));
            } catch (TurnedAway why) {
                throw why;
            } catch (IOException why) {
                if (servers.size() == 1 && told.isEmpty() || left(ends) == 0) {
                    throw why;
                }
                Thread.sleep(FIRST_WAIT);
            }
        }
    }

    /** Greets the server that the last one told of, or else the next one. */
    private Connection greet(byte[] greeting) throws IOException {
        String server = told.isEmpty() ? servers.get(0) : told;
        told = "";
        Connection one = null;
        try {
            one = new Connection(server, trust);
            welcomed(one.greet(greeting), server);
            return one;
        } catch (IOException | RuntimeException why) {
            if (one != null) {
                one.end();
            }
            servers.add(servers.remove(0));
            throw why;
        }
    }

    /**
     * Takes the number that a server gave. One server of several ends no session before the others said that they don't know this client,
     * or that such a one is master: one that was replaced doesn't know the numbers that its successor gave.
     */
    private void welcomed(Codec.Welcome found, String server) throws IOException {
        if (found.isBound()) {
            number = found.client();
            token = found.token();
            denying.clear();
            return;
        }
        if (servers.contains(found.master()) || Connection.isFollowed(found.master(), server)) {
            told = found.master();
        }
        String reason = found.reason() < REASONS.length ? REASONS[found.reason()] : "reason " + found.reason();
        boolean isMasterDenying = found.reason() == Codec.NOT_MASTER && denying.contains(Connection.place(found.master()));
        if (found.reason() == WRONG_TOKEN || isMasterDenying) {
            denying.add(Connection.place(server));
            if (servers.stream().allMatch(one -> denying.contains(Connection.place(one)))) {
                throw new TurnedAway(REASONS[WRONG_TOKEN]);
            }
            throw new IOException(reason);
        }
        if (found.reason() == Codec.NOT_MASTER || TURNED_AWAY_FOR_NOW.contains(found.reason())) {
            throw new IOException(reason);
        }
        throw new TurnedAway(reason);
    }

    private void keep(Connection first) {
        Connection next = first;
        long pause = FIRST_WAIT;
        while (goesOn()) {
            try {
                next = next == null ? greet(Codec.helloAgain(principal, number, token)) : next;
                pause = FIRST_WAIT;
                hear(next);
            } catch (TurnedAway why) {
                shut(why);
            } catch (IOException why) {
                // (whatever ends a connection, another is made)
            } catch (RuntimeException | Error why) {
                shut(new IOException("the client's thread has ended", why));
            }
            if (next != null) {
                next.end();
            }
            next = null;
            synchronized (guard) {
                connection = null;
                tell(session.note(Clock.latest()));
            }
            // (a random part of it, so that not all clients of a server that is gone come back at once)
            rest(ThreadLocalRandom.current().nextLong(pause / 2, pause + 1));
            pause = Math.min(2 * pause, LAST_WAIT);
        }
    }

    private void rest(long pause) {
        synchronized (guard) {
            long ends = ends(pause);
            try {
                while (goesOn() && left(ends) > 0) {
                    guard.wait(left(ends));
                }
            } catch (InterruptedException why) {
                // (nobody interrupts it)
            }
        }
    }

    private boolean goesOn() {
        synchronized (guard) {
            return fault == null && (session.state == Session.State.UNSTARTED || session.state == Session.State.LIVE);
        }
    }

    /** Takes what comes over a connection, until that ends. */
    private void hear(Connection present) throws IOException {
        synchronized (guard) {
            connection = present;
            schedule.isAnswered = true;
            beat(true);
            guard.notifyAll();
        }
        while (goesOn()) {
            Message message = Codec.readMessage(present.next());
            synchronized (guard) {
                take(message);
                guard.notifyAll();
            }
        }
    }

    private void take(Message message) {
        Session.Waiting call = session.waiting;
        if (message.kind != Message.NOTICE) {
            tell(session.give(Clock.latest(), message));
        } else if (call != null && message.number == call.number) {
            call.limit = message.text;
        }
        schedule.heard(Clock.latest(), message);
        beatIfDue();
    }

    private void beatIfDue() {
        if (connection != null && Clock.latest() >= schedule.due) {
            beat(!schedule.isAnswered);
        }
    }

    /** Beats; and sends the call that has no reply yet again, where its message or the reply may be lost. */
    private void beat(boolean isAgain) {
        tell(session.note(Clock.latest()));
        long moment = Clock.earliest();
        byte[] block = session.beat(moment);
        if (block != null) {
            send(block);
            schedule.beaten(moment, session.beats, session.lease.until());
        }
        if (isAgain && session.waiting != null) {
            send(session.waiting.block);
        }
    }

    /** Looks at the lease when it ends, and beats when that is due. */
    private void tick() {
        synchronized (guard) {
            while (goesOn()) {
                tell(session.note(Clock.latest()));
                beatIfDue();
                long look = schedule.due;
                if (session.state == Session.State.LIVE && !session.isInJeopardy) {
                    look = connection == null ? session.lease.until() : Math.min(look, session.lease.until());
                } else if (connection == null) {
                    look = Long.MAX_VALUE;
                }
                try {
                    // (a timer stands still while the machine sleeps)
                    guard.wait(Math.max(1, Math.min(look - Clock.latest(), LONGEST_WAIT)));
                } catch (InterruptedException why) {
                    // (nobody interrupts it)
                }
            }
        }
    }

    /** What is lost with a connection goes again with the next one. */
    private void send(byte[] block) {
        if (connection != null) {
            connection.send(block);
        }
    }

    private void tell(List<Event> events) {
        for (Event event : events) {
            subscriptions.forEach(subscription -> subscription.put(event));
        }
        if (!events.isEmpty()) {
            guard.notifyAll();
        }
    }

    /** Begins a queue of what the client is told of. Close it when nobody takes from it any more. */
    public Subscription subscribe() {
        Subscription subscription = new Subscription(this);
        subscriptions.add(subscription);
        return subscription;
    }

    void unsubscribe(Subscription subscription) {
        subscriptions.remove(subscription);
    }

    // ---- calls

    private void check() throws IOException {
        if (fault != null) {
            throw fault instanceof TurnedAway ? fault : new IOException(fault.getMessage(), fault);
        }
        if (session.state != Session.State.LIVE || session.leaving) {
            throw new Refused(session.state == Session.State.LOST ? Refused.SESSION_EXPIRED : Refused.NO_SESSION);
        }
        if (session.isInJeopardy) {
            throw new Refused(Refused.IN_JEOPARDY);
        }
    }

    /** Whether the client is sure of its session at this moment: it lives, and its lease runs. */
    public boolean isSafe() {
        synchronized (guard) {
            tell(session.note(Clock.latest()));
            return fault == null && session.state == Session.State.LIVE && !session.leaving && !session.isInJeopardy;
        }
    }

    /** A number that is another one after each jeopardy; -1 where the client isn't safe at this moment. */
    long safety() {
        synchronized (guard) {
            return isSafe() ? session.jeopardies : -1;
        }
    }

    private static boolean isForNow(Refused why, boolean onlyReads) {
        return why.limit() == null
                && switch (why.number()) {
                    case Refused.BUSY, Refused.RECOVERING, Refused.IN_JEOPARDY -> true;
                    case Refused.UNKNOWN -> onlyReads;
                    default -> false;
                };
    }

    /** Makes a call, again while it is refused for now; one that only reads also where its outcome got lost. */
    private Answer call(Request request) throws IOException, InterruptedException {
        long ends = ends(patience);
        while (true) {
            try {
                return callOnce(request);
            } catch (Refused why) {
                if (!isForNow(why, request.onlyReads()) || left(ends) == 0) {
                    throw why;
                }
                Thread.sleep(CALL_PAUSE);
            }
        }
    }

    private Answer callOnce(Request request) throws IOException, InterruptedException {
        calling.acquire();
        Session.Waiting call = null;
        boolean isAbandoned = false;
        try {
            synchronized (guard) {
                call = ask(request);
                while (!call.hasEnded) {
                    guard.wait();
                }
            }
        } catch (InterruptedException why) {
            isAbandoned = call != null;
            if (isAbandoned) {
                Session.Waiting left = call;
                daemon(() -> abandon(left), "tillermoss-abandoned");
            }
            throw why;
        } finally {
            if (!isAbandoned) {
                calling.release();
            }
        }
        if (call.result instanceof Refusal refusal) {
            throw new Refused(refusal, call.limit);
        }
        return new Answer(call.number, call.result);
    }

    private Session.Waiting ask(Request request) throws IOException {
        tell(session.note(Clock.latest()));
        check();
        byte[] sequencer = request.sequencer();
        if (sequencer == null && request.handle() != null) {
            sequencer = request.handle().sequencer;
        }
        Session.Waiting call = session.ask(request, sequencer);
        send(call.block);
        return call;
    }

    /** Waits for the answer that nobody wants any more, and takes back what it gave. Meanwhile no other call is under way. */
    private void abandon(Session.Waiting call) {
        try {
            synchronized (guard) {
                Object result = ended(call);
                byte[] body = call.request.undo() == null ? null : call.request.undo().apply(result);
                while (body != null && goesOn()) {
                    Object back = session.isInJeopardy ? new Refusal(Refused.IN_JEOPARDY, 0, null) : ended(ask(Request.of(body)));
                    if (!(back instanceof Refusal refusal) || !isForNow(new Refused(refusal, null), true)) {
                        return;
                    }
                    rest(CALL_PAUSE);
                }
            }
        } catch (IOException | RuntimeException | InterruptedException why) {
            // (with the session what it had goes)
        } finally {
            calling.release();
        }
    }

    private Object ended(Session.Waiting call) throws InterruptedException {
        while (!call.hasEnded) {
            guard.wait();
        }
        return call.result;
    }

    /** Refuses what no server takes before it is sent: each such message would end the connection, until the session is lost. */
    private static void refuse(int number, boolean isRefused) {
        if (isRefused) {
            throw new Refused(number);
        }
    }

    /** Opens a node; one that isn't there is made where the opening says so. */
    public Handle open(String name, Opening opening) throws IOException, InterruptedException {
        boolean hasBadAcl = opening.acls() != null && !opening.acls().stream().allMatch(Codec::isComponent);
        refuse(Refused.BAD_NAME, !Codec.isName(name) || hasBadAcl);
        refuse(Refused.TOO_LARGE, opening.content() != null && opening.content().length > Codec.CONTENT_LIMIT);
        refuse(Refused.DELAY_TOO_LONG, opening.delay() < 0 || opening.delay() > 60_000);
        refuse(Refused.PROTOCOL_FAULT, opening.mode() < 1 || opening.mode() > 7 || opening.events() < 0 || opening.events() > 15);
        if (!opening.must()) {
            try {
                // (an Open that may make a node waits until all who cache it have let it go)
                return openAs(name, opening, false);
            } catch (Refused why) {
                if (!opening.makes() || why.number() != Refused.NOT_FOUND) {
                    throw why;
                }
            }
        }
        return openAs(name, opening, true);
    }

    private Handle openAs(String name, Opening opening, boolean makes) throws IOException, InterruptedException {
        if (!makes && isAbsent(name)) {
            throw new Refused(Refused.NOT_FOUND);
        }
        Function<Object, byte[]> undo =
                result -> result instanceof Message.Opened opened ? Codec.onHandle(Codec.CLOSE, opened.handle()) : null;
        byte[] body = Codec.opening(name, opening, makes);
        Answer answer = call(new Request(body, null, name, null, false, false, !makes, undo));
        Message.Opened opened = (Message.Opened) answer.result();
        return new Handle(name, opened.handle(), opened.instance(), answer.number(), (opening.mode() & Opening.READ) != 0);
    }

    private boolean isAbsent(String name) {
        synchronized (guard) {
            Optional<View> found = isSafe() ? session.cached(Clock.latest(), name) : null;
            return found != null && found.isEmpty();
        }
    }

    /** A view, and whether the cache answered. */
    public record Found(View view, boolean isCached) {}

    /** Reads a node, out of the cache where that holds it under a lease that runs. */
    public View read(Handle handle) throws IOException, InterruptedException {
        return find(handle).view();
    }

    /** As read; and says whether the cache answered. */
    public Found find(Handle handle) throws IOException, InterruptedException {
        return find(handle, Codec.READ);
    }

    /** The last components of a directory's children, in the order of their bytes. */
    public List<String> list(Handle handle) throws IOException, InterruptedException {
        return find(handle, Codec.LIST).view().children();
    }

    private Found find(Handle handle, int kind) throws IOException, InterruptedException {
        synchronized (guard) {
            boolean mayBe = isSafe() && handle.mayRead && handle.sequencer == null;
            Optional<View> found = mayBe ? session.cached(Clock.latest(), handle.name) : null;
            if (found != null && (found.isEmpty() || found.get().instance() != handle.instance)) {
                throw new Refused(Refused.STALE_INSTANCE);
            }
            if (found != null && (kind == Codec.READ || found.get().isDirectory())) {
                return new Found(found.get().copied(), true);
            }
        }
        byte[] body = Codec.onHandle(kind, handle.content);
        Answer answer = call(new Request(body, handle, handle.name, null, true, true, false, null));
        return new Found(((View) answer.result()).copied(), false);
    }

    /** The numbers of a node, from the master. */
    public Stat stat(Handle handle) throws IOException, InterruptedException {
        return (Stat) call(Request.on(handle, Codec.onHandle(Codec.STAT, handle.content), true)).result();
    }

    /** Gives a file a new content. */
    public void set(Handle handle, byte[] content) throws IOException, InterruptedException {
        setWhere(handle, content, null);
    }

    /** Gives a file a new content where its content has that generation. */
    public void setIf(Handle handle, byte[] content, long generation) throws IOException, InterruptedException {
        setWhere(handle, content, generation);
    }

    private void setWhere(Handle handle, byte[] content, Long generation) throws IOException, InterruptedException {
        refuse(Refused.TOO_LARGE, content.length > Codec.CONTENT_LIMIT);
        call(Request.on(handle, new Codec.Out().bytes(Codec.SET).sized(handle.content).sized(content).optional(generation).done(), false));
    }

    /** Gives a node other ACLs. */
    public void setAcls(Handle handle, String read, String write, String change) throws IOException, InterruptedException {
        List<String> acls = List.of(read, write, change);
        refuse(Refused.BAD_NAME, !acls.stream().allMatch(Codec::isComponent));
        call(Request.on(handle, new Codec.Out().bytes(Codec.SET_ACL).sized(handle.content).texts(acls).bytes(0).done(), false));
    }

    /** Ends a node. */
    public void delete(Handle handle) throws IOException, InterruptedException {
        call(Request.on(handle, Codec.onHandle(Codec.DELETE, handle.content), false));
    }

    /** Ends a handle. */
    public void closeHandle(Handle handle) throws IOException, InterruptedException {
        call(Request.of(Codec.onHandle(Codec.CLOSE, handle.content)));
    }

    /** Waits until the node's lock is held: by this handle alone, or shared. */
    public void acquire(Handle handle, boolean shared) throws IOException, InterruptedException {
        acquire(handle, shared, Codec.ACQUIRE);
    }

    /** Gets the node's lock, or is refused as HELD or DELAYED. */
    public void tryAcquire(Handle handle, boolean shared) throws IOException, InterruptedException {
        acquire(handle, shared, Codec.TRY_ACQUIRE);
    }

    private void acquire(Handle handle, boolean shared, int kind) throws IOException, InterruptedException {
        Function<Object, byte[]> undo = result -> {
            boolean isHeld = !(result instanceof Refusal why) || why.number() == Refused.UNKNOWN;
            return isHeld ? Codec.onHandle(Codec.RELEASE, handle.content) : null;
        };
        byte[] body = new Codec.Out().bytes(kind).sized(handle.content).flag(shared).done();
        call(new Request(body, handle, handle.name, null, false, false, false, undo));
    }

    /** Gives the node's lock back. */
    public void release(Handle handle) throws IOException, InterruptedException {
        call(Request.on(handle, Codec.onHandle(Codec.RELEASE, handle.content), false));
    }

    /** Bytes by which another program can test that the handle's lock is still held. */
    public byte[] sequencer(Handle handle) throws IOException, InterruptedException {
        return (byte[]) call(Request.on(handle, Codec.onHandle(Codec.GET_SEQUENCER, handle.content), true)).result();
    }

    /** The number of up to 128 bits in a sequencer, which rises from one holder of a name to the next. */
    public static BigInteger fencingNumber(byte[] sequencer) {
        BigInteger number = Codec.fencingNumber(sequencer);
        refuse(Refused.BAD_SEQUENCER, number == null);
        return number;
    }

    /** Has the handle's later calls stand under this sequencer; the cache answers none of them. */
    public void setSequencer(Handle handle, byte[] sequencer) throws IOException, InterruptedException {
        refuse(Refused.BAD_SEQUENCER, sequencer.length > Codec.SEQUENCER_LIMIT);
        byte[] own = sequencer.clone();
        byte[] body = Codec.onHandle(Codec.SET_SEQUENCER, handle.content);
        call(new Request(body, handle, handle.name, own, false, false, false, null));
        synchronized (guard) {
            handle.sequencer = own;
        }
    }

    /** Refused as SEQUENCER_STALE where the sequencer isn't valid any more. */
    public void checkSequencer(byte[] sequencer) throws IOException, InterruptedException {
        refuse(Refused.BAD_SEQUENCER, sequencer.length > Codec.SEQUENCER_LIMIT);
        byte[] body = new Codec.Out().bytes(Codec.CHECK_SEQUENCER).sized(sequencer).done();
        call(new Request(body, null, null, null, true, false, false, null));
    }

    // ---- recipes

    /**
     * Waits for the exclusive lock of a file, which is made where it isn't there.
     *
     * @param delay for so many milliseconds nobody gets the lock after its holder was lost
     */
    public Lock lock(String name, int delay) throws IOException, InterruptedException {
        Handle handle = open(name, Opening.toWrite().making(new byte[0]).withDelay(delay));
        while (true) {
            try {
                acquire(handle, false);
            } catch (Refused why) {
                if (why.number() != Refused.UNKNOWN) {
                    closeHandle(handle);
                    throw why;
                }
            }
            long safety = safety();
            try {
                return new Lock(this, handle, sequencer(handle), safety);
            } catch (Refused why) {
                // (a fail-over took the answer, and the lock wasn't got)
                if (why.number() != Refused.NOT_HOLDER) {
                    throw why;
                }
            }
        }
    }

    /** Waits until this client is the primary of a name: it holds the file's lock, and the file says who it is. */
    public Lock elect(String name, byte[] who) throws IOException, InterruptedException {
        Lock lock = lock(name, 0);
        while (true) {
            try {
                set(lock.handle(), who);
                return lock;
            } catch (Refused why) {
                if (why.number() != Refused.UNKNOWN) {
                    lock.unlock();
                    throw why;
                }
            }
        }
    }

    /** What a watch shows. */
    public interface Shown {
        /** The node as it is; null where it isn't there. False ends the watch. */
        boolean show(View view) throws IOException, InterruptedException;
    }

    /**
     * Shows a node as it is, and then after each change. Of changes that follow each other closely it shows the last. It goes on until it is
     * told to end, the thread is interrupted, or the session is lost.
     */
    public void watch(String name, Shown shown) throws IOException, InterruptedException {
        try (Subscription subscription = subscribe()) {
            Handle handle = null;
            View last = null;
            for (boolean isFirst = true; ; isFirst = false) {
                View view = null;
                try {
                    handle = handle == null ? open(name, Opening.toRead().withEvents(Opening.CONTENTS | Opening.CHILDREN)) : handle;
                    view = read(handle);
                } catch (Refused why) {
                    if (isGone(why) && handle != null) {
                        handle = null;
                        continue;
                    }
                    if (why.number() != Refused.NOT_FOUND) {
                        throw why;
                    }
                }
                boolean isSame = view == null ? last == null : view.isOf(last);
                last = view;
                if ((isFirst || !isSame) && !shown.show(view)) {
                    return;
                }
                untilChanged(subscription, handle);
            }
        }
    }

    private static boolean isGone(Refused why) {
        return Set.of(Refused.STALE_INSTANCE, Refused.POISONED, Refused.BAD_HANDLE).contains(why.number());
    }

    private void untilChanged(Subscription subscription, Handle handle) throws IOException, InterruptedException {
        if (handle == null) {
            // (the cache says that it isn't there)
            Thread.sleep(2 * CALL_PAUSE);
            return;
        }
        while (true) {
            Event event = subscription.next(LONGEST_WAIT);
            if (event == null) {
                synchronized (guard) {
                    if (fault != null) {
                        check();
                    }
                }
            } else if (event.kind() == Event.Kind.LOST && event.opened() == 0) {
                throw new Refused(Refused.SESSION_EXPIRED);
            } else if (event.opened() == handle.opened || event.kind() == Event.Kind.FAIL_OVER || event.kind() == Event.Kind.SAFE) {
                return;
            }
        }
    }
}
