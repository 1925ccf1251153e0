package tillermoss;

import java.io.BufferedReader;
import java.io.IOException;
import java.io.InputStreamReader;
import java.math.BigInteger;
import java.nio.file.Files;
import java.nio.file.Path;
import java.util.List;
import java.util.concurrent.CompletableFuture;
import java.util.concurrent.LinkedBlockingQueue;
import java.util.concurrent.TimeUnit;
import java.util.concurrent.atomic.AtomicInteger;

/** The client beside a real server: TILLERMOSSD and CELLCTL name the two programs. */
final class ServerTests {
    private static final String NAME = "/ls/c/f";

    private ServerTests() {}

    /** A server over a store of its own, which can go and come again at the same port. */
    private static final class Server implements AutoCloseable {
        private final Path folder = Files.createTempDirectory("tillermoss");
        private Process child;
        private String address = ":0";

        Server() throws IOException {
            start();
        }

        void start() throws IOException {
            String port = address.substring(address.lastIndexOf(':') + 1);
            String store = folder.resolve("store.db").toString();
            ProcessBuilder words = new ProcessBuilder(System.getenv("TILLERMOSSD"), port, "--store", store, "--master", System.getenv("CELLCTL"));
            child = words.redirectError(folder.resolve("log").toFile()).start();
            String line = new BufferedReader(new InputStreamReader(child.getInputStream())).readLine();
            address = line.split(" ")[1].replaceFirst("^tcp:", "");
        }

        Client client(String principal) throws Exception {
            return Client.connect(address, principal);
        }

        void kill() throws InterruptedException {
            child.destroyForcibly().waitFor();
        }

        @Override
        public void close() throws IOException {
            child.destroy();
            child.onExit().join();
            for (String name : folder.toFile().list()) {
                Files.delete(folder.resolve(name));
            }
            Files.delete(folder);
        }
    }

    private static String text(Client client, Handle handle) throws Exception {
        return new String(client.read(handle).content());
    }

    private static <T> CompletableFuture<T> later(java.util.concurrent.Callable<T> does) {
        CompletableFuture<T> found = new CompletableFuture<>();
        Thread thread = new Thread(() -> {
            try {
                found.complete(does.call());
            } catch (Throwable why) {
                found.completeExceptionally(why);
            }
        });
        thread.setDaemon(true);
        thread.start();
        return found;
    }

    static void aFileFromItsMakingToItsEnd() throws Exception {
        try (Server server = new Server(); Client client = server.client("ann")) {
            Check.refused(Refused.NOT_FOUND, () -> client.open(NAME, Opening.toRead()));
            Handle file = client.open(NAME, Opening.toWrite().making("one".getBytes()).mustMake());
            Check.equal(client.find(file).isCached(), false);
            Check.equal(client.find(file).isCached(), true);
            client.read(file).content()[0] = 'X';
            Check.equal(text(client, file), "one");
            client.setIf(file, "two".getBytes(), 1);
            Check.equal(text(client, file), "two");
            Check.refused(Refused.WRONG_GENERATION, () -> client.setIf(file, new byte[0], 1));
            Check.equal(client.stat(file).length(), 3L);
            client.delete(file);
            Check.refused(Refused.STALE_INSTANCE, () -> client.read(file));
            Handle directory = client.open("/ls/c/d", Opening.toRead().makingDirectory());
            client.open("/ls/c/d/b", Opening.toWrite().making(new byte[0]));
            client.open("/ls/c/d/a", Opening.toWrite().making(new byte[0]).ephemerally());
            Check.equal(client.list(directory), List.of("a", "b"));
        }
    }

    static void whatNoServerTakesIsRefusedAtOnce() throws Exception {
        try (Server server = new Server(); Client client = server.client("ann")) {
            byte[] large = new byte[1 << 20];
            Handle file = client.open(NAME, Opening.toWrite().making("first".getBytes()));
            for (String name : List.of("f", "/ls/c/F", "/ls/c/", "/ls/c/\u00e9", "/ls/c/f\n", "/ls/c" + "/aaaaaaaaa".repeat(60))) {
                Check.refused(Refused.BAD_NAME, () -> client.open(name, Opening.toRead()));
            }
            Check.refused(Refused.TOO_LARGE, () -> client.set(file, large));
            Check.refused(Refused.BAD_SEQUENCER, () -> client.checkSequencer(large));
            Check.refused(Refused.BAD_PRINCIPAL, () -> server.client("Nobody"));
            Check.equal(text(client, file), "first");
            client.set(file, new byte[Codec.CONTENT_LIMIT]);
        }
    }

    static void aCacheNeverShowsWhatAWriteHasReplaced() throws Exception {
        try (Server server = new Server(); Client writer = server.client("ann"); Client reader = server.client("bob")) {
            Handle file = writer.open(NAME, Opening.toWrite().making("0".getBytes()));
            AtomicInteger written = new AtomicInteger(), served = new AtomicInteger();
            CompletableFuture<Boolean> reads = later(() -> {
                Handle handle = reader.open(NAME, Opening.toRead());
                while (written.get() < 40) {
                    int least = written.get();
                    Client.Found found = reader.find(handle);
                    served.addAndGet(found.isCached() ? 1 : 0);
                    if (Integer.parseInt(new String(found.view().content())) < least) {
                        return false;
                    }
                }
                return true;
            });
            for (int number = 1; number <= 40; number++) {
                writer.set(file, Integer.toString(number).getBytes());
                written.set(number);
                Thread.sleep(10);
            }
            Check.equal(reads.get(60, TimeUnit.SECONDS), true);
            Check.equal(served.get() > 0, true);
        }
    }

    static void locksAndSequencers() throws Exception {
        try (Server server = new Server(); Client first = server.client("ann"); Client second = server.client("bob")) {
            Handle file = first.open(NAME, Opening.toWrite().making(new byte[0]));
            Handle other = second.open(NAME, Opening.toWrite());
            first.acquire(file, false);
            Check.refused(Refused.HELD, () -> second.tryAcquire(other, false));
            byte[] sequencer = first.sequencer(file);
            second.checkSequencer(sequencer);
            CompletableFuture<Boolean> gets = later(() -> {
                second.acquire(other, false);
                return true;
            });
            Thread.sleep(200);
            Check.equal(gets.isDone(), false);
            first.release(file);
            gets.get(60, TimeUnit.SECONDS);
            Check.refused(Refused.SEQUENCER_STALE, () -> first.checkSequencer(sequencer));
            byte[] next = second.sequencer(other);
            Check.equal(Client.fencingNumber(next).compareTo(Client.fencingNumber(sequencer)), 1);
            first.setSequencer(file, next);
            first.set(file, "under it".getBytes());
            second.release(other);
            Check.refused(Refused.SEQUENCER_STALE, () -> first.set(file, "late".getBytes()));
        }
    }

    static void anAcquireThatIsInterruptedHoldsNothing() throws Exception {
        try (Server server = new Server(); Client first = server.client("ann"); Client second = server.client("bob")) {
            Handle file = first.open(NAME, Opening.toWrite().making(new byte[0]));
            first.acquire(file, false);
            Handle other = second.open(NAME, Opening.toWrite());
            LinkedBlockingQueue<String> ended = new LinkedBlockingQueue<>();
            Thread waits = new Thread(() -> {
                try {
                    second.acquire(other, false);
                } catch (Exception why) {
                    ended.add(why.getClass().getSimpleName());
                }
            });
            waits.start();
            Thread.sleep(300);
            waits.interrupt();
            Check.equal(ended.poll(30, TimeUnit.SECONDS), "InterruptedException");
            first.release(file);
            first.acquire(file, false);
            Check.refused(Refused.HELD, () -> second.tryAcquire(other, false));
        }
    }

    static void eventsAndWatches() throws Exception {
        try (Server server = new Server(); Client client = server.client("ann"); Client writer = server.client("bob");
                Subscription subscription = client.subscribe()) {
            LinkedBlockingQueue<String> shown = new LinkedBlockingQueue<>();
            CompletableFuture<Boolean> watches = later(() -> {
                client.watch(NAME, view -> shown.add(view == null ? "none" : new String(view.content())) && shown.size() < 9);
                return true;
            });
            Check.equal(shown.poll(60, TimeUnit.SECONDS), "none");
            Handle file = writer.open(NAME, Opening.toWrite().making("one".getBytes()));
            Check.equal(shown.poll(60, TimeUnit.SECONDS), "one");
            writer.set(file, "two".getBytes());
            Check.equal(shown.poll(60, TimeUnit.SECONDS), "two");
            Event event = subscription.next(60_000);
            Check.equal(List.of(event.kind(), event.generation()), List.of(Event.Kind.CONTENTS, 2L));
            writer.delete(file);
            Check.equal(shown.poll(60, TimeUnit.SECONDS), "none");
            Check.equal(watches.isDone(), false);
        }
    }

    static void aPrimaryAndTheNextOne() throws Exception {
        try (Server server = new Server(); Client second = server.client("bob")) {
            Client first = server.client("ann");
            Lock alpha = first.elect(NAME, "alpha".getBytes());
            Check.equal(alpha.isHeld(), true);
            BigInteger number = alpha.number();
            CompletableFuture<Lock> next = later(() -> second.elect(NAME, "beta".getBytes()));
            Thread.sleep(200);
            Check.equal(next.isDone(), false);
            first.close();
            Check.equal(alpha.isHeld(), false);
            Lock beta = next.get(60, TimeUnit.SECONDS);
            Check.equal(beta.number().compareTo(number), 1);
            Check.equal(text(second, beta.handle()), "beta");
            beta.unlock();
            Check.equal(beta.isHeld(), false);
        }
    }

    static void sessionsHandlesAndLocksOutliveAServer() throws Exception {
        try (Server server = new Server(); Client client = server.client("ann"); Client other = server.client("bob");
                Subscription subscription = client.subscribe()) {
            Handle file = client.open(NAME, Opening.toWrite().making(new byte[0]));
            Handle handle = other.open(NAME, Opening.toWrite());
            client.acquire(file, false);
            other.read(handle);
            server.kill();
            server.start();
            try {
                client.set(file, "after".getBytes());
            } catch (Refused why) {
                Check.equal(why.number(), Refused.UNKNOWN);
                client.set(file, "after".getBytes());
            }
            Check.equal(text(other, handle), "after");
            Check.refused(Refused.HELD, () -> other.tryAcquire(handle, false));
            Check.equal(subscription.next(60_000).kind(), Event.Kind.FAIL_OVER);
        }
    }
}
