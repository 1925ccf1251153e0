package tillermoss;

import java.io.IOException;
import java.nio.file.Files;
import java.nio.file.Path;
import java.util.ArrayDeque;
import java.util.ArrayList;
import java.util.Arrays;
import java.util.HexFormat;
import java.util.List;
import java.util.Map;

/** The bytes that all clients share, hosts/conformance/vectors.txt: what is sent is these, and what comes is read so. */
final class VectorTests {
    private record Vector(String words, byte[] block) {}

    private VectorTests() {}

    private static List<Vector> vectors(String kind, int atLeast) throws IOException {
        List<Vector> found = new ArrayList<>();
        for (String line : Files.readAllLines(Path.of("../conformance/vectors.txt"))) {
            String[] parts = line.split("\\|", 3);
            if (parts.length == 3 && parts[0].strip().equals(kind)) {
                found.add(new Vector(parts[1].strip(), HexFormat.of().parseHex(parts[2].replace(" ", ""))));
            }
        }
        Check.equal(found.size() >= atLeast, true);
        return found;
    }

    /** Takes words from the left. */
    private static final class Words {
        private final ArrayDeque<String> left;

        Words(String words) {
            left = new ArrayDeque<>(Arrays.asList(words.split(" ")));
        }

        String next(String... names) {
            for (String name : names) {
                Check.equal(left.removeFirst(), name);
            }
            return left.removeFirst();
        }

        long number(String... names) {
            return Long.parseUnsignedLong(next(names));
        }

        byte[] content(String... names) {
            String word = next(names);
            return word.equals("none") ? null : word.equals("-") ? new byte[0] : HexFormat.of().parseHex(word);
        }
    }

    private static byte[] open(Words words) {
        String name = words.next();
        Opening opening = Opening.toRead().withMode((int) words.number("mode"));
        String must = words.next("create");
        if (!must.equals("none")) {
            opening = words.next().equals("directory") ? opening.makingDirectory() : opening.making(words.content());
            opening = must.equals("must") ? opening.mustMake() : opening;
            opening = words.next().equals("ephemeral") ? opening.ephemerally() : opening;
            String first = words.next("acls");
            opening = first.equals("none") ? opening : opening.withAcls(first, words.next(), words.next());
        }
        opening = opening.withDelay((int) words.number("lock-delay"));
        return Codec.opening(name, opening.withEvents((int) words.number("events")), !must.equals("none"));
    }

    private static byte[] body(Words words) {
        Map<String, Integer> alone = Map.of("Close", 1, "Read", 2, "Stat", 3, "List", 4, "Delete", 7, "Release", 10, "GetSequencer", 11, "SetSequencer", 12);
        String kind = words.next();
        switch (kind) {
            case "Open":
                return open(words);
            case "Leave":
                return new byte[] {Codec.LEAVE};
            case "CheckSequencer":
                return new Codec.Out().bytes(Codec.CHECK_SEQUENCER).sized(words.content()).done();
            case "Set":
                Codec.Out set = new Codec.Out().bytes(Codec.SET).sized(words.content()).sized(words.content("content"));
                String generation = words.next("generation");
                return set.optional(generation.equals("none") ? null : Long.valueOf(generation)).done();
            case "Acquire", "TryAcquire":
                int number = kind.equals("Acquire") ? Codec.ACQUIRE : Codec.TRY_ACQUIRE;
                return new Codec.Out().bytes(number).sized(words.content()).flag(words.next().equals("s")).done();
            default:
                return Codec.onHandle(alone.get(kind), words.content());
        }
    }

    private static byte[] request(Words words) {
        String kind = words.next();
        long client = words.number("client");
        if (kind.equals("Start")) {
            return Codec.start(client, words.number("number"), words.next("principal"));
        }
        long epoch = words.number("epoch"), number = words.number("number");
        if (kind.equals("Beat")) {
            return Codec.beat(client, epoch, number, words.number("invalidations"), words.number("events"));
        }
        byte[] body = body(words);
        return Codec.call(client, epoch, number, body, words.content("sequencer"));
    }

    static void requests() throws Exception {
        for (Vector vector : vectors("request", 20)) {
            Check.equal(HexFormat.of().formatHex(request(new Words(vector.words))), HexFormat.of().formatHex(vector.block));
        }
    }

    static void greetings() throws Exception {
        for (Vector vector : vectors("greeting", 2)) {
            Words words = new Words(vector.words);
            String principal = words.next("principal");
            boolean isNew = words.left.isEmpty();
            Check.equal(isNew ? Codec.hello(principal) : Codec.helloAgain(principal, words.number("client"), words.number("token")), vector.block);
        }
    }

    static void welcomes() throws Exception {
        for (Vector vector : vectors("welcome", 4)) {
            Codec.Welcome found = Codec.readWelcome(vector.block);
            String said = found.isBound() ? "client " + found.client() + " token " + found.token() : "reason " + found.reason();
            said += found.reason() == Codec.NOT_MASTER ? " master " + orDash(found.master()) : "";
            Check.equal(said, vector.words);
        }
    }

    private static String orDash(String text) {
        return text.isEmpty() ? "-" : text;
    }

    private static String hex(byte[] bytes) {
        return orDash(HexFormat.of().formatHex(bytes));
    }

    private static String life(boolean isEphemeral) {
        return isEphemeral ? "ephemeral" : "permanent";
    }

    private static String kind(boolean isDirectory) {
        return isDirectory ? "dir" : "file";
    }

    private static String inWords(Object result) {
        if (result instanceof Message.Opened opened) {
            return "opened " + hex(opened.handle()) + " instance " + opened.instance() + " " + life(opened.isEphemeral());
        }
        if (result instanceof View view) {
            String numbers = view.instance() + " " + view.contentGeneration() + " " + view.aclGeneration();
            String head = kind(view.isDirectory()) + " " + numbers + " " + String.join(" ", view.acls()) + " " + life(view.isEphemeral());
            return ("view " + head + " content " + hex(view.content()) + " children " + String.join(" ", view.children())).strip();
        }
        if (result instanceof Stat stat) {
            String numbers = stat.instance() + " " + stat.contentGeneration() + " " + stat.aclGeneration() + " " + stat.lockGeneration();
            String head = kind(stat.isDirectory()) + " " + numbers + " " + String.join(" ", stat.acls()) + " " + life(stat.isEphemeral());
            return "stat " + head + " length " + stat.length();
        }
        if (result instanceof byte[] bytes) {
            return "sequencer " + hex(bytes);
        }
        return result instanceof Refusal refusal ? "refused " + refusal.number() + " " + refusal.text() : "done";
    }

    private static String inWords(Event event) {
        StringBuilder said = new StringBuilder(event.kind().word);
        for (long number : new long[] {event.opened(), event.instance(), event.generation()}) {
            said.append(number == 0 ? "" : " " + number);
        }
        return (said + " " + event.name()).strip();
    }

    private static String inWords(Message message) {
        String head = " client " + message.client + " epoch " + message.epoch + " number " + message.number;
        switch (message.kind) {
            case Message.NOTICE:
                return "Notice number " + message.number + " text " + orDash(message.text);
            case Message.STARTED:
                return "Started" + head + " span " + message.span;
            case Message.REFUSED:
                return "Refused" + head + inWords(message.result).substring("refused".length());
            case Message.REPLY:
                return "Reply" + head + " stamp " + (message.hasStamp ? message.stamp : "none") + " " + inWords(message.result);
            default:
                StringBuilder said = new StringBuilder("Alive" + head + " span " + message.span + " invalidations");
                message.invalidations.forEach(one -> said.append(" " + one.number() + " " + one.name()));
                said.append(" events");
                message.events.forEach(one -> said.append(" " + one.number() + " " + inWords(one.event())));
                return said.toString();
        }
    }

    static void messages() throws Exception {
        for (Vector vector : vectors("message", 20)) {
            Message found = Codec.readMessage(vector.block);
            Check.equal(inWords(found), vector.words);
            // (the text of a notice ends with its block)
            int last = found.kind == Message.NOTICE ? 10 : vector.block.length;
            for (int length = 0; length < last; length++) {
                Check.equal(isMessage(Arrays.copyOf(vector.block, length)), false);
            }
        }
    }

    private static boolean isMessage(byte[] block) {
        try {
            Codec.readMessage(block);
            return true;
        } catch (Malformed why) {
            return false;
        }
    }

    static void whatIsNoMessage() throws Exception {
        for (Vector vector : vectors("wrong", 10)) {
            Check.equal(vector.words + isMessage(vector.block), vector.words + false);
        }
    }

    static void fencingNumbers() {
        byte[] sequencer = HexFormat.of().parseHex("01010000000000000004000000000000000100072f6c732f632f66");
        Check.equal(Codec.fencingNumber(sequencer).toString(), "73786976294838206465");
        Check.equal(Codec.fencingNumber(Arrays.copyOf(sequencer, 26)), null);
        Check.equal(Codec.fencingNumber(Arrays.copyOf(sequencer, 28)), null);
        Check.equal(Codec.fencingNumber(new byte[0]), null);
    }
}
