package tillermoss;

import java.io.ByteArrayOutputStream;
import java.math.BigInteger;
import java.nio.ByteBuffer;
import java.nio.charset.StandardCharsets;
import java.util.ArrayList;
import java.util.Arrays;
import java.util.List;
import java.util.regex.Pattern;

/** The bytes of messages, as docs/PROTOCOL.md and docs/FORMATS.md give them. */
final class Codec {
    static final int VERSION = 2, GREETING = 1;
    static final int START = 0, BEAT = 1, CALL = 2;
    static final int OPEN = 0, CLOSE = 1, READ = 2, STAT = 3, LIST = 4, SET = 5, SET_ACL = 6, DELETE = 7, ACQUIRE = 8, TRY_ACQUIRE = 9;
    static final int RELEASE = 10, GET_SEQUENCER = 11, SET_SEQUENCER = 12, CHECK_SEQUENCER = 13, LEAVE = 14;
    static final int CONTENT_LIMIT = 262_144, SEQUENCER_LIMIT = 532, NAME_LIMIT = 512, NOT_MASTER = 7;
    private static final Pattern COMPONENT = Pattern.compile("[a-z0-9._-]{1,64}");
    private static final Event.Kind[] EVENTS = Event.Kind.values();

    private Codec() {}

    /** Puts fields after each other. */
    static final class Out {
        private final ByteArrayOutputStream block = new ByteArrayOutputStream();

        Out bytes(int... bytes) {
            for (int one : bytes) {
                block.write(one);
            }
            return this;
        }

        Out plain(byte[] bytes) {
            block.writeBytes(bytes);
            return this;
        }

        Out words(long... words) {
            for (long word : words) {
                block.writeBytes(ByteBuffer.allocate(8).putLong(word).array());
            }
            return this;
        }

        Out flag(boolean is) {
            return bytes(is ? 1 : 0);
        }

        Out sized(byte[] bytes) {
            return plain(ByteBuffer.allocate(4).putInt(bytes.length).array()).plain(bytes);
        }

        Out text(String text) {
            return sized(text.getBytes(StandardCharsets.UTF_8));
        }

        Out texts(List<String> texts) {
            texts.forEach(this::text);
            return this;
        }

        Out optional(byte[] bytes) {
            return bytes == null ? bytes(0) : bytes(1).sized(bytes);
        }

        Out optional(Long word) {
            return word == null ? bytes(0) : bytes(1).words(word);
        }

        byte[] done() {
            return block.toByteArray();
        }
    }

    // ---- what a client sends

    static byte[] hello(String principal) {
        return new Out().bytes(GREETING, 0).text(principal).done();
    }

    static byte[] helloAgain(String principal, long client, long token) {
        return new Out().bytes(GREETING, 1).text(principal).words(client, token).done();
    }

    static byte[] start(long client, long number, String principal) {
        return new Out().bytes(VERSION, START).words(client, number).text(principal).done();
    }

    static byte[] beat(long client, long epoch, long number, long invalidations, long events) {
        return new Out().bytes(VERSION, BEAT).words(client, epoch, number, invalidations, events).done();
    }

    static byte[] call(long client, long epoch, long number, byte[] body, byte[] sequencer) {
        return new Out().bytes(VERSION, CALL).words(client, epoch, number).plain(body).optional(sequencer).done();
    }

    static byte[] opening(String name, Opening opening, boolean makes) {
        Out out = new Out().bytes(OPEN).text(name).bytes(opening.mode()).flag(makes);
        if (makes) {
            out.flag(opening.must()).flag(opening.directory());
            if (!opening.directory()) {
                out.sized(opening.content() == null ? new byte[0] : opening.content());
            }
            out.flag(opening.ephemeral()).flag(opening.acls() != null);
            if (opening.acls() != null) {
                out.texts(opening.acls());
            }
        }
        return out.words(opening.delay()).bytes(opening.events()).done();
    }

    static byte[] onHandle(int kind, byte[] handle) {
        return new Out().bytes(kind).sized(handle).done();
    }

    static boolean isComponent(String text) {
        return COMPONENT.matcher(text).matches() && !text.equals(".") && !text.equals("..");
    }

    static boolean isName(String text) {
        return text.startsWith("/ls/")
                && text.length() <= NAME_LIMIT
                && Arrays.stream(text.substring(4).split("/", -1)).allMatch(Codec::isComponent);
    }

    /** The number of up to 128 bits in a sequencer; null where it is none. */
    static BigInteger fencingNumber(byte[] sequencer) {
        boolean isOne = sequencer.length >= 20
                && sequencer[0] == 1
                && sequencer.length == 20 + Short.toUnsignedInt(ByteBuffer.wrap(sequencer).getShort(18));
        return isOne ? new BigInteger(1, Arrays.copyOfRange(sequencer, 2, 18)) : null;
    }

    // ---- what a server sends

    /** Takes fields from the left of a block. */
    static final class In {
        private final ByteBuffer left;

        In(byte[] block) {
            left = ByteBuffer.wrap(block);
        }

        byte[] take(long count) throws Malformed {
            if (count > left.remaining()) {
                throw new Malformed("the block ends within a field");
            }
            byte[] taken = new byte[(int) count];
            left.get(taken);
            return taken;
        }

        int octet() throws Malformed {
            return Byte.toUnsignedInt(take(1)[0]);
        }

        int choice(int count) throws Malformed {
            int found = octet();
            if (found >= count) {
                throw new Malformed("a choice of " + found + " among " + count);
            }
            return found;
        }

        boolean flag() throws Malformed {
            return choice(2) == 1;
        }

        long word() throws Malformed {
            return ByteBuffer.wrap(take(8)).getLong();
        }

        long count() throws Malformed {
            return Integer.toUnsignedLong(ByteBuffer.wrap(take(4)).getInt());
        }

        byte[] sized() throws Malformed {
            return take(count());
        }

        String text() throws Malformed {
            return new String(sized(), StandardCharsets.UTF_8);
        }

        String component() throws Malformed {
            String text = text();
            if (!isComponent(text)) {
                throw new Malformed("not a component");
            }
            return text;
        }

        String name() throws Malformed {
            String text = text();
            if (!isName(text)) {
                throw new Malformed("not a name");
            }
            return text;
        }

        List<String> acls() throws Malformed {
            return List.of(component(), component(), component());
        }

        void end() throws Malformed {
            if (left.hasRemaining()) {
                throw new Malformed("bytes after the last field");
            }
        }
    }

    /** What a server says to a greeting. */
    record Welcome(boolean isBound, long client, long token, int reason, String master) {}

    static Welcome readWelcome(byte[] block) throws Malformed {
        In in = new In(block);
        if (in.octet() != GREETING) {
            throw new Malformed("a greeting of another version");
        }
        Welcome found;
        if (!in.flag()) {
            found = new Welcome(true, in.word(), in.word(), 0, "");
        } else {
            int reason = in.octet();
            found = new Welcome(false, 0, 0, reason, reason == NOT_MASTER ? in.text() : "");
        }
        in.end();
        return found;
    }

    private static Refusal readRefusal(In in) throws Malformed {
        int number = in.octet() + 1;
        if (number > Refused.NAMES.length) {
            throw new Malformed("a refusal " + number);
        }
        return switch (number) {
            case 8 -> new Refusal(number, 0, List.of("file", "dir").get(in.choice(2)));
            case 10 -> new Refusal(number, 0, List.of("read", "write", "change").get(in.choice(3)));
            case 23 -> new Refusal(number, 0, List.of("x", "s").get(in.choice(2)));
            case 11, 20, 24, 28, 41, 42, 43 -> {
                long argument = in.word();
                yield new Refusal(number, argument, Long.toUnsignedString(argument));
            }
            default -> new Refusal(number, 0, null);
        };
    }

    private static Event readEvent(In in) throws Malformed {
        Event.Kind kind = EVENTS[in.choice(9)];
        return switch (kind) {
            case FAIL_OVER, LOST -> Event.of(kind);
            case CONTENTS -> new Event(kind, in.word(), in.word(), in.word(), "");
            case CHILD_ADDED, CHILD_REMOVED, CHILD_MODIFIED -> new Event(kind, in.word(), 0, 0, in.name());
            default -> new Event(kind, in.word(), 0, 0, "");
        };
    }

    private static View readView(In in) throws Malformed {
        boolean isDirectory = in.flag();
        long instance = in.word(), contentGeneration = in.word(), aclGeneration = in.word();
        List<String> acls = in.acls(), children = new ArrayList<>();
        boolean isEphemeral = in.flag();
        byte[] content = in.sized();
        for (long count = in.count(); count > 0; count--) {
            children.add(in.component());
        }
        if (!isDirectory && !children.isEmpty()) {
            throw new Malformed("children of a file");
        }
        return new View(isDirectory, instance, contentGeneration, aclGeneration, acls, isEphemeral, content, List.copyOf(children));
    }

    private static Object readResult(In in) throws Malformed {
        return switch (in.choice(8)) {
            case 0 -> new Message.Opened(in.sized(), in.word(), in.flag());
            case 2, 4 -> readView(in);
            case 3 -> new Stat(in.flag(), in.word(), in.word(), in.word(), in.word(), in.acls(), in.flag(), in.word());
            case 5 -> in.sized();
            case 7 -> readRefusal(in);
            default -> null;
        };
    }

    /** What a server sends after its welcome. */
    static Message readMessage(byte[] block) throws Malformed {
        In in = new In(block);
        if (in.octet() != VERSION) {
            throw new Malformed("a message of another version");
        }
        Message message = new Message(in.choice(5));
        if (message.kind == Message.NOTICE) {
            message.number = in.word();
            message.text = new String(in.take(in.left.remaining()), StandardCharsets.UTF_8);
            return message;
        }
        message.client = in.word();
        message.epoch = in.word();
        message.number = in.word();
        readRest(in, message);
        in.end();
        return message;
    }

    private static void readRest(In in, Message message) throws Malformed {
        switch (message.kind) {
            case Message.STARTED -> message.span = in.word();
            case Message.ALIVE -> {
                message.span = in.word();
                for (long count = in.count(); count > 0; count--) {
                    message.invalidations.add(new Message.Invalidation(in.word(), in.name()));
                }
                for (long count = in.count(); count > 0; count--) {
                    message.events.add(new Message.Told(in.word(), readEvent(in)));
                }
            }
            case Message.REPLY -> {
                message.hasStamp = in.flag();
                message.stamp = message.hasStamp ? in.word() : 0;
                message.result = readResult(in);
            }
            default -> message.result = readRefusal(in);
        }
    }
}
