package tillermoss;

import java.util.List;

/** How a node is opened: each method gives another Opening. */
public record Opening(
        int mode, byte[] content, boolean directory, boolean must, boolean ephemeral, List<String> acls, int events, int delay) {

    /** What is added in a mode. */
    public static final int READ = 1, WRITE = 2, CHANGE = 4;

    /** What is added in events. */
    public static final int CONTENTS = 1, CHILDREN = 2, LOCK = 4, CONFLICT = 8;

    /** To read. */
    public static Opening toRead() {
        return new Opening(READ, null, false, false, false, null, 0, 0);
    }

    /** To read and write. */
    public static Opening toWrite() {
        return toRead().withMode(READ | WRITE);
    }

    /** With another mode. */
    public Opening withMode(int mode) {
        return new Opening(mode, content, directory, must, ephemeral, acls, events, delay);
    }

    /** A file that isn't there is made with this content. */
    public Opening making(byte[] content) {
        return new Opening(mode, content, false, must, ephemeral, acls, events, delay);
    }

    /** A directory that isn't there is made. */
    public Opening makingDirectory() {
        return new Opening(mode, null, true, must, ephemeral, acls, events, delay);
    }

    /** The node may not be there. */
    public Opening mustMake() {
        return new Opening(mode, content, directory, true, ephemeral, acls, events, delay);
    }

    /** What is made goes with its last handle. */
    public Opening ephemerally() {
        return new Opening(mode, content, directory, must, true, acls, events, delay);
    }

    /** The ACLs of what is made, to read, write and change. */
    public Opening withAcls(String read, String write, String change) {
        return new Opening(mode, content, directory, must, ephemeral, List.of(read, write, change), events, delay);
    }

    /** The events that are told of the handle. */
    public Opening withEvents(int events) {
        return new Opening(mode, content, directory, must, ephemeral, acls, events, delay);
    }

    /** For so many milliseconds nobody gets the lock after its holder was lost. */
    public Opening withDelay(int delay) {
        return new Opening(mode, content, directory, must, ephemeral, acls, events, delay);
    }

    boolean makes() {
        return content != null || directory || must;
    }
}
