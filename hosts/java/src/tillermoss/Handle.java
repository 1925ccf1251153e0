package tillermoss;

/** A node that is open. */
public final class Handle {
    final String name;
    final byte[] content;
    final long instance;
    final long opened;
    final boolean mayRead;
    /** Of the client's guard. */
    byte[] sequencer;

    Handle(String name, byte[] content, long instance, long opened, boolean mayRead) {
        this.name = name;
        this.content = content;
        this.instance = instance;
        this.opened = opened;
        this.mayRead = mayRead;
    }

    /** The name under which the node was opened. */
    public String name() {
        return name;
    }

    /** The node's number, which no other node of this cell has. */
    public long instance() {
        return instance;
    }

    /** The number by which events of this handle are told. */
    public long opened() {
        return opened;
    }
}
