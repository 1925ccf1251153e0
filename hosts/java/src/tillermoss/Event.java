package tillermoss;

/**
 * What a master tells of, or the client of its session.
 *
 * @param opened the number of the handle that it is for, or 0
 * @param name the child's, of an event of a directory, or the empty one
 */
public record Event(Kind kind, long opened, long instance, long generation, String name) {

    /** The kinds, as a master numbers them, and then what the client tells of itself. */
    public enum Kind {
        FAIL_OVER("failover"),
        CONTENTS("contents"),
        CHILD_ADDED("child-added"),
        CHILD_REMOVED("child-removed"),
        CHILD_MODIFIED("child-modified"),
        INVALID("invalid"),
        LOCKED("locked"),
        CONFLICT("conflict"),
        LOST("lost"),
        JEOPARDY("jeopardy"),
        SAFE("safe");

        /** How pages and other clients call it. */
        public final String word;

        Kind(String word) {
            this.word = word;
        }
    }

    static Event of(Kind kind) {
        return new Event(kind, 0, 0, 0, "");
    }
}
