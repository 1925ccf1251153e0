package tillermoss;

import java.util.List;

/**
 * A node as a read finds it. The arrays are the taker's own.
 *
 * @param acls the names of the ACLs to read, write and change
 * @param content that of a file
 * @param children the last components of a directory's children, in the order of their bytes
 */
public record View(
        boolean isDirectory,
        long instance,
        long contentGeneration,
        long aclGeneration,
        List<String> acls,
        boolean isEphemeral,
        byte[] content,
        List<String> children) {

    View copied() {
        return new View(isDirectory, instance, contentGeneration, aclGeneration, acls, isEphemeral, content.clone(), children);
    }

    boolean isOf(View other) {
        return other != null
                && instance == other.instance
                && contentGeneration == other.contentGeneration
                && aclGeneration == other.aclGeneration
                && children.equals(other.children);
    }
}
