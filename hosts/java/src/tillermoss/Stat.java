package tillermoss;

import java.util.List;

/** The numbers of a node. */
public record Stat(
        boolean isDirectory,
        long instance,
        long contentGeneration,
        long aclGeneration,
        long lockGeneration,
        List<String> acls,
        boolean isEphemeral,
        long length) {}
