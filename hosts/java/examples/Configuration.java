import tillermoss.Client;

/** Shows a file whenever it changes. */
public final class Configuration {
    private Configuration() {}

    /** Wants SERVER NAME. */
    public static void main(String[] words) throws Exception {
        try (Client client = Client.connect(words[0], "ann")) {
            client.watch(words[1], view -> {
                System.out.println(view == null ? "no configuration" : "configured: " + new String(view.content()));
                return true;
            });
        }
    }
}
