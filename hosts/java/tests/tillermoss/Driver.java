package tillermoss;

import java.util.HexFormat;
import java.util.Map;
import java.util.Scanner;
import java.util.concurrent.ConcurrentHashMap;

/** Does with the client what hosts/conformance/play says, as its text has it. */
public final class Driver {
    private final Map<String, Handle> handles = new ConcurrentHashMap<>();
    private volatile Client client;
    private volatile Subscription events;

    private Driver() {}

    /** Reads lines until there are no more. */
    public static void main(String[] words) {
        Driver driver = new Driver();
        try (Scanner lines = new Scanner(System.in)) {
            while (lines.hasNextLine()) {
                String[] said = lines.nextLine().split(" ");
                Thread does = new Thread(() -> driver.run(said));
                does.setDaemon(true);
                does.start();
            }
        }
    }

    private void run(String[] words) {
        String said;
        try {
            said = did(words);
        } catch (Refused why) {
            said = "refused " + why.number();
        } catch (Exception why) {
            said = "closed " + why.getClass().getSimpleName();
        }
        synchronized (this) {
            System.out.println(words[0] + " " + said);
        }
    }

    private String did(String[] words) throws Exception {
        switch (words[1]) {
            case "connect" -> {
                client = Client.connect(words[2], "ann", Long.parseLong(words[3]), null);
                events = client.subscribe();
                return "connected";
            }
            case "open" -> {
                handles.put(words[2], client.open(words[3], Opening.toWrite()));
                return "opened " + handles.get(words[2]).instance();
            }
            case "read" -> {
                Client.Found found = client.find(handles.get(words[2]));
                return "view " + HexFormat.of().formatHex(found.view().content()) + (found.isCached() ? " cache" : " master");
            }
            case "set" -> {
                client.set(handles.get(words[2]), HexFormat.of().parseHex(words[3]));
                return "done";
            }
            case "event" -> {
                return "event " + events.next().kind().word;
            }
            case "leave" -> {
                client.close();
                return "left";
            }
            default -> throw new IllegalArgumentException(words[1]);
        }
    }
}
