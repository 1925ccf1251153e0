import java.util.HexFormat;
import tillermoss.Client;
import tillermoss.Lock;

/** Stands for primary: waits for the lock of a file, writes into it who it is, and works as long as it is certain that it holds the lock. */
public final class Elect {
    private Elect() {}

    /** Wants SERVER NAME OWN_NAME. */
    public static void main(String[] words) throws Exception {
        try (Client client = Client.connect(words[0], "ann")) {
            Lock lock = client.elect(words[1], words[2].getBytes());
            // Whoever gets the sequencer along with a request asks the cell whether it still holds: checkSequencer. Who can only compare
            // numbers takes lock.number(), which is greater with each primary.
            System.out.println(words[2] + " is primary, by " + HexFormat.of().formatHex(lock.sequencer()));
            while (lock.isHeld() && System.in.available() == 0) {
                Thread.sleep(50);
            }
            if (lock.isHeld()) {
                System.out.println(words[2] + " stands down");
                lock.unlock();
            } else {
                System.out.println(words[2] + " stops: it isn't certain that it is primary");
            }
        }
    }
}
