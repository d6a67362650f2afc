package merelstof;

import java.io.IOException;
import java.io.PrintStream;
import java.security.GeneralSecurityException;

/**
 * The lesson of the morning notes (lessons/morning-notes.md), done by two tablets: the clock of one is fast, both apps take the clock for
 * the counter, and the note of low oil pressure is refused. Then what the app must do instead. The card is a fresh one with PIN1 000000.
 */
public final class MorningNotes {
    private static final String LOW_OIL = "07:00 LOW OIL PRESSURE 0.8 bar";

    private MorningNotes() {}

    private static void morning(CardReader card, String seed, PrintStream out) throws IOException, GeneralSecurityException {
        Tablet first = new Tablet("tablet 1", card, "000000", seed, out);
        Tablet second = new Tablet("tablet 2", card, "000000", seed, out);
        first.read();
        first.write("06:50 oil pressure 4.1 bar", 0x0650);
        second.write("06:59 coolant topped up", 0x0709); // its clock shows 07:09
        out.println("-- the note that matters, and an app that would not look at the answer");
        first.write(LOW_OIL, 0x0700);
        first.read();
        out.println("-- two wrong ways out: the same again, and a higher counter under the old signature");
        first.write(LOW_OIL, 0x0700);
        first.write(LOW_OIL, 0x070A, 0x0700);
        out.println("-- the right one: read, take the stored counter plus one, have it signed, write, read back");
        first.leave(LOW_OIL);
        second.leave("07:03 LOW OIL seen, engine kept off");
    }

    /** The same app on either reader. */
    private static CardReader open(String[] words) throws IOException {
        return words[0].equals("tcp") ? new TcpCardReader(Integer.parseInt(words[1])) : new PcscCardReader(PcscCardReader.VIRTUAL);
    }

    public static void main(String[] words) {
        if (!String.join(" ", words).matches("(tcp [0-9]{1,5}|pcsc)( [^ ]+)?")) {
            System.err.println("MorningNotes: takes tcp PORT [SEED], or pcsc [SEED]");
            System.exit(2);
        }
        int seed = words[0].equals("tcp") ? 2 : 1;
        try (CardReader card = open(words)) {
            morning(card, words.length > seed ? words[seed] : "practice", System.out);
        } catch (IOException | GeneralSecurityException | IllegalArgumentException wrong) {
            System.err.println("MorningNotes: " + wrong.getMessage());
            System.exit(1);
        }
    }
}
