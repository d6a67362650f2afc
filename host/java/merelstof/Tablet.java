package merelstof;

import java.io.IOException;
import java.io.PrintStream;
import java.nio.ByteBuffer;
import java.nio.charset.StandardCharsets;
import java.security.GeneralSecurityException;
import java.security.MessageDigest;

/** A tablet whose app leaves notes on a card, and says what the card answers. */
final class Tablet {
    private static final int READ_CARD = 0xF2;
    private static final int WRITE_ISSUER_DATA = 0xF6;
    private static final int READ_ISSUER_DATA = 0xF7;
    private static final int DONE = 0x9000;
    private static final int COUNTER_TOO_LOW = 0x6985;
    private static final int NEED_PAUSE = 0x9789;
    private static final int TRIES = 5;
    private static final int SENDINGS = 121; // the longest wait has 120 seconds
    private static final int BAR = 20;

    /** The note on a card. */
    static final class Note {
        final String text;
        final int counter;

        Note(String text, int counter) {
            this.text = text;
            this.counter = counter;
        }
    }

    private final String name;
    private final CardReader card;
    private final Issuer issuer;
    private final PrintStream out;
    private final byte[] pin1;
    private final byte[] cid;

    /** The card tells its CID to whoever knows PIN1; the issuer's key comes from the seed and the CID. */
    Tablet(String name, CardReader card, String pin1, String seed, PrintStream out) throws IOException, GeneralSecurityException {
        this.name = name;
        this.card = card;
        this.out = out;
        this.pin1 = MessageDigest.getInstance("SHA-256").digest(pin1.getBytes(StandardCharsets.UTF_8));
        byte[] response = send(new Fields().put(Fields.PIN1, this.pin1).request(READ_CARD));
        if (Fields.word(response) != DONE) {
            throw new IOException(String.format("the card does not let itself be read: %04X", Fields.word(response)));
        }
        cid = Fields.find(response, Fields.CID);
        issuer = new Issuer(seed, cid);
    }

    /**
     * Sends a request, as an app must: where the card makes its holder wait (9789), after a wrong code say, it shows a bar, keeps the
     * card in the field and sends the same bytes again.
     */
    private byte[] send(byte[] apdu) throws IOException {
        byte[] response = card.transceive(apdu);
        int seconds = 0;
        for (int sendings = 1; Fields.word(response) == NEED_PAUSE; sendings++) {
            if (sendings == SENDINGS) {
                throw new IOException("the card does not go on: 9789 to the same bytes, sent " + SENDINGS + " times");
            }
            int left = secondsLeft(response);
            seconds = Math.max(seconds, left);
            showBar(left, seconds);
            response = card.transceive(apdu);
        }
        return response;
    }

    /** Pause counts in 10 ms. */
    private static int secondsLeft(byte[] response) {
        byte[] pause = Fields.find(response, Fields.PAUSE);
        return pause == null || pause.length != 2 ? 0 : (ByteBuffer.wrap(pause).getShort() & 0xFFFF) / 100;
    }

    private void showBar(int left, int seconds) {
        int done = seconds == 0 ? 0 : BAR * (seconds - left) / seconds;
        out.printf("%s waits [%s%s] %d s left, keep the card here%n", name, "#".repeat(done), ".".repeat(BAR - done), left);
    }

    private Fields access() {
        return new Fields().put(Fields.PIN1, pin1).put(Fields.CID, cid);
    }

    Note read() throws IOException {
        byte[] response = send(access().request(READ_ISSUER_DATA));
        if (Fields.word(response) != DONE) {
            throw new IOException(String.format("the note cannot be read: %04X", Fields.word(response)));
        }
        byte[] text = Fields.find(response, Fields.ISSUER_DATA);
        Note note = new Note(text == null ? null : new String(text, StandardCharsets.UTF_8),
                ByteBuffer.wrap(Fields.find(response, Fields.ISSUER_DATA_COUNTER)).getInt());
        out.printf("%s reads: %s, counter %08X%n", name, note.text == null ? "no note" : "'" + note.text + "'", note.counter);
        return note;
    }

    /** Has the issuer sign the note, and writes it. Returns the status word, and 9000 alone means that the note is stored. */
    int write(String text, int counter) throws IOException, GeneralSecurityException {
        return write(text, counter, counter);
    }

    /** As an app that signs with one counter and sends another: the card has the signature verified, and refuses. */
    int write(String text, int counter, int signed) throws IOException, GeneralSecurityException {
        byte[] data = text.getBytes(StandardCharsets.UTF_8);
        byte[] signature = issuer.sign(cid, data, bytes(signed));
        byte[] response = send(access().put(Fields.ISSUER_DATA, data).put(Fields.ISSUER_DATA_SIGNATURE, signature)
                .put(Fields.ISSUER_DATA_COUNTER, bytes(counter)).request(WRITE_ISSUER_DATA));
        int word = Fields.word(response);
        out.printf("%s writes '%s', counter %08X: %04X, %s%n", name, text, counter, word, word == DONE ? "stored" : "NOT stored");
        return word;
    }

    /**
     * Leaves a note, as an app must: it reads the stored counter, takes the next one, has the issuer sign, writes, and reads back. Where
     * another tablet was quicker in between the counter is too low (6985), and it begins again.
     */
    void leave(String text) throws IOException, GeneralSecurityException {
        int word = COUNTER_TOO_LOW;
        for (int tries = 0; tries < TRIES && word == COUNTER_TOO_LOW; tries++) {
            word = write(text, read().counter + 1);
        }
        if (word != DONE || !text.equals(read().text)) {
            throw new IOException(String.format("the note is not on the card: %04X", word));
        }
    }

    private static byte[] bytes(int counter) {
        return ByteBuffer.allocate(4).putInt(counter).array();
    }
}
