package merelstof;

import java.io.Closeable;
import java.io.IOException;

/**
 * A card at the phone, whatever is between the two. Android's {@code IsoDep} has the same {@code transceive} and {@code close}: an app
 * that talks to the card through this takes a practice card in its tests and {@code IsoDep} in the field.
 */
public interface CardReader extends Closeable {
    /**
     * Sends one request and returns the response, whose last two bytes are the status word. A refusal is a response like any other, and
     * so is 9789, by which the card makes its holder wait: it goes on when the same bytes have come often enough. Other bytes, or a card
     * that leaves the field, make it begin anew.
     *
     * @throws IOException where there is no response, in a sentence for a person. Whether the card has taken the request is then not
     *     known, as with a card that was pulled away: read before you send it again. The reader is closed.
     */
    byte[] transceive(byte[] apdu) throws IOException;
}
