package merelstof;

import java.io.IOException;
import javax.smartcardio.Card;
import javax.smartcardio.CardChannel;
import javax.smartcardio.CardException;
import javax.smartcardio.CardTerminal;
import javax.smartcardio.CommandAPDU;
import javax.smartcardio.TerminalFactory;

/** A card in a PC/SC reader, by javax.smartcardio: the practice card in the virtual one, or another card in another reader. */
public final class PcscCardReader implements CardReader {
    /** Where {@code reader CARD} puts its card. */
    public static final String VIRTUAL = "Virtual PCD 00 00";

    private final Card card;
    private final CardChannel channel;

    public PcscCardReader(String name) throws IOException {
        try {
            card = find(name).connect("T=1"); // by T=0 javax.smartcardio refuses requests with the three-byte Lc
            channel = card.getBasicChannel();
        } catch (CardException none) {
            throw new IOException("no card in the reader '" + name + "': is 'reader CARD' running?", none);
        }
    }

    private static CardTerminal find(String name) throws IOException {
        CardException none = null;
        try {
            for (CardTerminal terminal : TerminalFactory.getDefault().terminals().list()) {
                if (terminal.getName().equals(name)) {
                    return terminal;
                }
            }
        } catch (CardException wrong) {
            none = wrong;
        }
        throw new IOException("no reader '" + name + "' here: is pcscd running, with vsmartcard-vpcd?", none);
    }

    /** javax.smartcardio sends only what it can take for an APDU, and knows no timeout. */
    @Override
    public byte[] transceive(byte[] apdu) throws IOException {
        try {
            return channel.transmit(new CommandAPDU(apdu)).getBytes();
        } catch (IllegalArgumentException odd) {
            throw new IOException("javax.smartcardio does not send this: " + odd.getMessage(), odd);
        } catch (CardException | IllegalStateException lost) {
            throw new IOException("the card is gone: " + lost.getMessage(), lost);
        }
    }

    @Override
    public void close() throws IOException {
        try {
            card.disconnect(false);
        } catch (CardException lost) {
            throw new IOException("the card is gone: " + lost.getMessage(), lost);
        }
    }
}
