import android.nfc.Tag;
import android.nfc.tech.IsoDep;
import java.io.IOException;
import merelstof.CardReader;

/** The card at a phone, by its own reader. */
final class PhoneCardReader implements CardReader {
    private final IsoDep card;

    PhoneCardReader(Tag found) throws IOException {
        card = IsoDep.get(found);
        card.connect();
        card.setTimeout(5000);
    }

    @Override
    public byte[] transceive(byte[] apdu) throws IOException {
        return card.transceive(apdu);
    }

    @Override
    public void close() throws IOException {
        card.close();
    }
}
