package merelstof;

import java.io.ByteArrayOutputStream;
import java.util.Arrays;

/** Fields of a request or a response: tag, length, value. A length above 254 is FF and two bytes. */
final class Fields {
    static final int PIN1 = 0x10;
    static final int CID = 0x01;
    static final int PAUSE = 0x1C;
    static final int ISSUER_DATA = 0x32;
    static final int ISSUER_DATA_SIGNATURE = 0x33;
    static final int ISSUER_DATA_COUNTER = 0x35;

    private final ByteArrayOutputStream bytes = new ByteArrayOutputStream();

    Fields put(int tag, byte[] value) {
        bytes.write(tag);
        if (value.length > 0xFE) {
            bytes.write(0xFF);
            bytes.write(value.length >> 8);
        }
        bytes.write(value.length);
        bytes.write(value, 0, value.length);
        return this;
    }

    /** The request: no Le follows the fields, since the card refuses one (6700). */
    byte[] request(int ins) {
        ByteArrayOutputStream apdu = new ByteArrayOutputStream();
        apdu.write(new byte[] {0, (byte) ins, 0, 0}, 0, 4);
        if (bytes.size() > 0xFF) {
            apdu.write(0);
            apdu.write(bytes.size() >> 8);
        }
        apdu.write(bytes.size());
        apdu.write(bytes.toByteArray(), 0, bytes.size());
        return apdu.toByteArray();
    }

    /** A field of a response, or null where it has none of this tag. */
    static byte[] find(byte[] response, int tag) {
        for (int at = 0; at + 2 <= response.length - 2; ) {
            boolean isLong = (response[at + 1] & 0xFF) == 0xFF;
            int length = isLong ? (response[at + 2] & 0xFF) << 8 | response[at + 3] & 0xFF : response[at + 1] & 0xFF;
            int value = at + (isLong ? 4 : 2);
            if ((response[at] & 0xFF) == tag) {
                return Arrays.copyOfRange(response, value, value + length);
            }
            at = value + length;
        }
        return null;
    }

    static int word(byte[] response) {
        return (response[response.length - 2] & 0xFF) << 8 | response[response.length - 1] & 0xFF;
    }
}
