package merelstof;

import java.io.IOException;

/** For host/tests/java.test: what the example does not send. */
public final class Sent {
    private Sent() {}

    /** One byte 01, 300 bytes, too many, and one byte 02 and 03: what becomes of each. */
    private static void requests(int port) throws IOException {
        byte[][] requests = {{1}, new byte[300], new byte[0x10000], {2}, {3}};
        try (CardReader card = new TcpCardReader("127.0.0.1", port, 1000)) {
            for (byte[] request : requests) {
                try {
                    System.out.printf("%d bytes%n", card.transceive(request).length);
                } catch (IOException wrong) {
                    System.out.println(wrong.getMessage());
                }
            }
        }
    }

    public static void main(String[] words) throws Exception {
        int port = Integer.parseInt(words[1]);
        if (words[0].equals("requests")) {
            requests(port);
            return;
        }
        try (CardReader card = new TcpCardReader(port)) {
            new Tablet("a tablet", card, "000000", "practice", System.out).leave(words[2]);
        }
    }
}
