package merelstof;

import java.io.DataInputStream;
import java.io.EOFException;
import java.io.IOException;
import java.net.InetSocketAddress;
import java.net.Socket;
import java.net.SocketTimeoutException;

/**
 * The practice card behind {@code reader --tcp PORT CARD}. A message is two bytes of length, the higher first, and the bytes.
 *
 * <p>Only java.io and java.net are used, and Java 8: it runs on Android as it is.
 */
public final class TcpCardReader implements CardReader {
    /** Longer than the reader waits for a card that another process holds. */
    public static final int TIMEOUT_MILLIS = 5000;

    private static final int LONGEST = 0xFFFF;

    private final Socket socket = new Socket();
    private final int timeoutMillis;

    /** On this machine, or on a phone whose port {@code adb reverse} leads here. */
    public TcpCardReader(int port) throws IOException {
        this("127.0.0.1", port, TIMEOUT_MILLIS);
    }

    /** The timeout is for the connection, and then for each response. */
    public TcpCardReader(String host, int port, int timeoutMillis) throws IOException {
        this.timeoutMillis = timeoutMillis;
        try {
            socket.connect(new InetSocketAddress(host, port), timeoutMillis);
            socket.setSoTimeout(timeoutMillis);
            socket.setTcpNoDelay(true);
        } catch (IOException none) {
            socket.close();
            throw new IOException("no card on " + host + " port " + port + ": is 'reader --tcp " + port + " CARD' running?", none);
        }
    }

    @Override
    public synchronized byte[] transceive(byte[] apdu) throws IOException {
        if (apdu.length > LONGEST) {
            throw new IOException("a request has at most " + LONGEST + " bytes, and this one " + apdu.length);
        }
        if (socket.isClosed()) {
            throw new IOException("the connection to the card is closed: make a new one");
        }
        try {
            send(apdu);
            return receive();
        } catch (IOException lost) {
            close(); // a response that comes late must not be taken for the next one's
            throw new IOException(why(lost), lost);
        }
    }

    private void send(byte[] apdu) throws IOException {
        byte[] message = new byte[2 + apdu.length];
        message[0] = (byte) (apdu.length >> 8);
        message[1] = (byte) apdu.length;
        System.arraycopy(apdu, 0, message, 2, apdu.length);
        socket.getOutputStream().write(message);
    }

    private byte[] receive() throws IOException {
        DataInputStream in = new DataInputStream(socket.getInputStream());
        byte[] response = new byte[in.readUnsignedShort()];
        in.readFully(response);
        return response;
    }

    private String why(IOException lost) {
        if (lost instanceof SocketTimeoutException) {
            return "no response within " + timeoutMillis + " ms: the card answers one client at a time, and another may be connected";
        }
        if (lost instanceof EOFException) {
            return "the reader has closed the connection";
        }
        return "the connection to the card broke: " + lost.getMessage();
    }

    /** The card is then out of the field: a request that has to wait is forgotten. */
    @Override
    public void close() throws IOException {
        socket.close();
    }
}
