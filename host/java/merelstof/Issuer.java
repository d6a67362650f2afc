package merelstof;

import java.math.BigInteger;
import java.nio.ByteBuffer;
import java.nio.charset.StandardCharsets;
import java.security.GeneralSecurityException;
import java.security.MessageDigest;
import java.util.Arrays;
import javax.crypto.Mac;
import javax.crypto.spec.SecretKeySpec;

/**
 * The practice issuer, who signs notes; in the field that is a server. Its key comes from a seed that anybody may read (docs/KEYS.md), so
 * no care is taken to keep it: never sign with this what matters. It is written out here because Java dropped secp256k1 in release 16.
 */
final class Issuer {
    private static final BigInteger P = new BigInteger("FFFFFFFFFFFFFFFFFFFFFFFFFFFFFFFFFFFFFFFFFFFFFFFFFFFFFFFEFFFFFC2F", 16);
    private static final BigInteger N = new BigInteger("FFFFFFFFFFFFFFFFFFFFFFFFFFFFFFFEBAAEDCE6AF48A03BBFD25E8CD0364141", 16);
    private static final BigInteger[] G = {
        new BigInteger("79BE667EF9DCBBAC55A06295CE870B07029BFCDB2DCE28D959F2815B16F81798", 16),
        new BigInteger("483ADA7726A3C4655DA4FBFC0E1108A8FD17B448A68554199C47D08FFB10D4B8", 16),
    };

    private final BigInteger secret;

    Issuer(String seed, byte[] cid) throws GeneralSecurityException {
        byte[] start = joined(seed.getBytes(StandardCharsets.UTF_8), "issuer".getBytes(StandardCharsets.US_ASCII), cid, new byte[2]);
        BigInteger made = BigInteger.ZERO;
        for (int counter = 0; made.signum() == 0 || made.compareTo(N) >= 0; counter++) {
            made = number(sha256(joined(start, new byte[] {(byte) counter})));
        }
        secret = made;
    }

    /** The signature of a note: r and s, 32 bytes each, the lower s, over the SHA-256 of CID, text and counter. */
    byte[] sign(byte[] cid, byte[] text, byte[] counter) throws GeneralSecurityException {
        BigInteger hash = number(sha256(joined(cid, text, counter)));
        Nonces nonces = new Nonces(secret, hash.mod(N));
        while (true) {
            BigInteger nonce = nonces.next();
            BigInteger r = times(nonce, G)[0].mod(N);
            BigInteger s = nonce.modInverse(N).multiply(hash.add(r.multiply(secret))).mod(N);
            if (r.signum() != 0 && s.signum() != 0) {
                return joined(bytes(r), bytes(s.min(N.subtract(s))));
            }
        }
    }

    /** The nonces of RFC 6979 with HMAC-SHA-256. */
    private static final class Nonces {
        private byte[] key = new byte[32];
        private byte[] value = new byte[32];

        Nonces(BigInteger secret, BigInteger hash) throws GeneralSecurityException {
            Arrays.fill(value, (byte) 1);
            for (byte step = 0; step < 2; step++) {
                key = hmac(key, joined(value, new byte[] {step}, bytes(secret), bytes(hash)));
                value = hmac(key, value);
            }
        }

        BigInteger next() throws GeneralSecurityException {
            while (true) {
                value = hmac(key, value);
                BigInteger nonce = number(value);
                if (nonce.signum() != 0 && nonce.compareTo(N) < 0) {
                    return nonce;
                }
                key = hmac(key, joined(value, new byte[1]));
                value = hmac(key, value);
            }
        }
    }

    /** y² = x³ + 7 over P; null is the point at infinity. */
    private static BigInteger[] times(BigInteger factor, BigInteger[] point) {
        BigInteger[] sum = null;
        for (int bit = factor.bitLength() - 1; bit >= 0; bit--) {
            sum = plus(sum, sum);
            sum = factor.testBit(bit) ? plus(sum, point) : sum;
        }
        return sum;
    }

    private static BigInteger[] plus(BigInteger[] a, BigInteger[] b) {
        if (a == null || b == null) {
            return a == null ? b : a;
        }
        if (a[0].equals(b[0]) && !a[1].equals(b[1])) {
            return null;
        }
        BigInteger rise = a[0].equals(b[0]) ? a[0].pow(2).multiply(BigInteger.valueOf(3)) : b[1].subtract(a[1]);
        BigInteger run = a[0].equals(b[0]) ? a[1].shiftLeft(1) : b[0].subtract(a[0]);
        BigInteger slope = rise.multiply(run.modInverse(P)).mod(P);
        BigInteger x = slope.pow(2).subtract(a[0]).subtract(b[0]).mod(P);
        return new BigInteger[] {x, slope.multiply(a[0].subtract(x)).subtract(a[1]).mod(P)};
    }

    private static byte[] sha256(byte[] message) throws GeneralSecurityException {
        return MessageDigest.getInstance("SHA-256").digest(message);
    }

    private static byte[] hmac(byte[] key, byte[] message) throws GeneralSecurityException {
        Mac mac = Mac.getInstance("HmacSHA256");
        mac.init(new SecretKeySpec(key, "HmacSHA256"));
        return mac.doFinal(message);
    }

    private static BigInteger number(byte[] bytes) {
        return new BigInteger(1, bytes);
    }

    private static byte[] bytes(BigInteger number) {
        byte[] signed = number.toByteArray();
        byte[] bytes = new byte[32];
        int length = Math.min(signed.length, 32);
        System.arraycopy(signed, signed.length - length, bytes, 32 - length, length);
        return bytes;
    }

    private static byte[] joined(byte[]... parts) {
        ByteBuffer all = ByteBuffer.allocate(Arrays.stream(parts).mapToInt(part -> part.length).sum());
        for (byte[] part : parts) {
            all.put(part);
        }
        return all.array();
    }
}
