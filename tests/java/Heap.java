// After wraps and unwraps in pieces, the heap of Java has no copy of a key, not even in arrays to which nothing refers
// any more: a dump has these, too. A key that was unwrapped as an object has the only copy. Prints how many others it
// found. Run it with a heap so large that nothing is collected. The caller's own arrays are cleared here.

import com.sun.management.HotSpotDiagnosticMXBean;
import java.lang.management.ManagementFactory;
import java.nio.charset.StandardCharsets;
import java.nio.file.Files;
import java.nio.file.Path;
import java.security.Key;
import java.util.Arrays;
import java.util.Random;
import javax.crypto.Cipher;
import javax.crypto.spec.SecretKeySpec;

final class Heap {
    private static final int KEYS = 4, LENGTH = 96;

    private static byte[] random(long seed, int length) {
        byte[] bytes = new byte[length];
        new Random(seed).nextBytes(bytes);
        return bytes;
    }

    private static void clear(byte[] bytes) {
        Arrays.fill(bytes, (byte) 0);
    }

    /** Hands the input over in three pieces, so that the array of the cipher grows twice. */
    private static int inPieces(Cipher cipher, byte[] input, byte[] out) throws Exception {
        cipher.update(input, 0, 8);
        cipher.update(input, 8, 32);
        return cipher.doFinal(input, 40, input.length - 40, out, 0);
    }

    private static int count(byte[] all, byte[] bytes) {
        int found = 0;
        for (int at = 0; at + bytes.length <= all.length; at++) {
            if (all[at] == bytes[0] && Arrays.equals(all, at, at + bytes.length, bytes, 0, bytes.length)) {
                found++;
            }
        }
        return found;
    }

    public static void main(String[] args) throws Exception {
        Cipher cipher = Cipher.getInstance("AESWrap", new keywrap.KeywrapProvider());
        SecretKeySpec kek = new SecretKeySpec(new byte[32], "AES");
        for (int seed = 0; seed < KEYS; seed++) {
            byte[] key = random(seed, LENGTH), wrapped = new byte[LENGTH + 8], again = new byte[LENGTH + 8];
            cipher.init(Cipher.ENCRYPT_MODE, kek);
            inPieces(cipher, key, wrapped);
            clear(key);
            cipher.init(Cipher.DECRYPT_MODE, kek);
            int length = inPieces(cipher, wrapped, again);
            // Four bytes of the key are no copy of it.
            if (length != LENGTH || !Arrays.equals(again, 0, 4, random(seed, 4), 0, 4)) {
                throw new AssertionError("another key");
            }
            clear(again);
        }
        byte[] secret = random(KEYS, LENGTH);
        cipher.init(Cipher.ENCRYPT_MODE, kek);
        byte[] wrapped = cipher.doFinal(secret);
        clear(secret);
        cipher.init(Cipher.UNWRAP_MODE, kek);
        Key unwrapped = cipher.unwrap(wrapped, "AES", Cipher.SECRET_KEY);
        String name = args[0];
        ManagementFactory.getPlatformMXBean(HotSpotDiagnosticMXBean.class).dumpHeap(name, false);
        byte[] all = Files.readAllBytes(Path.of(name));
        if (count(all, name.getBytes(StandardCharsets.US_ASCII)) == 0 || !unwrapped.getAlgorithm().equals("AES")) {
            throw new AssertionError("the dump lacks what is in use");
        }
        int found = -1;
        for (int seed = 0; seed <= KEYS; seed++) {
            found += count(all, random(seed, 8));
        }
        System.out.println(found);
    }
}
