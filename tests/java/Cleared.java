// After wraps and unwraps, and one that is refused, no copy of the KEK or the key is in the memory that malloc manages.
// Prints which are. Run it with MALLOC_ARENA_MAX=1, so that this memory is only [heap]. The heap of Java is elsewhere.

import java.io.RandomAccessFile;
import java.nio.file.Files;
import java.nio.file.Path;
import java.util.Arrays;
import java.util.Random;
import javax.crypto.Cipher;
import javax.crypto.IllegalBlockSizeException;
import javax.crypto.spec.SecretKeySpec;

final class Cleared {
    private static byte[] memory() throws Exception {
        String line = Files.lines(Path.of("/proc/self/maps")).filter(map -> map.endsWith("[heap]")).findFirst().get();
        String[] ends = line.split("[- ]");
        long begin = Long.parseUnsignedLong(ends[0], 16);
        byte[] all = new byte[(int) (Long.parseUnsignedLong(ends[1], 16) - begin)];
        try (RandomAccessFile file = new RandomAccessFile("/proc/self/mem", "r")) {
            file.seek(begin);
            // A longer piece would be read by way of malloc.
            for (int at = 0; at < all.length; at += 4096) {
                file.readFully(all, at, 4096);
            }
        }
        return all;
    }

    private static boolean has(byte[] all, byte[] bytes) {
        for (int at = 0; at + bytes.length <= all.length; at++) {
            if (Arrays.equals(all, at, at + bytes.length, bytes, 0, bytes.length)) {
                return true;
            }
        }
        return false;
    }

    public static void main(String[] args) throws Exception {
        java.security.Provider provider = new keywrap.KeywrapProvider();
        byte[] kek = new byte[32], keys = new byte[1000];
        new Random(78).nextBytes(kek);
        new Random(79).nextBytes(keys);
        for (String name : new String[] {"AESWrap", "AESWrapPad"}) {
            Cipher cipher = Cipher.getInstance(name, provider);
            for (int length = 64; length < keys.length; length += 64) {
                byte[] key = Arrays.copyOf(keys, length);
                cipher.init(Cipher.ENCRYPT_MODE, new SecretKeySpec(kek, "AES"));
                byte[] wrapped = cipher.doFinal(key), damaged = wrapped.clone();
                damaged[0] ^= 1;
                cipher.init(Cipher.DECRYPT_MODE, new SecretKeySpec(kek, "AES"));
                try {
                    cipher.doFinal(damaged);
                    throw new AssertionError("taken");
                } catch (IllegalBlockSizeException e) {
                    cipher.doFinal(wrapped);
                }
            }
        }
        byte[] all = memory();
        // Freed memory begins with 32 bytes of malloc's own, so the last bytes of the KEK are looked for.
        System.out.println((has(all, Arrays.copyOfRange(kek, 24, 32)) ? "the KEK " : "")
            + (has(all, Arrays.copyOfRange(keys, 40, 56)) ? "the key" : ""));
    }
}
