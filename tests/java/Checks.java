// Tests of the provider for Java, compared with the JDK's own ciphers, and the calls of rows.txt. The argument is the
// name of a check; it fails with an exception.

import java.nio.ByteBuffer;
import java.security.*;
import java.util.*;
import java.util.concurrent.Callable;
import javax.crypto.*;
import javax.crypto.spec.*;

final class Checks {
    private static final String OURS = "Keywrap", THEIRS = "SunJCE";
    private static final String[] FORMS = {"AES/KW/NoPadding", "AES/KWP/NoPadding"};
    private static final Random RANDOM = new Random(78);
    private static final Map<String, Integer> STATUSES = Map.of("bad length", 4, "integrity check failed", 5);
    private static int checked;

    private static void check(boolean right, Object what) {
        checked++;
        if (!right) {
            throw new AssertionError(what);
        }
    }

    private static void throwsOne(Class<?> due, Callable<?> call) {
        try {
            call.call();
        } catch (Exception e) {
            check(due.isInstance(e), e);
            return;
        }
        throw new AssertionError("nothing was thrown");
    }

    private static byte[] random(int length) {
        byte[] bytes = new byte[length];
        RANDOM.nextBytes(bytes);
        return bytes;
    }

    private static Key aes(byte[] bytes) {
        return new SecretKeySpec(bytes, "AES");
    }

    /** A key whose encoding is this array, and no copy. */
    private static Key ofThese(byte[] bytes) {
        return new SecretKeySpec(new byte[16], "AES") {
            private static final long serialVersionUID = 1;

            @Override
            public byte[] getEncoded() {
                return bytes;
            }
        };
    }

    private static Cipher begun(String name, String provider, int mode, Key kek, byte[]... iv) throws Exception {
        Cipher cipher = Cipher.getInstance(name, provider);
        cipher.init(mode, kek, iv.length == 0 ? null : new IvParameterSpec(iv[0]));
        return cipher;
    }

    /** The wrapped key, or null if the KEK is refused. */
    private static byte[] wrapped(String name, String provider, Key kek, byte[] key, byte[]... iv) throws Exception {
        try {
            return begun(name, provider, Cipher.ENCRYPT_MODE, kek, iv).doFinal(key);
        } catch (InvalidKeyException e) {
            return null;
        }
    }

    /** Each name that the JDK has leads to this provider, and takes the KEKs that the JDK's takes. */
    static void names() throws Exception {
        Set<String> names = new HashSet<>();
        for (Map.Entry<Object, Object> entry : Security.getProvider(THEIRS).entrySet()) {
            String key = entry.getKey().toString(), alias = "Alg.Alias.Cipher.";
            if (key.startsWith(alias) && entry.getValue().toString().matches("AES.*/KWP?/NoPadding")) {
                names.add(key.substring(alias.length()));
                names.add(entry.getValue().toString());
            }
        }
        // The JDK's eight, as many short names, and six object identifiers, also after "OID.".
        check(names.size() == 8 + 8 + 2 * 6, names);
        for (String name : names) {
            for (int length = 1; length <= 40; length++) {
                Key kek = aes(random(length));
                byte[] key = random(32), due = wrapped(name, THEIRS, kek, key);
                check(Arrays.equals(wrapped(name, OURS, kek, key), due), name + " " + length);
                if (due != null) {
                    Cipher cipher = Cipher.getInstance(name);
                    cipher.init(Cipher.ENCRYPT_MODE, kek);
                    check(cipher.getProvider().getName().equals(OURS), name);
                }
            }
        }
        check(Cipher.getInstance("AES/KW/PKCS5Padding").getProvider().getName().equals(THEIRS), "KW/PKCS5Padding");
    }

    /** The initial values of both forms, by a specification and by parameters. What getIV returns is a copy. */
    static void values() throws Exception {
        Key kek = aes(random(24));
        byte[] key = random(40), aiv = {-0x5a, 0x59, 0x59, -0x5a};
        check(Arrays.equals(wrapped(FORMS[1], OURS, kek, key, aiv), wrapped(FORMS[1], THEIRS, kek, key)), "padded");
        for (byte[] value : new byte[][] {random(4), Arrays.copyOf(aiv, 8), random(1)}) {
            throwsOne(InvalidAlgorithmParameterException.class, () -> wrapped(FORMS[1], OURS, kek, key, value));
        }
        for (String name : FORMS) {
            Cipher ours = begun(name, OURS, Cipher.ENCRYPT_MODE, kek);
            Cipher theirs = begun(name, THEIRS, Cipher.ENCRYPT_MODE, kek);
            check(Arrays.equals(ours.getIV(), theirs.getIV()), name);
            Arrays.fill(ours.getIV(), (byte) 7);
            AlgorithmParameters parameters = ours.getParameters();
            check(Arrays.equals(parameters.getEncoded(), theirs.getParameters().getEncoded()), name);
            ours.init(Cipher.ENCRYPT_MODE, kek, parameters);
            check(Arrays.equals(ours.doFinal(key), theirs.doFinal(key)), name);
        }
    }

    /** Updates in pieces, arrays with offsets, one array for input and output, buffers, a cipher used again. */
    static void calls() throws Exception {
        for (String name : FORMS) {
            Key kek = aes(random(32));
            byte[] key = random(3000 * 8), due = wrapped(name, THEIRS, kek, key);
            for (int mode : new int[] {Cipher.ENCRYPT_MODE, Cipher.DECRYPT_MODE}) {
                byte[] in = mode == Cipher.ENCRYPT_MODE ? key : due, out = mode == Cipher.ENCRYPT_MODE ? due : key;
                Cipher cipher = begun(name, OURS, mode, kek);
                for (int at = 0, piece = 0; at < in.length; at += piece) {
                    piece = Math.min(in.length - at, RANDOM.nextInt(500));
                    check(cipher.update(in, at, piece) == null, "an update returned bytes");
                }
                check(Arrays.equals(cipher.doFinal(), out), "in pieces");
                byte[] large = new byte[in.length + 100];
                System.arraycopy(in, 0, large, 50, in.length);
                check(cipher.doFinal(large, 50, in.length, large, 60) == out.length, "the length");
                check(Arrays.equals(Arrays.copyOfRange(large, 60, 60 + out.length), out), "in one array");
                cipher.update(in, 0, 100);
                // It lacks one byte from the offset on.
                byte[] small = new byte[out.length + 9];
                throwsOne(ShortBufferException.class, () -> cipher.doFinal(in, 100, in.length - 100, small, 10));
                check(Arrays.equals(small, new byte[small.length]), "a small array was written");
                check(Arrays.equals(cipher.doFinal(in, 100, in.length - 100), out), "after a small array");
                ByteBuffer given = ByteBuffer.allocateDirect(in.length).put(in).flip();
                ByteBuffer result = ByteBuffer.allocateDirect(out.length);
                check(cipher.doFinal(given, result) == out.length && given.remaining() == 0, "a buffer");
                check(result.flip().equals(ByteBuffer.wrap(out)), "in buffers");
                check(cipher.getOutputSize(in.length) == out.length, "the length of the result");
            }
        }
    }

    /** Parameters of another class are refused. After a refused init a cipher has no KEK, not even the one before. */
    static void ignored() throws Exception {
        for (String name : FORMS) {
            Cipher cipher = begun(name, OURS, Cipher.ENCRYPT_MODE, aes(random(16)));
            AlgorithmParameters none = AlgorithmParameters.getInstance("GCM");
            GCMParameterSpec gcm = new GCMParameterSpec(128, new byte[12]);
            none.init(gcm);
            Key good = aes(random(16));
            List<Callable<Void>> refused = List.of(
                () -> { cipher.init(Cipher.ENCRYPT_MODE, aes(random(15))); return null; },
                () -> { cipher.init(Cipher.ENCRYPT_MODE, good, new IvParameterSpec(new byte[3])); return null; },
                () -> { cipher.init(Cipher.ENCRYPT_MODE, good, gcm); return null; },
                () -> { cipher.init(Cipher.ENCRYPT_MODE, good, none); return null; });
            for (Callable<Void> init : refused) {
                cipher.init(Cipher.ENCRYPT_MODE, good);
                cipher.update(new byte[8]);
                cipher.init(Cipher.ENCRYPT_MODE, good);
                check(cipher.doFinal(new byte[16]).length == 24, "begun again");
                throwsOne(init == refused.get(0) ? InvalidKeyException.class
                    : InvalidAlgorithmParameterException.class, init);
                throwsOne(IllegalStateException.class, () -> cipher.doFinal(new byte[16]));
                check(cipher.getIV() == null, "an initial value was kept");
            }
        }
    }

    /** Keys of other kinds, and keys without bytes. */
    static void keys() throws Exception {
        Key kek = aes(random(32)), hidden = ofThese(null);
        KeyPair pair = KeyPairGenerator.getInstance("EC").generateKeyPair();
        String name = FORMS[1];
        for (Key key : List.of(pair.getPrivate(), pair.getPublic())) {
            int type = key instanceof PublicKey ? Cipher.PUBLIC_KEY : Cipher.PRIVATE_KEY;
            byte[] wrapped = begun(name, OURS, Cipher.WRAP_MODE, kek).wrap(key);
            check(begun(name, THEIRS, Cipher.UNWRAP_MODE, kek).unwrap(wrapped, "EC", type).equals(key), "to theirs");
            check(begun(name, OURS, Cipher.UNWRAP_MODE, kek).unwrap(wrapped, "EC", type).equals(key), "to ours");
            byte[] noKey = wrapped(name, THEIRS, kek, random(50));
            throwsOne(InvalidKeyException.class,
                () -> begun(name, OURS, Cipher.UNWRAP_MODE, kek).unwrap(noKey, "EC", type));
        }
        throwsOne(InvalidKeyException.class, () -> begun(name, OURS, Cipher.WRAP_MODE, hidden));
        throwsOne(InvalidKeyException.class, () -> begun(name, OURS, Cipher.WRAP_MODE, kek).wrap(hidden));
    }

    /** The bytes that getEncoded returned for a key and for a KEK are cleared after their use. */
    static void cleared() throws Exception {
        for (String name : FORMS) {
            byte[] kek = random(16), key = random(32);
            Cipher cipher = begun(name, OURS, Cipher.WRAP_MODE, ofThese(kek));
            check(cipher.wrap(ofThese(key)).length == 40, name);
            check(Arrays.equals(key, new byte[32]), "a key was left");
            check(!Arrays.equals(kek, new byte[16]), "the KEK is in use");
            cipher.init(Cipher.WRAP_MODE, aes(random(16)));
            check(Arrays.equals(kek, new byte[16]), "a KEK was left");
            byte[] wrong = random(15);
            throwsOne(InvalidKeyException.class, () -> begun(name, OURS, Cipher.WRAP_MODE, ofThese(wrong)));
            check(Arrays.equals(wrong, new byte[15]), "a refused KEK was left");
        }
    }

    private static byte[] bytes(String text) {
        return HexFormat.of().parseHex(text.replace("-", ""));
    }

    /** Returns the answer to the call of a line, by doFinal, or by wrap and unwrap. */
    private static String answer(boolean ofKeys, String... line) throws Exception {
        boolean wraps = line[0].startsWith("wrap");
        String name = FORMS[line[0].endsWith("padded") ? 1 : 0];
        byte[][] iv = line[0].endsWith("with") ? new byte[][] {bytes(line[3])} : new byte[0][];
        byte[] given = bytes(line[5]), out = new byte[given.length + 16];
        Cipher cipher = null;
        String answer;
        try {
            int mode = ofKeys ? wraps ? Cipher.WRAP_MODE : Cipher.UNWRAP_MODE
                : wraps ? Cipher.ENCRYPT_MODE : Cipher.DECRYPT_MODE;
            cipher = begun(name, OURS, mode, aes(bytes(line[1])), iv);
            out = !ofKeys ? Arrays.copyOf(out, cipher.doFinal(given, 0, given.length, out, 0))
                : wraps ? cipher.wrap(aes(given)) : cipher.unwrap(given, "AES", Cipher.SECRET_KEY).getEncoded();
            answer = "status=0 out=" + HexFormat.of().formatHex(out);
        } catch (InvalidAlgorithmParameterException | IllegalArgumentException e) {
            // The JDK has no empty key.
            answer = e instanceof IllegalArgumentException ? "status=4" : "status=2";
        } catch (InvalidKeyException | IllegalBlockSizeException e) {
            answer = "status=" + STATUSES.getOrDefault(e.getMessage(), 3);
        }
        // With a refusal nothing is written, and no argument is kept.
        boolean isClean = answer.startsWith("status=0")
            || Arrays.equals(out, new byte[out.length]) && (cipher == null || cipher.getOutputSize(0) <= 8);
        return answer + (isClean && Arrays.equals(given, bytes(line[5])) ? "" : " changed");
    }

    /** Makes the calls of the lines that faces.py writes. */
    static void rows() throws Exception {
        for (Scanner lines = new Scanner(System.in); lines.hasNextLine();) {
            String[] line = lines.nextLine().split(" ");
            String answer = answer(false, line), ofKeys = answer(true, line);
            System.out.println(answer.equals(ofKeys) ? answer : answer + ", but " + ofKeys);
        }
    }

    public static void main(String[] args) throws Exception {
        Security.insertProviderAt(new keywrap.KeywrapProvider(), 1);
        Checks.class.getDeclaredMethod(args[0]).invoke(null);
        System.out.println(args[0] + " " + checked + " " + Security.getProvider(OURS).getVersionStr());
    }
}
