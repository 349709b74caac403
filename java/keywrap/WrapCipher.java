// The cipher: wraps and unwraps keys, or bytes, in one form.
package keywrap;

import java.security.AlgorithmParameters;
import java.security.InvalidAlgorithmParameterException;
import java.security.InvalidKeyException;
import java.security.Key;
import java.security.KeyFactory;
import java.security.NoSuchAlgorithmException;
import java.security.SecureRandom;
import java.security.spec.AlgorithmParameterSpec;
import java.security.spec.InvalidKeySpecException;
import java.security.spec.InvalidParameterSpecException;
import java.security.spec.PKCS8EncodedKeySpec;
import java.security.spec.X509EncodedKeySpec;
import java.util.Arrays;
import javax.crypto.Cipher;
import javax.crypto.CipherSpi;
import javax.crypto.IllegalBlockSizeException;
import javax.crypto.NoSuchPaddingException;
import javax.crypto.ShortBufferException;
import javax.crypto.spec.IvParameterSpec;
import javax.crypto.spec.SecretKeySpec;

final class WrapCipher extends CipherSpi {
    private static final byte[] OF_PLAIN = {-0x5a, -0x5a, -0x5a, -0x5a, -0x5a, -0x5a, -0x5a, -0x5a};
    private static final byte[] OF_PADDED = {-0x5a, 0x59, 0x59, -0x5a};
    private static final byte[] NONE = {};

    private final boolean padded;
    private final int onlyKekLength;
    private boolean wraps;
    // Empty after an init that was refused: Cipher makes no calls then.
    private byte[] kek = NONE;
    private byte[] iv = NONE;
    // The bytes of updates.
    private byte[] data = NONE;
    private int length;

    /** One form, for KEKs of one length or (0) of any. */
    WrapCipher(boolean padded, int onlyKekLength) {
        this.padded = padded;
        this.onlyKekLength = onlyKekLength;
    }

    @Override
    protected void engineSetMode(String mode) throws NoSuchAlgorithmException {
        throw new NoSuchAlgorithmException("the mode is in the name of the cipher");
    }

    @Override
    protected void engineSetPadding(String padding) throws NoSuchPaddingException {
        throw new NoSuchPaddingException("the padding is in the name of the cipher");
    }

    @Override
    protected int engineGetBlockSize() {
        return 8;
    }

    @Override
    protected int engineGetOutputSize(int count) {
        int all = Math.addExact(length, count);
        return wraps ? Library.wrappedLength(padded, all) : Library.room(all);
    }

    @Override
    protected byte[] engineGetIV() {
        return iv.length == 0 ? null : iv.clone();
    }

    @Override
    protected AlgorithmParameters engineGetParameters() {
        try {
            AlgorithmParameters parameters = AlgorithmParameters.getInstance("AES");
            parameters.init(new IvParameterSpec(iv));
            return parameters;
        } catch (NoSuchAlgorithmException | InvalidParameterSpecException e) {
            return null;
        }
    }

    @Override
    protected int engineGetKeySize(Key key) throws InvalidKeyException {
        byte[] encoded = kekOf(key);
        clear(encoded);
        return encoded.length * 8;
    }

    @Override
    protected void engineInit(int mode, Key key, SecureRandom random) throws InvalidKeyException {
        forget();
        wraps = mode == Cipher.ENCRYPT_MODE || mode == Cipher.WRAP_MODE;
        kek = kekOf(key);
        iv = (padded ? OF_PADDED : OF_PLAIN).clone();
    }

    @Override
    protected void engineInit(int mode, Key key, AlgorithmParameterSpec parameters,
            SecureRandom random) throws InvalidKeyException, InvalidAlgorithmParameterException {
        engineInit(mode, key, random);
        if (parameters == null) {
            return;
        }
        byte[] given = parameters instanceof IvParameterSpec
            ? ((IvParameterSpec) parameters).getIV() : NONE;
        boolean isPadded = given.length >= 4 && Arrays.equals(given, 0, 4, OF_PADDED, 0, 4);
        if (isPadded != padded || given.length != (padded ? 4 : 8)) {
            forget();
            throw new InvalidAlgorithmParameterException(padded
                ? "the only initial value of the padded form is A65959A6"
                : "an initial value has 8 bytes and does not begin with A65959A6");
        }
        iv = given;
    }

    @Override
    protected void engineInit(int mode, Key key, AlgorithmParameters parameters,
            SecureRandom random) throws InvalidKeyException, InvalidAlgorithmParameterException {
        try {
            engineInit(mode, key, parameters == null ? null
                : parameters.getParameterSpec(IvParameterSpec.class), random);
        } catch (InvalidParameterSpecException e) {
            forget();
            throw new InvalidAlgorithmParameterException(e);
        }
    }

    private void forget() {
        clear(kek);
        kek = NONE;
        iv = NONE;
        clearData();
    }

    private void clearData() {
        clear(data);
        data = NONE;
        length = 0;
    }

    private static void clear(byte[] bytes) {
        Arrays.fill(bytes, (byte) 0);
    }

    private byte[] kekOf(Key key) throws InvalidKeyException {
        byte[] encoded = key == null ? null : key.getEncoded();
        if (encoded == null) {
            throw new InvalidKeyException("the KEK has no encoding");
        }
        int count = encoded.length;
        boolean isLegal = count == 16 || count == 24 || count == 32;
        if (!isLegal || onlyKekLength != 0 && onlyKekLength != count) {
            clear(encoded);
            throw new InvalidKeyException("the KEK is " + count + " bytes long");
        }
        return encoded;
    }

    @Override
    protected byte[] engineUpdate(byte[] in, int offset, int count) {
        append(in, offset, count);
        return null;
    }

    @Override
    protected int engineUpdate(byte[] in, int offset, int count, byte[] out, int at) {
        append(in, offset, count);
        return 0;
    }

    private void append(byte[] in, int offset, int count) {
        if (count == 0) {
            return;
        }
        int all = Math.addExact(length, count);
        if (all > data.length) {
            byte[] old = data;
            data = Arrays.copyOf(old, Math.max(all, 2 * length));
            clear(old);
        }
        System.arraycopy(in, offset, data, length, count);
        length = all;
    }

    @Override
    protected byte[] engineDoFinal(byte[] in, int offset, int count)
            throws IllegalBlockSizeException {
        try {
            append(in, offset, count);
            return run(data, length);
        } finally {
            clearData();
        }
    }

    @Override
    protected int engineDoFinal(byte[] in, int offset, int count, byte[] out, int at)
            throws IllegalBlockSizeException, ShortBufferException {
        int room = engineGetOutputSize(count);
        if (out.length - at < room) {
            throw new ShortBufferException("the result may be " + room + " bytes long");
        }
        byte[] result = engineDoFinal(in, offset, count);
        System.arraycopy(result, 0, out, at, result.length);
        clear(result);
        return result.length;
    }

    private byte[] run(byte[] input, int count) throws IllegalBlockSizeException {
        return wraps ? Library.wrap(padded, kek, iv, input, count)
            : Library.unwrap(padded, kek, iv, input, count);
    }

    @Override
    protected byte[] engineWrap(Key key) throws IllegalBlockSizeException, InvalidKeyException {
        byte[] encoded = key.getEncoded();
        if (encoded == null) {
            throw new InvalidKeyException("the key has no encoding");
        }
        try {
            return run(encoded, encoded.length);
        } finally {
            clear(encoded);
        }
    }

    @Override
    protected Key engineUnwrap(byte[] wrapped, String algorithm, int type)
            throws InvalidKeyException, NoSuchAlgorithmException {
        byte[] encoded;
        try {
            encoded = run(wrapped, wrapped.length);
        } catch (IllegalBlockSizeException e) {
            throw new InvalidKeyException(e.getMessage(), e);
        }
        try {
            switch (type) {
                case Cipher.SECRET_KEY:
                    return new SecretKeySpec(encoded, algorithm);
                case Cipher.PRIVATE_KEY:
                    return KeyFactory.getInstance(algorithm)
                        .generatePrivate(new PKCS8EncodedKeySpec(encoded));
                default:
                    return KeyFactory.getInstance(algorithm)
                        .generatePublic(new X509EncodedKeySpec(encoded));
            }
        } catch (InvalidKeySpecException e) {
            throw new InvalidKeyException("the unwrapped bytes are no key of " + algorithm, e);
        } finally {
            clear(encoded);
        }
    }
}
