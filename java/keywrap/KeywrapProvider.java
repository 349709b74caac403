// The provider: the names of its ciphers.
package keywrap;

import java.security.Provider;
import java.security.ProviderException;
import java.util.List;
import java.util.Map;

/**
 * AES Key Wrap (RFC 3394) and AES Key Wrap with Padding (RFC 5649) for {@link javax.crypto.Cipher},
 * by the C library, under the names of the JDK's own ciphers.
 */
public final class KeywrapProvider extends Provider {
    private static final long serialVersionUID = 1;

    private static final String AES_OF_NIST = "2.16.840.1.101.3.4.1.";

    /** Loads the C library and tests it. */
    public KeywrapProvider() {
        super("Keywrap", Library.version(), "AES Key Wrap (RFC 3394, RFC 5649), proved");
        if (!Library.passesSelfTest()) {
            throw new ProviderException("the self test of the library failed");
        }
        for (int kekLength : new int[] {0, 16, 24, 32}) {
            putService(new Form(this, false, kekLength));
            putService(new Form(this, true, kekLength));
        }
    }

    /** One form, for KEKs of one length or (0) of any. */
    private static final class Form extends Service {
        private final boolean padded;
        private final int kekLength;

        Form(Provider provider, boolean padded, int kekLength) {
            super(provider, "Cipher",
                "AES" + suffix(kekLength) + (padded ? "/KWP" : "/KW") + "/NoPadding",
                WrapCipher.class.getName(), aliases(padded, kekLength),
                Map.of("SupportedKeyFormats", "RAW"));
            this.padded = padded;
            this.kekLength = kekLength;
        }

        private static String suffix(int kekLength) {
            return kekLength == 0 ? "" : "_" + kekLength * 8;
        }

        private static List<String> aliases(boolean padded, int kekLength) {
            String name = (padded ? "AESWrapPad" : "AESWrap") + suffix(kekLength);
            if (kekLength == 0) {
                return List.of(name);
            }
            // id-aes128-wrap is 5, id-aes128-wrap-pad 8; 20 more for each longer KEK.
            String number = AES_OF_NIST + ((kekLength - 16) / 8 * 20 + (padded ? 8 : 5));
            return List.of(name, number, "OID." + number);
        }

        @Override
        public Object newInstance(Object parameter) {
            return new WrapCipher(padded, kekLength);
        }
    }
}
