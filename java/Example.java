import java.math.BigInteger;
import java.security.Security;
import javax.crypto.Cipher;
import javax.crypto.SecretKey;
import javax.crypto.spec.SecretKeySpec;

/** Wraps and unwraps a key. Only the first line of main is about this provider. */
public final class Example {
    public static void main(String[] args) throws Exception {
        Security.insertProviderAt(new keywrap.KeywrapProvider(), 1);

        SecretKey kek = new SecretKeySpec(new byte[32], "AES");
        SecretKey key = new SecretKeySpec(new byte[16], "AES");
        Cipher cipher = Cipher.getInstance("AESWrap");
        cipher.init(Cipher.WRAP_MODE, kek);
        byte[] wrapped = cipher.wrap(key);
        cipher.init(Cipher.UNWRAP_MODE, kek);
        System.out.println(cipher.unwrap(wrapped, "AES", Cipher.SECRET_KEY).equals(key));
        System.out.println(cipher.getProvider().getName() + " " + new BigInteger(1, wrapped).toString(16));
    }
}
