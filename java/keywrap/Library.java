// The calls of keywrap.h by JNA.
package keywrap;

import com.sun.jna.IntegerType;
import com.sun.jna.Memory;
import com.sun.jna.Native;
import com.sun.jna.NativeLibrary;
import com.sun.jna.Pointer;
import java.security.ProviderException;
import javax.crypto.IllegalBlockSizeException;

final class Library {
    private static final int OK = 0;
    private static final int BAD_LENGTH = 4;
    private static final int INTEGRITY = 5;

    static {
        Native.register(Library.class, loaded(System.getProperty("keywrap.library", "keywrap")));
    }

    private Library() {}

    /** Loads the library of this name or path. JNA's own error names a file that is not looked for. */
    private static NativeLibrary loaded(String name) {
        try {
            return NativeLibrary.getInstance(name, Library.class.getClassLoader());
        } catch (UnsatisfiedLinkError error) {
            String path = System.getProperty("jna.library.path");
            String places = path == null ? "the system's directories; -Djna.library.path names others"
                : "-Djna.library.path=" + path + ", nor from the system's directories";
            String text = "cannot load " + (name.contains("/") ? name : file(name) + " from " + places);
            throw (Error) new UnsatisfiedLinkError(text).initCause(error);
        }
    }

    /** The file of the library of this name: libkeywrap.so.1, keywrap.dll or libkeywrap.dylib. */
    private static String file(String name) {
        String file = System.mapLibraryName(name);
        return file.endsWith(".so") ? file + ".1" : file;
    }

    /** A number of type size_t. */
    public static final class Size extends IntegerType {
        private static final long serialVersionUID = 1;

        public Size() {
            this(0);
        }

        Size(long value) {
            super(Native.SIZE_T_SIZE, value, true);
        }
    }

    private static native int keywrap_version();

    private static native Size keywrap_status_text(int status, byte[] text, Size capacity);

    private static native int keywrap_self_test();

    private static native int keywrap_wrap_with(Pointer kek, Size kekLength, Pointer iv,
        Size ivLength, Pointer key, Size keyLength, Pointer wrapped, Size wrappedLength);

    private static native int keywrap_unwrap_with(Pointer kek, Size kekLength, Pointer iv,
        Size ivLength, Pointer wrapped, Size wrappedLength, Pointer key, Size keyLength);

    private static native int keywrap_wrap_padded(Pointer kek, Size kekLength, Pointer key,
        Size keyLength, Pointer wrapped, Size wrappedLength);

    private static native int keywrap_unwrap_padded(Pointer kek, Size kekLength, Pointer wrapped,
        Size wrappedLength, Pointer key, Size room, Pointer keyLength);

    /**
     * The arguments of a call in native memory, which is cleared after it. JNA would copy arrays
     * into memory that it frees as it is.
     */
    private static final class Arguments implements AutoCloseable {
        private final Memory memory;
        private int used = Native.SIZE_T_SIZE;
        final Pointer kek, iv, input, output, keyLength;
        final Size kekLength, ivLength, length, room;

        Arguments(byte[] kek, byte[] iv, byte[] input, int length, int room) {
            memory = new Memory((long) used + kek.length + iv.length + length + room);
            keyLength = memory;
            this.kek = copied(kek, kek.length);
            this.iv = copied(iv, iv.length);
            this.input = copied(input, length);
            output = memory.share(used);
            kekLength = new Size(kek.length);
            ivLength = new Size(iv.length);
            this.length = new Size(length);
            this.room = new Size(room);
        }

        private Pointer copied(byte[] bytes, int length) {
            memory.write(used, bytes, 0, length);
            used += length;
            return memory.share(used - length);
        }

        int keyLength() {
            return (int) (Native.SIZE_T_SIZE == 8 ? keyLength.getLong(0) : keyLength.getInt(0));
        }

        /** Returns the result, or throws the exception for this status. */
        byte[] result(int status, int count) throws IllegalBlockSizeException {
            if (status == BAD_LENGTH || status == INTEGRITY) {
                throw new IllegalBlockSizeException(text(status));
            }
            if (status != OK) {
                throw new ProviderException(text(status));
            }
            return output.getByteArray(0, count);
        }

        @Override
        public void close() {
            memory.clear();
            memory.close();
        }
    }

    private static String text(int status) {
        byte[] text = new byte[80];
        keywrap_status_text(status, text, new Size(text.length));
        return Native.toString(text);
    }

    static String version() {
        int number = keywrap_version();
        return (number >> 16) + "." + (number >> 8 & 255) + "." + (number & 255);
    }

    static boolean passesSelfTest() {
        return keywrap_self_test() == OK;
    }

    /** Returns the length of a wrapped key. */
    static int wrappedLength(boolean padded, int length) {
        return (padded ? (length + 7) / 8 * 8 : length) + 8;
    }

    /** Returns the length of the buffer for an unwrapped key. */
    static int room(int length) {
        return Math.max(length - 8, 0);
    }

    /** Wraps the first bytes of an array. The padded form has only one initial value. */
    static byte[] wrap(boolean padded, byte[] kek, byte[] iv, byte[] key, int length)
            throws IllegalBlockSizeException {
        int room = wrappedLength(padded, length);
        try (Arguments a = new Arguments(kek, iv, key, length, room)) {
            int status = padded
                ? keywrap_wrap_padded(a.kek, a.kekLength, a.input, a.length, a.output, a.room)
                : keywrap_wrap_with(a.kek, a.kekLength, a.iv, a.ivLength, a.input, a.length,
                    a.output, a.room);
            return a.result(status, room);
        }
    }

    /** Unwraps the first bytes of an array. */
    static byte[] unwrap(boolean padded, byte[] kek, byte[] iv, byte[] wrapped, int length)
            throws IllegalBlockSizeException {
        int room = room(length);
        try (Arguments a = new Arguments(kek, iv, wrapped, length, room)) {
            int status = padded
                ? keywrap_unwrap_padded(a.kek, a.kekLength, a.input, a.length, a.output,
                    a.room, a.keyLength)
                : keywrap_unwrap_with(a.kek, a.kekLength, a.iv, a.ivLength, a.input, a.length,
                    a.output, a.room);
            return a.result(status, padded ? a.keyLength() : room);
        }
    }
}
