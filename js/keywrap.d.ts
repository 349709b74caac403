// The types of `keywrap` and `keywrap/inline`, and the documentation of their calls.

/** A refusal. It reveals nothing of a key. */
export class KeywrapError extends Error {}

/** The initial value is not 8 bytes long, or begins with a6 59 59 a6 (reserved for RFC 5649). */
export class BadInitialValue extends KeywrapError {}

/** The key-encryption key (KEK) is not 16, 24 or 32 bytes long. */
export class BadKekLength extends KeywrapError {}

/** The length of the key or the wrapped key is not legal in this form. */
export class BadLength extends KeywrapError {}

/** The wrapped key is genuine, but no plain key has the length of its key. */
export class KeyNotPlain extends BadLength {}

/** The integrity check failed: another KEK, form or initial value, or damage. */
export class IntegrityFailed extends KeywrapError {}

/** An initial value of 8 bytes that both ends agreed on (RFC 3394, 2.2.3.2), instead of the default. */
export interface Plain {
    iv?: Uint8Array;
}

/**
 * Which wrapped keys have the padded form: the given one, or the returned one. `keepForm` excludes
 * both: the given one may have either form, and the returned one has the same form. With `passNew`
 * a wrapped key that is already under the new KEK, in the form of the returned one, is returned as
 * it is.
 */
export interface Forms {
    oldPadded?: boolean;
    newPadded?: boolean;
    keepForm?: boolean;
    passNew?: boolean;
}

/** Whether the wrapped keys have the padded form. */
export interface Padded {
    padded?: boolean;
}

/** The form in which a key was wrapped, and the length of the key in bytes. */
export interface Kind {
    form: 'plain' | 'padded';
    length: number;
}

/** A key, and the form in which it was wrapped. */
export interface Found {
    form: 'plain' | 'padded';
    key: Uint8Array;
}

/**
 * The calls. A KEK of 16, 24 or 32 bytes (else `BadKekLength`) wraps a key of up to 1,048,576 bytes.
 * An argument that is not a Uint8Array is a TypeError, and so is an unknown option.
 */
export interface Keywrap {
    /** The version of the library, such as '1.0.0'. */
    readonly version: string;

    /**
     * Returns the plain wrapping of a key (RFC 3394, 2.2.1), which is 8 bytes longer. The key has a
     * multiple of 8 bytes from 16 on (else `BadLength`). `BadInitialValue` if `iv` is refused.
     */
    wrap(kek: Uint8Array, key: Uint8Array, options?: Plain): Uint8Array;

    /**
     * Returns the key whose plain wrapping this is (RFC 3394, 2.2.2): `IntegrityFailed` if there is
     * none. The wrapped key has a multiple of 8 bytes from 24 to 1,048,584.
     */
    unwrap(kek: Uint8Array, wrapped: Uint8Array, options?: Plain): Uint8Array;

    /**
     * Returns the padded wrapping of a key (RFC 5649, 4.1), 8 bytes longer than the next multiple of
     * 8. The key has 1 byte or more (else `BadLength`).
     */
    wrapPadded(kek: Uint8Array, key: Uint8Array): Uint8Array;

    /**
     * Returns the key whose padded wrapping this is (RFC 5649, 4.2): `IntegrityFailed` if there is
     * none. The wrapped key has a multiple of 8 bytes from 16 to 1,048,584.
     */
    unwrapPadded(kek: Uint8Array, wrapped: Uint8Array): Uint8Array;

    /**
     * Returns the key whose wrapping this is, plain (with the default initial value) or padded, and
     * its form: `IntegrityFailed` if there is none. No wrapped key has both forms. The wrapped key has
     * a multiple of 8 bytes from 16 to 1,048,584.
     */
    unwrapAny(kek: Uint8Array, wrapped: Uint8Array): Found;

    /**
     * Rewraps a wrapped key from the old KEK to the new one. The result has the same length.
     * `KeyNotPlain` if it would be plain and no plain key has the length of the key. The key is never
     * returned.
     */
    rewrap(
        oldKek: Uint8Array, newKek: Uint8Array, wrapped: Uint8Array, options?: Forms,
    ): Uint8Array;

    /** Returns the form and the length of the key; null if this is not a wrapped key under the KEK. */
    check(kek: Uint8Array, wrapped: Uint8Array): Kind | null;

    /**
     * Each does what the call for one key does with each of the keys or wrapped keys, which have one
     * length (else `BadLength`). Each result is what that call returns or throws: a key, a wrapped key,
     * or an `IntegrityFailed` or `KeyNotPlain` in its place. An illegal KEK or length is thrown.
     * There must be at least one. One call for many keys takes less time.
     */
    wrapMany(kek: Uint8Array, keys: Uint8Array[], options?: Padded): Uint8Array[];
    unwrapMany(
        kek: Uint8Array, wrapped: Uint8Array[], options?: Padded,
    ): (Uint8Array | KeywrapError)[];
    rewrapMany(
        oldKek: Uint8Array, newKek: Uint8Array, wrapped: Uint8Array[], options?: Forms,
    ): (Uint8Array | KeywrapError)[];
    checkMany(kek: Uint8Array, wrapped: Uint8Array[]): (Kind | null)[];

    /**
     * Wraps and unwraps the published vectors of RFC 3394 and RFC 5649, and unwraps a damaged wrapped
     * key. An `Error` if a result is wrong.
     */
    selfTest(): void;
}

/**
 * Loads `keywrap.wasm`: from the directory of `keywrap.js`, in `keywrap/inline` from the copy in it, or
 * from its bytes or a compiled module. Each call makes an instance with a memory of its own.
 */
export function load(source?: ArrayBuffer | ArrayBufferView | object): Promise<Keywrap>;
