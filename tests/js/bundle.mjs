// The code that is bundled with the package. It offers a call that returns the wrapping of RFC 3394, 4.1, and the key
// that is unwrapped from it, as hex digits.

const bytes = (hex) => Uint8Array.from(hex.match(/../g), (digits) => parseInt(digits, 16));
const hexOf = (given) => Array.from(given, (byte) => byte.toString(16).padStart(2, '0')).join('');

export function offer(name, load) {
    globalThis[name] = async () => {
        const { wrap, unwrap } = await load();
        const kek = bytes('000102030405060708090a0b0c0d0e0f');
        const wrapped = wrap(kek, bytes('00112233445566778899aabbccddeeff'));
        return `${hexOf(wrapped)} ${hexOf(unwrap(kek, wrapped))}`;
    };
}
