// Objects with false properties change no result. Anything but a Uint8Array is a TypeError.

import assert from 'node:assert/strict';
import { test } from 'node:test';
import { inOtherRealm } from './host.mjs';
import { isAsMade, watched } from './watched.mjs';

const KEK = Uint8Array.from({ length: 16 }, (_, at) => at);
const KEY = KEK.map((byte) => 17 * byte);
const IV = new Uint8Array(8).fill(0xa6);
const { keywrap, exports } = await watched();
const { wrap, unwrap, wrapPadded, unwrapPadded, unwrapAny, rewrap, check } = keywrap;
const { wrapMany, unwrapMany, rewrapMany, checkMany } = keywrap;
const WRAPPED = wrap(KEK, KEY);
const PADDED = wrapPadded(KEK, KEY);

// Each call as one of only bytes, with its result.
const CALLS = [
    [wrap, [KEK, KEY], WRAPPED],
    [(kek, key, iv) => wrap(kek, key, { iv }), [KEK, KEY, IV], WRAPPED],
    [unwrap, [KEK, WRAPPED], KEY],
    [(kek, wrapped, iv) => unwrap(kek, wrapped, { iv }), [KEK, WRAPPED, IV], KEY],
    [wrapPadded, [KEK, KEY], PADDED],
    [unwrapPadded, [KEK, PADDED], KEY],
    [unwrapAny, [KEK, WRAPPED], { form: 'plain', key: KEY }],
    [rewrap, [KEK, KEK, WRAPPED], WRAPPED],
    [check, [KEK, WRAPPED], { form: 'plain', length: 16 }],
    [(kek, key) => wrapMany(kek, [KEY, key]), [KEK, KEY], [WRAPPED, WRAPPED]],
    [(kek, wrapped) => unwrapMany(kek, [WRAPPED, wrapped]), [KEK, WRAPPED], [KEY, KEY]],
    [(old, fresh, wrapped) => rewrapMany(old, fresh, [wrapped]), [KEK, KEK, WRAPPED], [WRAPPED]],
    [(kek, wrapped) => checkMany(kek, [wrapped]), [KEK, WRAPPED], [{ form: 'plain', length: 16 }]],
];

// Says that it is longer than it is, and answers others for itself.
class Liar extends Uint8Array {
    static get [Symbol.species]() { return Array; }
    get length() { return 4096; }
    get byteLength() { return 4096; }
    get byteOffset() { return 1; }
    get buffer() { return new ArrayBuffer(4096); }
    get [Symbol.toStringTag]() { return 'Liar'; }
    subarray() { return KEK; }
    slice() { return KEK; }
    [Symbol.iterator]() { return KEK.values(); }
}

function resizable(given, make) {
    const made = new Uint8Array(make(given.length));
    made.set(given);
    return made;
}

const TAKEN = {
    'a liar': (given) => new Liar(given),
    ...globalThis.Buffer && { 'a Buffer': (given) => Buffer.from(given) },
    'one of another realm': inOtherRealm,
    'a part of a buffer': (given) => new Uint8Array([9, ...given, 9]).subarray(1, -1),
    'one whose tag is hidden': (given) => Object.defineProperty(
        Uint8Array.from(given), Symbol.toStringTag, { value: 'Array' }),
    'a resizable buffer': (given) => resizable(
        given, (length) => new ArrayBuffer(length, { maxByteLength: 4096 })),
    ...globalThis.SharedArrayBuffer && {
        'a shared buffer': (given) => resizable(given, (length) => new SharedArrayBuffer(length)),
        'a shared buffer that grows': (given) => resizable(
            given, (length) => new SharedArrayBuffer(length, { maxByteLength: 4096 })),
    },
};

function detached(given) {
    const made = Uint8Array.from(given);
    structuredClone(made.buffer, { transfer: [made.buffer] });
    return made;
}

const REFUSED = {
    'nothing': () => undefined,
    'null': () => null,
    'text': (given) => String.fromCharCode(...given),
    'an array': (given) => Array.from(given),
    'a number': () => 16,
    'an ArrayBuffer': (given) => Uint8Array.from(given).buffer,
    'a DataView': (given) => new DataView(Uint8Array.from(given).buffer),
    'words': (given) => new Uint16Array(Uint8Array.from(given).buffer),
    'clamped bytes': (given) => new Uint8ClampedArray(given),
    'no bytes, by its prototype': () => Object.create(Uint8Array.prototype),
    'a proxy': (given) => new Proxy(Uint8Array.from(given), {}),
    'a tag': () => ({ [Symbol.toStringTag]: 'Uint8Array', length: 16 }),
    'a detached buffer': detached,
};

// The inputs, each in turn replaced by what is made of it.
const withEach = (given, made) =>
    given.map((_, at) => given.map((item, of) => of === at ? made(item) : item));

for (const [name, made] of Object.entries(TAKEN)) {
    test(`is taken as its bytes: ${name}`, () => {
        for (const [call, given, answer] of CALLS) {
            for (const inputs of withEach(given, made)) {
                assert.deepEqual(call(...inputs), answer);
            }
        }
    });
}

for (const [name, made] of Object.entries(REFUSED)) {
    test(`is a TypeError: ${name}`, () => {
        for (const [call, given] of CALLS) {
            for (const inputs of withEach(given, made)) {
                // No initial value is the default one.
                if (inputs.length < 3 || inputs[2] !== undefined) {
                    assert.throws(() => call(...inputs), TypeError);
                }
            }
        }
        assert.ok(isAsMade(exports));
    });
}

test('options that are none, or of another call, are a TypeError', () => {
    const others = [
        [wrap, [KEK, KEY], [IV, new Uint8Array(0), null, 'iv', { IV }, { oldPadded: true }]],
        [unwrap, [KEK, WRAPPED], [IV, new Uint8Array(0), null, 'iv', { IV }, { padded: true }]],
        [wrapPadded, [KEK, KEY], [IV, null, { iv: IV }]],
        [unwrapPadded, [KEK, PADDED], [IV, null, { iv: IV }]],
        [unwrapAny, [KEK, PADDED], [IV, null, { iv: IV }]],
        [check, [KEK, WRAPPED], [IV, null, { iv: IV }]],
        [rewrap, [KEK, KEK, WRAPPED], [true, null, { iv: IV }, { padded: true }, { newPadded: 1 },
            { newPadded: 'false' }, { oldPadded: null }, { oldPadded: 0 }, { keepForm: 1 },
            { passNew: 1 }, { keepForm: true, oldPadded: true }, { keepForm: true, newPadded: true }]],
        [wrapMany, [KEK, [KEY]], [null, { iv: IV }]],
        [unwrapMany, [KEK, [WRAPPED]], [null, { padded: 1 }]],
        [checkMany, [KEK, [WRAPPED]], [null, { padded: true }]],
        [rewrapMany, [KEK, KEK, [WRAPPED]], [{ keepForm: true, oldPadded: true }, { keepForm: true, newPadded: true }]],
    ];
    for (const [call, given, options] of others) {
        call(...given, {});
        for (const option of options) {
            assert.throws(() => call(...given, option), TypeError);
        }
    }
    assert.deepEqual(rewrap(KEK, KEK, WRAPPED, { keepForm: false }), WRAPPED);
    assert.deepEqual(wrap(KEK, KEY, { iv: undefined }), WRAPPED);
    assert.throws(() => wrapMany(KEK, KEY), TypeError);
    assert.throws(() => checkMany(KEK, null), TypeError);
});
