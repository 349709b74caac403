// Tests of the package in Node and in a page, without its calls: the module's memory, how a module is loaded, options.
// tests/rows.txt has the calls, and faces.py their messages.

import assert from 'node:assert/strict';
import { test } from 'node:test';
import * as keywrapModule from 'keywrap';
import * as inlineModule from 'keywrap/inline';
import { readModule } from './host.mjs';
import { BadInitialValue, BadKekLength, BadLength, KeywrapError, isAsMade, isEqual, watched } from './watched.mjs';

const zeros = (length) => new Uint8Array(length);
const counted = (length, factor = 1) => zeros(length).map((_, at) => at * factor);

const MODULE = await readModule();
const MAX_KEY = 1048576;
const KEK = counted(16);
const KEY = counted(16, 17);

const { keywrap, exports } = await watched();
const { wrap, unwrap, wrapPadded, unwrapAny, check, wrapMany, unwrapMany, checkMany } = keywrap;
const WRAPPED = wrap(KEK, KEY);

// The place at which the module has these bytes.
const place = (bytes) => MODULE.findIndex((_, from) => isEqual(MODULE.subarray(from, from + bytes.length), bytes));

test('the module imports nothing, and its memory, with 32-bit addresses and a largest size, never grows', async () => {
    assert.deepEqual(WebAssembly.Module.imports(await WebAssembly.compile(MODULE)), []);
    // The section of the memories has four bytes: one memory, that it has a largest size, and its pages, twice.
    const pages = exports.memory.buffer.byteLength / 65536;
    assert.ok(pages < 128 && place([5, 4, 1, 1, pages, pages]) > 0);
    for (const more of [1, 1n]) {
        assert.throws(() => exports.memory.grow(more));
    }
});

test('the self test sees a changed byte of a vector', async () => {
    keywrap.selfTest();
    assert.ok(isAsMade(exports));
    const changed = MODULE.slice();
    changed[place(WRAPPED) + 8] ^= 1;
    const other = await keywrapModule.load(changed);
    const message = 'self test failed: this host computes wrong results';
    assert.throws(() => other.selfTest(), { name: 'Error', message });
});

test('inputs that the memory has no room for', () => {
    const long = zeros(5 * MAX_KEY);
    const refused = { constructor: BadLength, message: /key is 5242880 bytes long; it must be / };
    for (const call of [wrap, wrapPadded, unwrap, unwrapAny]) {
        assert.throws(() => call(KEK, long), refused);
    }
    assert.throws(() => wrap(long, long), BadKekLength);
    assert.throws(() => wrap(long, KEY, { iv: long }), BadInitialValue);
    assert.ok(isAsMade(exports));
});

test('a module is loaded from its bytes, or compiled, each with a memory of its own', async () => {
    for (const source of [undefined, MODULE, new Uint8Array(MODULE).buffer, await WebAssembly.compile(MODULE)]) {
        const other = await watched(source);
        assert.deepEqual(other.keywrap.wrap(KEK, KEY), WRAPPED);
        assert.notEqual(other.exports.memory, exports.memory);
    }
    await assert.rejects(watched(zeros(8)), WebAssembly.CompileError);
    await assert.rejects(watched('keywrap.wasm'), TypeError);
});

test('keywrap/inline exports the same, and has the bytes of the module in it', async () => {
    const { load: ofFile, ...classes } = keywrapModule;
    const { load: ofCopy, ...sameClasses } = inlineModule;
    assert.deepEqual(sameClasses, classes);
    assert.notEqual(ofCopy, ofFile);
    const { compile } = WebAssembly;
    const compiled = [];
    WebAssembly.compile = (given) => compiled.push(given) && compile(given);
    try {
        assert.deepEqual((await ofCopy()).wrap(KEK, KEY), WRAPPED);
        await assert.rejects(ofCopy(zeros(8)), WebAssembly.CompileError);
    } finally {
        WebAssembly.compile = compile;
    }
    assert.equal(compiled.length, 2);
    assert.ok(isEqual(compiled[0], MODULE));
});

test('a status that a call does not answer is no refusal, and a module that stops leaves no secret', async () => {
    for (const status of [1, 2, 3, 6, 77, -1, undefined, 'stops']) {
        const stops = (ended) => (status === 'stops' ? assert.fail('stops') : ended || status);
        const other = await watched(undefined, (made) => ({
            ...made, keywrap_wrap: (...given) => stops(made.keywrap_wrap(...given)),
        }));
        const message = status === 'stops' ? status : `internal error: keywrap_wrap answered ${status}`;
        assert.throws(() => other.keywrap.wrap(KEK, KEY), { message });
        assert.ok(isAsMade(other.exports));
    }
});

test('after 300 calls in which the stack of the host ended, calls work', async () => {
    const other = await watched();
    let ended = 0, inside = 0;
    // From the end of the stack up, calls until one works, which this returns.
    function fromEnd(...padding) {
        let works = false;
        try {
            works = fromEnd(...padding);
        } catch {
            // Here the stack ends.
        }
        try {
            return works || other.keywrap.wrap(KEK, KEY);
        } catch {
            ended++;
            inside += other.exports.__in_call.value;
            return false;
        }
    }
    for (let turn = 0; ended < 300; turn++) {
        assert.deepEqual(fromEnd(...zeros(turn % 13)), WRAPPED);
    }
    assert.ok(inside > 0);
    other.keywrap.selfTest();
    assert.ok(isAsMade(other.exports));
});

test('a host without WebAssembly', async () => {
    const { WebAssembly: kept } = globalThis;
    globalThis.WebAssembly = undefined;
    await assert.rejects(keywrapModule.load(), { message: 'this host has no WebAssembly' })
        .finally(() => { globalThis.WebAssembly = kept; });
});

test('a server without keywrap.wasm', async () => {
    const { URL: keptURL, fetch: keptFetch } = globalThis;
    globalThis.URL = class extends keptURL {
        constructor(path) { super(path, 'https://example.org/'); }
    };
    globalThis.fetch = async () => ({
        ok: false, status: 404, statusText: 'Not Found', arrayBuffer: async () => new ArrayBuffer(0),
    });
    await assert.rejects(keywrapModule.load(), { message: 'https://example.org/keywrap.wasm: 404 Not Found' })
        .finally(() => { Object.assign(globalThis, { URL: keptURL, fetch: keptFetch }); });
});

test('the exports, and the classes of the errors', () => {
    const parents = {
        BadInitialValue: KeywrapError, BadKekLength: KeywrapError, BadLength: KeywrapError,
        IntegrityFailed: KeywrapError, KeyNotPlain: BadLength, KeywrapError: Error, load: Function.prototype,
    };
    assert.deepEqual(Object.keys(keywrapModule).sort(), Object.keys(parents));
    for (const [name, parent] of Object.entries(parents)) {
        assert.ok(name === 'load' || Object.getPrototypeOf(keywrapModule[name]) === parent);
    }
});

test('the object that load returns cannot be changed', () => {
    const names = ['version', 'wrap', 'unwrap', 'wrapPadded', 'unwrapPadded', 'unwrapAny', 'rewrap',
        'check', 'selfTest', 'wrapMany', 'unwrapMany', 'rewrapMany', 'checkMany'];
    assert.deepEqual(Object.keys(keywrap), names);
    assert.ok(Object.isFrozen(keywrap));
});

test('many keys: more long ones, and more short ones, than the memory has room for', () => {
    const long = [3, 5, 7].map((factor) => counted(MAX_KEY, factor));
    const short = Array(Math.ceil(exports.memory.buffer.byteLength / 16)).fill(KEY.subarray(0, 7));
    for (const [keys, padded] of [[long, false], [short, true]]) {
        const wrapped = wrapMany(KEK, keys, { padded });
        const kind = { form: padded ? 'padded' : 'plain', length: keys[0].length };
        assert.ok(unwrapMany(KEK, wrapped, { padded }).every((key, at) => isEqual(key, keys[at])));
        assert.deepEqual(checkMany(KEK, wrapped), keys.map(() => kind));
        assert.deepEqual(check(KEK, wrapped.at(-1)), kind);
    }
    assert.ok(isAsMade(exports));
});
