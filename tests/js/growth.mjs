// Many calls in a row, in Node: they take no memory.

import assert from 'node:assert/strict';
import { test } from 'node:test';
import { isAsMade, watched } from './watched.mjs';

const { keywrap, exports } = await watched();
const KEK = new Uint8Array(16);
const KEY = new Uint8Array(32);
const WRAPPED = keywrap.wrap(KEK, KEY);
const PADDED = keywrap.wrapPadded(KEK, KEY);
const CALLS = [
    () => keywrap.wrap(KEK, KEY), () => keywrap.unwrap(KEK, WRAPPED),
    () => keywrap.wrapPadded(KEK, KEY), () => keywrap.unwrapPadded(KEK, PADDED),
    () => keywrap.rewrap(KEK, KEK, WRAPPED), () => keywrap.check(KEK, PADDED),
];

test('10,000 calls in a row take no memory', () => {
    const size = () => {
        globalThis.gc();
        const { heapUsed, arrayBuffers } = process.memoryUsage();
        return heapUsed + arrayBuffers;
    };
    const calls = (count) => {
        for (let turn = 0; turn < count; turn++) {
            CALLS[turn % CALLS.length]();
            assert.throws(() => keywrap.unwrap(KEK, PADDED));
        }
    };
    calls(1000);
    const [before, length] = [size(), exports.memory.buffer.byteLength];
    calls(10000);
    assert.ok(size() - before < 1 << 20);
    assert.equal(exports.memory.buffer.byteLength, length);
    assert.ok(isAsMade(exports));
});
