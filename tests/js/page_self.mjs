// Shows that the page's own assertions can fail: page/test.mjs replaces Node's.

import assert from 'node:assert/strict';
import { test } from 'node:test';

const bytes = (...all) => Uint8Array.from(all);

const WRONG = [
    () => assert.ok(0),
    () => assert.equal(1, 2),
    () => assert.notEqual(1, 1),
    () => assert.deepEqual(bytes(1, 2), bytes(1, 3)),
    () => assert.deepEqual(bytes(1, 2), bytes(1)),
    () => assert.deepEqual([1], bytes(1)),
    () => assert.deepEqual({ form: 'plain', length: 16 }, { form: 'plain' }),
    () => assert.deepEqual({ form: 'plain' }, { form: 'plain', length: 16 }),
    () => assert.deepEqual(null, {}),
    () => assert.match('some', /other/),
    () => assert.throws(() => 1, Error),
    () => assert.throws(() => { throw new Error('some'); }, TypeError),
    () => assert.throws(() => { throw new Error('some'); }, /other/),
    () => assert.throws(() => { throw new Error('some'); }, { name: 'Error', message: 'other' }),
    () => assert.throws(() => { throw new Error('some'); }, () => false),
    () => assert.rejects(Promise.resolve(1), Error),
    () => assert.rejects(Promise.reject(new Error('some')), TypeError),
];

test('a wrong assertion fails', async () => {
    for (const wrong of WRONG) {
        let failed = false;
        try {
            await wrong();
        } catch {
            failed = true;
        }
        if (!failed) {
            throw new Error(`it does not fail: ${wrong}`);
        }
    }
});
