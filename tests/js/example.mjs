// The page example.html in a frame, in each engine.

import assert from 'node:assert/strict';
import { test } from 'node:test';
import { KEK16 as KEK, KEK5649, KEY16 as KEY, KEY20, WRAPPED16 as WRAPPED, WRAPPED20 } from './vectors.mjs';

// Waits until the condition holds, for ten seconds at most.
async function until(holds, what) {
    for (let wait = 0; !holds(); wait++) {
        assert.ok(wait < 500, what);
        await new Promise((later) => { setTimeout(later, 20); });
    }
}

async function opened() {
    const frame = document.createElement('iframe');
    frame.src = '/keywrap/example.html';
    document.body.append(frame);
    const field = (id) => frame.contentDocument?.getElementById(id);
    await until(() => field('check') && !field('check').disabled, 'the page loads');
    const type = (id, words) => {
        field(id).value = words;
        field(id).dispatchEvent(new frame.contentWindow.Event('input', { bubbles: true }));
    };
    return { field, type };
}

test('the example page wraps, unwraps and checks a key, and says why it refuses one', async () => {
    const { field, type } = await opened();
    const done = (kek, text, button) => {
        type('kek', kek);
        type('text', text);
        field(button).click();
        return [field('told').textContent, field('answer').textContent, field('told').className === 'refused'];
    };
    assert.deepEqual(done(KEK, KEY, 'wrap'), ['Wrapped key, 24 bytes:', WRAPPED, false]);
    const bytes = WRAPPED.match(/../g).map((digits) => parseInt(digits, 16));
    assert.equal(field('base64').textContent, btoa(String.fromCharCode(...bytes)));
    assert.deepEqual(done(KEK, WRAPPED, 'unwrap'), ['Key, 16 bytes:', KEY, false]);
    const spaced = WRAPPED.toUpperCase().replace(/.{16}/g, '$& \t');
    assert.deepEqual(done(KEK, spaced, 'check'), ['It is a wrapped key: plain, of 16 bytes.', '', false]);
    for (const [kek, text, reason] of [
        [KEK, `${WRAPPED.slice(0, -1)}4`, 'integrity check failed: no wrapped key under this KEK.'],
        [KEK.slice(2), WRAPPED, 'the KEK is 15 bytes long; it must be 16, 24 or 32 bytes.'],
        [KEK, '0g', 'the second field is not hex digits in pairs.'],
    ]) {
        assert.deepEqual(done(kek, text, 'unwrap'), [`Refused: ${reason}`, '', true]);
    }
    field('padded').click();
    assert.deepEqual(done(KEK5649, KEY20, 'wrap'), ['Wrapped key, 32 bytes:', WRAPPED20, false]);
});
