// Makes the calls of the lines that faces.py writes, in Node from standard input, in a page by `answers`. Looks at the
// module's stack after each call, and at its memory after each of the first 1,000 calls, and after some of the others.

import {
    BadInitialValue, BadKekLength, BadLength, IntegrityFailed, KeyNotPlain, isAsMade, isEqual, watched,
} from './watched.mjs';

// No call may use half of the stack.
const { keywrap, exports } = await watched(undefined, (made) => {
    const stack = new Uint8Array(made.memory.buffer, 0, 8192);
    const measured = ([name, call]) => [name, (...given) => {
        stack.fill(0x5b);
        const status = call(...given);
        if (stack.subarray(0, 4096).some((byte) => byte !== 0x5b)) {
            throw new Error(`${name} uses half of the stack`);
        }
        return status;
    }];
    const calls = Object.entries(made).filter(([name]) => name.startsWith('keywrap_'));
    return { ...made, ...Object.fromEntries(calls.map(measured)) };
});
keywrap.selfTest();
const STATUSES = new Map([
    [BadInitialValue, 2], [BadKekLength, 3], [BadLength, 4], [IntegrityFailed, 5], [KeyNotPlain, 8],
]);
const FLAGS = ['oldPadded', 'newPadded', 'keepForm', 'passNew'];

const PAIRS = Array.from({ length: 256 }, (_, byte) => byte.toString(16).padStart(2, '0'));
const bytes = (text) => new Uint8Array(text.length >> 1).map((_, at) => parseInt(text.slice(2 * at, 2 * at + 2), 16));
const digits = (given) => given.reduce((text, byte) => text + PAIRS[byte], '');

function optionsOf(call, iv, flags) {
    const set = FLAGS.filter((_, bit) => Number(flags) >> bit & 1);
    return call.endsWith('_with') ? { iv: bytes(iv) } : flags === '-' || call === 'kind_many' ? undefined
        : call.startsWith('rewrap') ? Object.fromEntries(set.map((name) => [name, true])) : { padded: set.length > 0 };
}

const statusOf = (found) => (found === null ? 5 : found instanceof Error ? STATUSES.get(found.constructor) : 0);
const formOf = (found) => (found && found.form === 'padded' ? 1 : 0);

const bytesOf = (found) => (found instanceof Uint8Array ? found : found && found.key);

// The returned bytes, kinds and refusals. A refusal has no bytes.
function answer(call, found) {
    const each = [found].flat(), isMany = Array.isArray(found), many = isMany ? 's' : '';
    const refusal = each.find((one) => one instanceof Error);
    const words = [`status=${isMany ? 0 : statusOf(found)}`];
    const list = (name, of) => words.push(`${name}=${each.map(of)}`);
    if (isMany ? call !== 'kind_many' : bytesOf(found)) {
        list('out', (one) => digits(bytesOf(one) || []));
    }
    if (isMany) {
        list('statuses', statusOf);
    }
    if (isMany ? call === 'kind_many' : found && found.form) {
        list(`form${many}`, formOf);
    }
    if (call.startsWith('kind') && words[1]) {
        list(`len${many}`, (one) => (one ? one.length : 0));
    }
    return words.join(' ') + (refusal ? ` text=${refusal.message}` : '');
}

function called(number, call, kek, newKek, iv, flags, text) {
    const name = call.replace('kind', 'check').replace('_with', '').replace(/_(.)/, (_, one) => one.toUpperCase());
    const given = !call.endsWith('_many') ? bytes(text) : text === '-' ? [] : text.split(',').map(bytes);
    const copy = structuredClone(given);
    const keks = (call.startsWith('rewrap') ? [kek, newKek] : [kek]).map(bytes);
    let found;
    try {
        found = keywrap[name](...keks, given, optionsOf(call, iv, flags));
    } catch (error) {
        found = error;
    }
    const isOwn = [found].flat().every((one) => !(one instanceof Uint8Array)
        || one.buffer.byteLength === one.length && one.buffer !== exports.memory.buffer);
    const isChanged = ![copy].flat().every((one, at) => isEqual(one, [given].flat()[at]));
    const isClean = number > 1000 && number % 500 || isAsMade(exports);
    return answer(call, found) + (isOwn && !isChanged && isClean ? '' : ' changed');
}

export const answers = (lines) => lines.trim().split('\n').map((line, number) => called(number, ...line.split(' ')));

if (globalThis.process) {
    const { readFileSync } = await import('node:fs');
    console.log(answers(readFileSync(0, 'utf8')).join('\n'));
}
