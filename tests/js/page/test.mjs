// The parts of node:test and node:assert/strict that the tests use, for a page: tests/js/engines.mjs maps
// both names to this file.

const tests = [];

export function test(name, run) {
    tests.push([name, run]);
}

// Runs the tests in their order. Returns the failures, each a line, and the number of tests.
export async function runAll() {
    const failures = [];
    for (const [name, run] of tests) {
        try {
            await run();
        } catch (error) {
            failures.push(`${name}: ${error && error.stack ? `${error}\n${error.stack}` : error}`);
        }
    }
    return { failures, count: tests.length };
}

export class AssertionError extends Error {}

function fail(message) {
    throw new AssertionError(message);
}

const shown = (value) => {
    const isBytes = value instanceof Uint8Array;
    return isBytes ? `bytes ${[...value.subarray(0, 40)]}` : String(value).slice(0, 200);
};

const tagOf = (value) => Object.prototype.toString.call(value);

// Whether both are the same: numbers, strings and the like by Object.is, and objects by their
// prototype and their own properties.
function isSame(one, other) {
    if (Object.is(one, other)) {
        return true;
    }
    if (typeof one !== 'object' || typeof other !== 'object' || !one || !other) {
        return false;
    }
    const names = Object.keys(one);
    return tagOf(one) === tagOf(other)
        && Object.getPrototypeOf(one) === Object.getPrototypeOf(other)
        && names.length === Object.keys(other).length
        && names.every((name) => Object.hasOwn(other, name) && isSame(one[name], other[name]));
}

function fits(error, wanted) {
    if (wanted === undefined) {
        return true;
    }
    if (wanted instanceof RegExp) {
        return wanted.test(String(error));
    }
    if (typeof wanted !== 'function') {
        return Object.entries(wanted).every(([name, value]) => (
            value instanceof RegExp ? value.test(error[name]) : isSame(error[name], value)));
    }
    const isClass = wanted === Error || Error.isPrototypeOf(wanted);
    return isClass ? error instanceof wanted : wanted(error) === true;
}

function ok(value, message) {
    if (!value) {
        fail(message || `not true: ${shown(value)}`);
    }
}

const assert = Object.assign((value, message) => ok(value, message), {
    ok,
    fail,
    equal: (one, other) => ok(Object.is(one, other), `${shown(one)} is not ${shown(other)}`),
    notEqual: (one, other) => ok(!Object.is(one, other), `both are ${shown(one)}`),
    deepEqual: (one, other) => ok(isSame(one, other), `${shown(one)} is not like ${shown(other)}`),
    match: (text, pattern) => ok(pattern.test(text), `${shown(text)} does not match ${pattern}`),
    throws(run, wanted) {
        let error, returned = false;
        try {
            run();
            returned = true;
        } catch (thrown) {
            error = thrown;
        }
        if (returned || !fits(error, wanted)) {
            fail(returned ? 'it did not throw' : `it threw another error: ${error}`);
        }
    },
    async rejects(promise, wanted) {
        let error, returned = false;
        try {
            await promise;
            returned = true;
        } catch (thrown) {
            error = thrown;
        }
        if (returned || !fits(error, wanted)) {
            fail(returned ? 'it was not rejected' : `it was rejected with another error: ${error}`);
        }
    },
});

export default assert;
