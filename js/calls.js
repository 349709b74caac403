// AES Key Wrap (RFC 3394) and AES Key Wrap with Padding (RFC 5649), by the module keywrap.wasm: the
// refusals, the arguments of a call, and the calls over the module's memory. keywrap.js and inline.js
// find the module, and export what keywrap.d.ts documents. The oldest hosts of the README lack static
// blocks, private members and `at`, so nothing here uses them.

/* The refusals */

export class KeywrapError extends Error {}
export class BadInitialValue extends KeywrapError {}
export class BadKekLength extends KeywrapError {}
export class BadLength extends KeywrapError {}
export class KeyNotPlain extends BadLength {}
export class IntegrityFailed extends KeywrapError {}

// Minifiers rename a class, but not a string.
const ERRORS = {
    KeywrapError, BadInitialValue, BadKekLength, BadLength, KeyNotPlain, IntegrityFailed,
};
for (const [name, error] of Object.entries(ERRORS)) {
    error.prototype.name = name;
}

/* Legal lengths: the longest in bytes, and the text of all of them */

const MAX_KEY = 1048576;
const MAX_WRAPPED = MAX_KEY + 8;
const KEK = { what: 'the KEK', longest: 32, legal: '16, 24 or 32' };
const IV = { what: 'the initial value', longest: 8, legal: '8' };
const PLAIN_KEY = {
    what: 'the key', longest: MAX_KEY, legal: `a multiple of 8 from 16 to ${MAX_KEY}`,
};
const PADDED_KEY = {
    what: 'the key', longest: MAX_KEY, legal: `from 1 to ${MAX_KEY}`,
};
const WRAPPED_PLAIN = {
    what: 'the wrapped key', longest: MAX_WRAPPED, legal: `a multiple of 8 from 24 to ${MAX_WRAPPED}`,
};
const WRAPPED_PADDED = {
    what: 'the wrapped key', longest: MAX_WRAPPED, legal: `a multiple of 8 from 16 to ${MAX_WRAPPED}`,
};

const typedArray = Object.getPrototypeOf(Uint8Array.prototype);
const getter = (name) => {
    const { get } = Object.getOwnPropertyDescriptor(typedArray, name);
    return (object) => get.call(object);
};
const tagOf = getter(Symbol.toStringTag);
const bufferOf = getter('buffer');
const offsetOf = getter('byteOffset');
const lengthOf = getter('length');

// The bytes of a Uint8Array, as a view whose length cannot change. Reads no property that the
// object may have replaced; a detached buffer is a TypeError, too.
function taken(kind, given) {
    if (tagOf(given) !== 'Uint8Array') {
        throw new TypeError(`${kind.what} must be a Uint8Array`);
    }
    return { kind, bytes: new Uint8Array(bufferOf(given), offsetOf(given), lengthOf(given)) };
}

// The options of a call. An unknown name is an error, and so is an array in their place.
function optionsOf(given, ...names) {
    if (typeof given !== 'object' || given === null || ArrayBuffer.isView(given)) {
        throw new TypeError('the options must be an object, as { name: value }');
    }
    for (const name of Object.keys(given)) {
        if (!names.includes(name)) {
            throw new TypeError(`this call has no such option: ${name}`);
        }
    }
    return given;
}

function flagOf(name, given) {
    if (typeof given !== 'boolean') {
        throw new TypeError(`${name} must be true or false`);
    }
    return given;
}

/* Statuses and their messages. generate/facts.py writes the numbers and the texts. */

const BAD_IV = 2;
const BAD_KEK = 3;
const BAD_LENGTH = 4;
const INTEGRITY = 5;
const KEY_NOT_PLAIN = 8;
const TEXTS = {
    [BAD_LENGTH]: 'bad length',
    [INTEGRITY]: 'integrity check failed',
    [KEY_NOT_PLAIN]: 'no plain key has the length of the key',
};

const isBadKek = ({ kind, bytes }) => kind === KEK && ![16, 24, 32].includes(bytes.length);
const lengthIs = ({ kind, bytes }) =>
    `${kind.what} is ${bytes.length} bytes long; it must be ${kind.legal} bytes`;

// Returns the error for a status.
function refusalOf(status, call, inputs) {
    const iv = inputs.find(({ kind }) => kind === IV);
    const kek = inputs.find(isBadKek);
    if (status === BAD_IV && iv) {
        return new BadInitialValue(iv.bytes.length === IV.longest
            ? 'the initial value is reserved for the padded form: it begins with a6 59 59 a6'
            : lengthIs(iv));
    }
    if (status === BAD_KEK && kek) {
        return new BadKekLength(lengthIs(kek));
    }
    if (status === BAD_LENGTH) {
        return new BadLength(`${TEXTS[status]}: ${lengthIs(inputs[inputs.length - 1])}`);
    }
    if (status === KEY_NOT_PLAIN) {
        return new KeyNotPlain(
            `${TEXTS[BAD_LENGTH]}: ${TEXTS[status]}; it must be ${PLAIN_KEY.legal} bytes`);
    }
    if (status === INTEGRITY) {
        return new IntegrityFailed(`${TEXTS[status]}: no wrapped key under this KEK`);
    }
    return new Error(`internal error: ${call} answered ${status}`);
}

/* The calls over the module's memory */

// The size of the module's stack, which begins at address 0: a call that needs more traps. The linker
// would give it 64 KiB, and clearing them after each call would take a fifth of the time.
const STACK = 8192;

// An instance and its memory, which nothing else uses: the stack, constants, and from `start` on two
// numbers that the module writes, copies of the inputs of a call, and room for its result. No caller
// sees a machine.
class Machine {
    constructor(exports) {
        this.exports = exports;
        this.memory = new Uint8Array(exports.memory.buffer);
        this.start = Math.ceil(Number(exports.__heap_base.value) / 8) * 8;
    }

    // Calls the module, from the state of a new instance: an earlier call may have been cut off because
    // the host's stack ended.
    run(name, given) {
        this.exports.__stack_pointer.value = BigInt(STACK);
        this.exports.__in_call.value = 0;
        return this.exports[name](...given);
    }

    get version() {
        const number = this.run('keywrap_version', []);
        return [number >>> 16, number >>> 8 & 255, number & 255].join('.');
    }

    // The two numbers, and their addresses.
    get atLength() { return BigInt(this.start); }
    get atPadded() { return BigInt(this.start + 8); }
    get length() { return this.number(0); }
    get form() { return this.number(8) === 1 ? 'padded' : 'plain'; }

    number(at) {
        return new DataView(this.memory.buffer, this.start + at).getUint32(0, true);
    }

    copy(at, length) { return this.memory.slice(at, at + length); }

    // Calls the module with copies of the inputs, and `room` for the answer after them if there is
    // any. Returns what `answer` makes of the last of these places. Whatever happens, the memory is
    // then as it was made. An input that is too long is cut to one byte more than is legal, which
    // the module refuses.
    call(name, inputs, { room, rest = [], answer = (at, length) => this.copy(at, length) }) {
        const copied = inputs.map(({ kind, bytes }) => bytes.subarray(0, kind.longest + 1));
        const lengths = copied.map(({ length }) => length);
        if (room) {
            lengths.push(room(lengths[lengths.length - 1]));
        }
        let end = this.start + 16;
        const places = lengths.map((length) => [(end += length) - length, length]);
        try {
            copied.forEach((bytes, of) => this.memory.set(bytes, places[of][0]));
            const status = this.run(name, [...places.flat().map(BigInt), ...rest]);
            if (status !== 0) {
                throw refusalOf(status, name, inputs);
            }
            return answer(...places[places.length - 1]);
        } finally {
            this.memory.fill(0, this.start, end);
            this.memory.fill(0, 0, STACK);
        }
    }

    // Calls the module over slots of one length, as many at once as the memory has room for. A slot
    // holds its input from `offset` on. `given` makes the arguments after the KEKs of the places, and
    // `each` the result of a slot that is done.
    many(name, keks, inputs, slot, options) {
        const room = this.memory.length - this.start - 2 * slot - 128;
        const most = Math.max(1, Math.floor(room / (slot + 10)));
        const results = [];
        for (let first = 0; first < inputs.length; first += most) {
            this.some(name, keks, inputs.slice(first, first + most), slot, options, results);
        }
        return results;
    }

    some(name, keks, inputs, slot, { offset = 0, given, each }, results) {
        const count = inputs.length;
        let end = this.start + 16;
        const place = (size, length = size) => [(end += size) - size, length].map(BigInt);
        const first = keks.map(({ bytes }) => place(Math.min(bytes.length, KEK.longest + 1)));
        const at = end;
        const texts = place(slot * count), scratch = place(slot - 8), forms = place(count);
        const lengths = place(8 * count, count), statuses = place(count);
        try {
            keks.forEach(({ bytes }, of) =>
                this.memory.set(bytes.subarray(0, KEK.longest + 1), Number(first[of][0])));
            inputs.forEach(({ bytes }, of) => this.memory.set(bytes, at + slot * of + offset));
            const places = given({ texts, scratch, forms, lengths, statuses });
            const status = this.run(name, [...first, ...places].flat());
            if (status !== 0) {
                throw refusalOf(status, name, [...keks, inputs[0]]);
            }
            const view = new DataView(this.memory.buffer);
            for (let of = 0; of < count; of++) {
                const status = view.getUint8(Number(statuses[0]) + of);
                results.push(status > 1 ? refusalOf(status, name, [...keks, inputs[of]]) : each({
                    at: at + slot * of,
                    padded: view.getUint8(Number(forms[0]) + of) === 1,
                    length: view.getUint32(Number(lengths[0]) + 8 * of, true),
                }));
            }
        } finally {
            this.memory.fill(0, this.start, end);
            this.memory.fill(0, 0, STACK);
        }
    }
}

// The room for a wrapped key, plain and padded, and for a key.
const plainRoom = (length) => length + 8;
const paddedRoom = (length) => Math.ceil(length / 8) * 8 + 8;
const keyRoom = (length) => Math.max(length - 8, 0);

function plain(machine, name, kek, iv, text, room) {
    return iv === undefined
        ? machine.call(name, [kek, text], { room })
        : machine.call(`${name}_with`, [kek, taken(IV, iv), text], { room });
}

function wrap(machine, kek, key, options = {}) {
    const { iv } = optionsOf(options, 'iv');
    const inputs = [taken(KEK, kek), iv, taken(PLAIN_KEY, key)];
    return plain(machine, 'keywrap_wrap', ...inputs, plainRoom);
}

function unwrap(machine, kek, wrapped, options = {}) {
    const { iv } = optionsOf(options, 'iv');
    const inputs = [taken(KEK, kek), iv, taken(WRAPPED_PLAIN, wrapped)];
    return plain(machine, 'keywrap_unwrap', ...inputs, keyRoom);
}

function wrapPadded(machine, kek, key, options = {}) {
    optionsOf(options);
    const inputs = [taken(KEK, kek), taken(PADDED_KEY, key)];
    return machine.call('keywrap_wrap_padded', inputs, { room: paddedRoom });
}

function unwrapPadded(machine, kek, wrapped, options = {}) {
    optionsOf(options);
    const inputs = [taken(KEK, kek), taken(WRAPPED_PADDED, wrapped)];
    return machine.call('keywrap_unwrap_padded', inputs, {
        room: keyRoom,
        rest: [machine.atLength],
        answer: (at) => machine.copy(at, machine.length),
    });
}

function unwrapAny(machine, kek, wrapped, options = {}) {
    optionsOf(options);
    const inputs = [taken(KEK, kek), taken(WRAPPED_PADDED, wrapped)];
    return machine.call('keywrap_unwrap_any', inputs, {
        room: keyRoom,
        rest: [machine.atPadded, machine.atLength],
        answer: (at) => ({ form: machine.form, key: machine.copy(at, machine.length) }),
    });
}

// The flags of keywrap_rewrap.
const OLD_PADDED = 1;
const NEW_PADDED = 2;
const KEEP_FORM = 4;
const PASS_NEW = 8;

// The flags of these options, and what a rewrap with them takes.
function rewrapFlags(options) {
    const { oldPadded = false, newPadded = false, keepForm = false, passNew = false } =
        optionsOf(options, 'oldPadded', 'newPadded', 'keepForm', 'passNew');
    const flags = flagOf('oldPadded', oldPadded) * OLD_PADDED
        | flagOf('newPadded', newPadded) * NEW_PADDED
        | flagOf('keepForm', keepForm) * KEEP_FORM
        | flagOf('passNew', passNew) * PASS_NEW;
    if (keepForm && (oldPadded || newPadded)) {
        throw new TypeError('keepForm goes with neither oldPadded nor newPadded');
    }
    return { flags, kind: oldPadded || keepForm ? WRAPPED_PADDED : WRAPPED_PLAIN };
}

function rewrap(machine, oldKek, newKek, wrapped, options = {}) {
    const { flags, kind } = rewrapFlags(options);
    const inputs = [taken(KEK, oldKek), taken(KEK, newKek), taken(kind, wrapped)];
    return machine.call('keywrap_rewrap', inputs, { rest: [flags, machine.atPadded] });
}

function check(machine, kek, wrapped, options = {}) {
    optionsOf(options);
    const inputs = [taken(KEK, kek), taken(WRAPPED_PADDED, wrapped)];
    try {
        return machine.call('keywrap_kind', inputs, {
            room: keyRoom,
            rest: [machine.atPadded, machine.atLength],
            answer: () => ({ form: machine.form, length: machine.length }),
        });
    } catch (error) {
        if (error instanceof IntegrityFailed) {
            return null;
        }
        throw error;
    }
}

// The inputs of a call for many keys, which have one length. An array of none is refused, as by C.
function takenMany(kind, given) {
    if (!Array.isArray(given)) {
        throw new TypeError(`${kind.what}s must be an array of Uint8Arrays`);
    }
    const inputs = Array.from(given, (input) => taken(kind, input));
    const [first] = inputs;
    if (!first || inputs.some(({ bytes }) => bytes.length !== first.bytes.length)) {
        throw new BadLength(`${TEXTS[BAD_LENGTH]}: ${kind.what}s must have one length, and there must be one`);
    }
    if (first.bytes.length > kind.longest) {
        throw new BadLength(`bad length: ${lengthIs(first)}`);
    }
    return inputs;
}

function wrapMany(machine, kek, keys, options = {}) {
    const { padded = false } = optionsOf(options, 'padded');
    const flags = flagOf('padded', padded) * NEW_PADDED;
    const inputs = takenMany(padded ? PADDED_KEY : PLAIN_KEY, keys);
    const length = inputs[0].bytes.length;
    const slot = paddedRoom(length);
    return machine.many('keywrap_wrap_many', [taken(KEK, kek)], inputs, slot, {
        offset: 8,
        given: ({ texts, statuses }) => [texts, BigInt(length), flags, statuses],
        each: ({ at }) => machine.copy(at, slot),
    });
}

function unwrapMany(machine, kek, wrapped, options = {}) {
    const { padded = false } = optionsOf(options, 'padded');
    const flags = flagOf('padded', padded) * OLD_PADDED;
    const inputs = takenMany(padded ? WRAPPED_PADDED : WRAPPED_PLAIN, wrapped);
    const slot = Math.max(inputs[0].bytes.length, 8);
    return machine.many('keywrap_unwrap_many', [taken(KEK, kek)], inputs, slot, {
        given: ({ texts, lengths, statuses }) => [texts, flags, lengths, statuses],
        each: ({ at, length }) => machine.copy(at + 8, length),
    });
}

function rewrapMany(machine, oldKek, newKek, wrapped, options = {}) {
    const { flags, kind } = rewrapFlags(options);
    const inputs = takenMany(kind, wrapped);
    const slot = Math.max(inputs[0].bytes.length, 8);
    const keks = [taken(KEK, oldKek), taken(KEK, newKek)];
    return machine.many('keywrap_rewrap_many', keks, inputs, slot, {
        given: ({ texts, statuses }) => [texts, flags, statuses],
        each: ({ at }) => machine.copy(at, slot),
    });
}

function checkMany(machine, kek, wrapped, options = {}) {
    optionsOf(options);
    const inputs = takenMany(WRAPPED_PADDED, wrapped);
    const slot = Math.max(inputs[0].bytes.length, 8);
    const results = machine.many('keywrap_kind_many', [taken(KEK, kek)], inputs, slot, {
        given: ({ texts, scratch, forms, lengths, statuses }) =>
            [texts, scratch, forms, lengths, statuses],
        each: ({ padded, length }) => ({ form: padded ? 'padded' : 'plain', length }),
    });
    return results.map((result) => (result instanceof IntegrityFailed ? null : result));
}

function selfTest(machine) {
    const status = machine.run('keywrap_self_test', []);
    machine.memory.fill(0, 0, STACK);
    if (status !== 0) {
        throw new Error('self test failed: this host computes wrong results');
    }
}

/* An instance of the module */

// The calls over a new instance of the module, whose bytes `find` returns if no source is given. It is
// the default export, since the package exports all others.
export default async function callsOver(source, find) {
    if (typeof WebAssembly !== 'object') {
        throw new Error('this host has no WebAssembly');
    }
    const module = source instanceof WebAssembly.Module
        ? source : await WebAssembly.compile(source === undefined ? await find() : source);
    const machine = new Machine((await WebAssembly.instantiate(module)).exports);
    const calls = {
        wrap, unwrap, wrapPadded, unwrapPadded, unwrapAny, rewrap, check, selfTest,
        wrapMany, unwrapMany, rewrapMany, checkMany,
    };
    const bound = Object.entries(calls).map(
        ([name, call]) => [name, (...given) => call(machine, ...given)]);
    return Object.freeze({ version: machine.version, ...Object.fromEntries(bound) });
}
