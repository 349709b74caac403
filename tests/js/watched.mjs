// Loads the package so that the exports of each instance of its module can be seen, and replaced.

export {
    BadInitialValue, BadKekLength, BadLength, IntegrityFailed, KeyNotPlain, KeywrapError,
} from 'keywrap';
import { load } from 'keywrap';

const { instantiate } = WebAssembly;

// The calls of an instance, and its exports. If `replaced` is given, the calls use what it returns
// for these exports.
export async function watched(source, replaced = (exports) => exports) {
    let exports;
    WebAssembly.instantiate = async (...given) => {
        ({ exports } = await instantiate(...given));
        return { exports: replaced(exports) };
    };
    try {
        const keywrap = await load(source);
        return { keywrap, exports };
    } finally {
        WebAssembly.instantiate = instantiate;
    }
}

const words = (buffer) => new Int32Array(buffer);
const made = words((await watched()).exports.memory.buffer.slice(0));

// Whether all of the memory is as in an instance that has done nothing yet.
export function isAsMade({ memory }) {
    const now = words(memory.buffer);
    let at = 0;
    while (at < now.length && now[at] === made[at]) {
        at++;
    }
    return at === made.length;
}

// Whether both have the same bytes.
export const isEqual = (one, other) =>
    one.length === other.length && one.every((byte, at) => byte === other[at]);
