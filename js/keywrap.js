// The package over the file keywrap.wasm beside this one. keywrap.d.ts documents it.

import callsOver from './calls.js';

export * from './calls.js';

// Returns the bytes of keywrap.wasm. A bundler that knows `new URL` copies the file. Node cannot fetch
// a file. The module that reads one there is not named by a literal, so that bundlers for browsers do
// not follow it.
async function beside() {
    const url = new URL('./keywrap.wasm', import.meta.url);
    if (url.protocol === 'file:') {
        const files = 'node:fs/promises';
        return (await import(/* webpackIgnore: true */ /* @vite-ignore */ files)).readFile(url);
    }
    const response = await fetch(url);
    if (!response.ok) {
        throw new Error(`${url}: ${response.status} ${response.statusText}`);
    }
    return response.arrayBuffer();
}

export const load = (source) => callsOver(source, beside);
