// The host of the tests, here Node. page/host.mjs is the same for a page.

import assert from 'node:assert/strict';
import { execFileSync } from 'node:child_process';
import { readFile, readdir } from 'node:fs/promises';
import { createRequire } from 'node:module';
import { resolve } from 'node:path';
import { pathToFileURL } from 'node:url';
import { runInNewContext } from 'node:vm';

export { webcrypto } from 'node:crypto';

const { resolve: resolved } = createRequire(import.meta.url);

// No Buffer, whose slice would be the same bytes.
export const readModule = async () =>
    new Uint8Array(await readFile(resolved('keywrap/keywrap.wasm')));

// The same bytes, as a Uint8Array of another realm.
export const inOtherRealm = (given) => runInNewContext('Uint8Array.from(given)', { given });

// The bundles in the directory that the command line names, each as a call that wraps and unwraps.
export async function readBundles() {
    await import(pathToFileURL(resolve(process.argv[2], 'beside.mjs')));
    await import(pathToFileURL(resolve(process.argv[2], 'inside.js')));
    return { beside: globalThis.beside, inside: globalThis.inside };
}

// The result of the bundle of keywrap/inline in a process that has only this file, and no network.
export async function onlyFile() {
    const program = 'globalThis.fetch = undefined; require("./bundle.js"); alone().then(console.log)';
    const cwd = resolve(process.argv[2], 'alone');
    assert.deepEqual(await readdir(cwd), ['bundle.js']);
    return execFileSync(process.execPath, ['-e', program], { cwd, encoding: 'utf8' }).trim();
}
