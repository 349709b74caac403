// The bundles that esbuild made of the entries in test_js.py load the module, in Node and in a page: one
// finds keywrap.wasm beside it, the others have its bytes in them. The bundle of keywrap/inline is the
// only file that its host has.

import assert from 'node:assert/strict';
import { test } from 'node:test';
import { onlyFile, readBundles } from './host.mjs';
import { KEY16, WRAPPED16 } from './vectors.mjs';

const DUE = `${WRAPPED16} ${KEY16}`;

for (const [name, both] of Object.entries(await readBundles())) {
    test(`a bundle: ${name}`, async () => {
        assert.equal(await both(), DUE);
    });
}

test('a bundle of keywrap/inline alone', async () => {
    assert.equal(await onlyFile(), DUE);
});
