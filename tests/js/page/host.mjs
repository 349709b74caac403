// The host of the tests, here a page.

export const webcrypto = crypto;

async function read(path, as) {
    const response = await fetch(path);
    if (!response.ok) {
        throw new Error(`${path}: ${response.status}`);
    }
    return response[as]();
}

export const readModule = async () =>
    new Uint8Array(await read('/keywrap/keywrap.wasm', 'arrayBuffer'));

// The same bytes, as a Uint8Array of another realm.
export function inOtherRealm(given) {
    const frame = document.body.appendChild(document.createElement('iframe'));
    return frame.contentWindow.Uint8Array.from(given);
}

// The bundles, each as a call that wraps and unwraps.
export async function readBundles() {
    await import('/bundles/beside.mjs');
    await import('/bundles/inside.js');
    return { beside: globalThis.beside, inside: globalThis.inside };
}

// The result of the bundle of keywrap/inline in a page of a server that has only this file. Its policy
// allows the page to run WebAssembly, and no connection.
export async function onlyFile() {
    const frame = document.createElement('iframe');
    const posted = new Promise((resolve) => {
        addEventListener('message', ({ data }) => resolve(data), { once: true });
    });
    frame.src = await read('/alone', 'text');
    document.body.append(frame);
    const result = await posted;
    const requests = await read('/requests', 'text');
    if (requests !== 'GET / GET /bundle.js') {
        throw new Error(`the page requested: ${requests}`);
    }
    return result;
}
