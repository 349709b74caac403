// Opens a page in an engine. The page runs the tests and posts what they came to, and the answers to lines.txt. A
// server on this machine, only for this run, has the package, the tests and the lines.
//
// usage: node engines.mjs ENGINE PROGRAM WORKDIR PACKAGE BUNDLES
//            ENGINE: chromium, firefox or webkit (whose program is MiniBrowser)
//            WORKDIR: an empty directory for the engine's own files
//            BUNDLES: the directory of the bundles ('' if there are none)

import { readFile } from 'node:fs/promises';
import { createServer } from 'node:http';
import { basename } from 'node:path';
import { ISOLATED, postedBy } from './engine.mjs';

const [, , engine, program, workdir, packed, bundles] = process.argv;
const TESTS = new URL('.', import.meta.url).pathname;
const DIRECTORIES = { keywrap: packed, tests: TESTS, page: `${TESTS}page`, bundles };
const NAMES = [
    'page_self', 'calls', 'objects', 'example', ...bundles ? ['bundles'] : [],
];
const PAGE = `<!DOCTYPE html><meta charset="utf-8"><title>tests</title><body>
<script type="importmap">${JSON.stringify({ imports: {
    'node:test': '/page/test.mjs',
    'node:assert/strict': '/page/test.mjs',
    '/tests/host.mjs': '/page/host.mjs',
    keywrap: '/keywrap/keywrap.js',
    'keywrap/inline': '/keywrap/inline.js',
} })}</script>
<script type="module">
    const found = { agent: navigator.userAgent };
    try {
        for (const name of ${JSON.stringify(NAMES)}) {
            await import('/tests/' + name + '.mjs');
        }
        const { runAll } = await import('node:test');
        Object.assign(found, await runAll());
        const { answers } = await import('/tests/rows.mjs');
        found.answers = answers(await (await fetch('/tests/lines.txt')).text());
    } catch (error) {
        found.failures = ['the page: ' + error + ' ' + error.stack];
    }
    await fetch('/posted', { method: 'POST', body: JSON.stringify(found) });
</script>`;

// A second server, whose page has only the bundle of keywrap/inline. The frame posts the result to the page.
const ALONE = `<!DOCTYPE html><meta charset="utf-8"><script src="bundle.js"></script><script nonce="alone">
    alone().catch(String).then((result) => parent.postMessage(result, '*'));
</script>`;
const requests = [];
const alone = createServer(async (request, response) => {
    requests.push(`${request.method} ${request.url}`);
    const headers = {
        ...ISOLATED, 'cross-origin-resource-policy': 'cross-origin',
        'content-security-policy': "default-src 'none'; script-src 'self' 'nonce-alone' 'wasm-unsafe-eval'",
    };
    const [body, type] = request.url === '/' ? [ALONE, 'text/html']
        : [await readFile(`${bundles}/alone/bundle.js`), 'text/javascript'];
    response.writeHead(200, { ...headers, 'content-type': type }).end(body);
});
await new Promise((listening) => { alone.listen(0, '127.0.0.1', listening); });

async function answer(url) {
    const found = {
        '/': PAGE, '/alone': `http://127.0.0.1:${alone.address().port}/`, '/requests': requests.join(' '),
    }[url];
    const [, directory, name] = url.split('/');
    return found ?? readFile(`${DIRECTORIES[directory]}/${basename(name)}`);
}

const { agent, answers, count, failures } = await postedBy(engine, program, workdir, answer);
const said = [agent, ...answers || [], ...failures, `${count} tests, ${failures.length} failed`, ''].join('\n');
// A pipe takes it in parts.
process.stdout.write(said, () => process.exit(failures.length === 0 && count >= 30 ? 0 : 1));
