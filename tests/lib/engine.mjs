// Opens a page in a browser's engine, for tests and measurements.

import { spawn } from 'node:child_process';
import { mkdir } from 'node:fs/promises';
import { createServer } from 'node:http';
import { extname } from 'node:path';
import { setTimeout as sleep } from 'node:timers/promises';

// webkit's program is MiniBrowser.
const COMMANDS = {
    chromium: (program, workdir, url) => [program, '--headless=new', '--no-sandbox', '--disable-gpu',
        '--disable-dev-shm-usage', '--no-first-run', `--user-data-dir=${workdir}/profile`, url],
    firefox: (program, workdir, url) => [
        program, '--headless', '--no-remote', '--profile', `${workdir}/profile`, url],
    webkit: (program, workdir, url) => ['xvfb-run', '-a', 'dbus-run-session', '--', program, url],
};
const TYPES = {
    '.mjs': 'text/javascript', '.js': 'text/javascript', '.wasm': 'application/wasm',
    '.html': 'text/html',
};

// These headers let the page have shared memory.
export const ISOLATED = {
    'cross-origin-opener-policy': 'same-origin', 'cross-origin-embedder-policy': 'require-corp',
};

const text = async (request) => {
    let all = '';
    for await (const part of request.setEncoding('utf8')) {
        all += part;
    }
    return all;
};

// Returns the object that the page / posts to /posted, or one with `failures`. A server on this
// machine, only for this run, answers each request with answer(url, posted). `workdir` is an empty
// directory for the files of the engine.
export async function postedBy(engine, program, workdir, answer) {
    let tell;
    const told = new Promise((resolve) => { tell = resolve; });
    const server = createServer(async (request, response) => {
        const { method, url } = request;
        try {
            const posted = method === 'POST' ? await text(request) : undefined;
            if (url === '/posted') {
                tell(JSON.parse(posted));
            }
            const body = url === '/posted' ? '' : await answer(url, posted);
            const type = url === '/' ? 'text/html' : TYPES[extname(url)] ?? 'text/plain';
            response.writeHead(200, { ...ISOLATED, 'content-type': type }).end(body);
        } catch (error) {
            response.writeHead(404, ISOLATED).end(String(error));
        }
    });
    await new Promise((listening) => { server.listen(0, '127.0.0.1', listening); });
    await mkdir(`${workdir}/profile`, { recursive: true });
    const url = `http://127.0.0.1:${server.address().port}/`;
    const [command, ...words] = COMMANDS[engine](program, workdir, url);
    const browser = spawn(command, words, {
        detached: true,
        stdio: 'ignore',
        env: {
            ...process.env, HOME: workdir, XDG_RUNTIME_DIR: workdir, LIBGL_ALWAYS_SOFTWARE: '1',
            WEBKIT_DISABLE_SANDBOX_THIS_IS_DANGEROUS: '1', WEBKIT_FORCE_SANDBOX: '0',
        },
    });
    const wait = Number(process.env.ENGINE_SECONDS ?? 1200);
    const late = setTimeout(
        () => tell({ failures: [`nothing was posted in ${wait} seconds`] }), wait * 1000);
    browser.on('error', (error) => tell({ failures: [String(error)] }));
    const posted = await told;
    clearTimeout(late);
    server.close();
    // Its processes write into workdir until they end. A kill fails when none is left.
    for (const signal of [...Array(50).fill('SIGTERM'), 'SIGKILL']) {
        try {
            process.kill(-browser.pid, signal);
        } catch {
            break;
        }
        await sleep(100);
    }
    return posted;
}
