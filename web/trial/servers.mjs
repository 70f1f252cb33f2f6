// The web servers by which a trial gives the page and a log: http.server of Python, lighttpd with the settings of
// navtex-page.service, and nginx with those of docs/PAGE.md. They are killed by whoever started them.
import assert from 'node:assert/strict';
import { spawn } from 'node:child_process';
import { copyFileSync, existsSync, mkdirSync, readFileSync, writeFileSync } from 'node:fs';
import { createServer } from 'node:http';
import { networkInterfaces } from 'node:os';
import { setTimeout as pause } from 'node:timers/promises';

const LIGHTTPD = '/usr/sbin/lighttpd';
const SETTINGS = new URL('../../package/navtex-page.conf', import.meta.url);
const NGINX = '/usr/sbin/nginx';
const RECIPE = new URL('../../docs/PAGE.md', import.meta.url);

/** Whether the server of navtex-page.service is here. */
export const hasService = existsSync(LIGHTTPD);

/** Whether nginx is here. */
export const hasNginx = existsSync(NGINX);

/** An address of this computer that a browser doesn't take for its own, so that it gives it less. */
export const host = Object.values(networkInterfaces()).flat()
    .find(({ internal, family }) => !internal && family === 'IPv4')?.address ?? '127.0.0.1';

/** A port that no program listens to. */
export async function freePort() {
    const server = createServer();
    await new Promise((resolve) => server.listen(0, '0.0.0.0', resolve));
    const { port } = server.address();
    await new Promise((resolve) => server.close(resolve));
    return port;
}

async function answers(address) {
    for (let tried = 0; tried < 200; tried++) {
        if (await fetch(address).then(() => true, () => false)) return;
        await pause(50);
    }
    throw new Error(`${address} doesn't answer`);
}

/** A server that was started, when it answers; `stop` ends it. */
async function started(program, options, address, env = process.env) {
    const server = spawn(program, options, { stdio: 'ignore', env });
    const ended = new Promise((resolve) => server.once('exit', resolve));
    const stop = () => { server.kill(); return ended; };
    try {
        await answers(address);
    } catch (fault) {
        server.kill();
        throw fault;
    }
    return { address, stop };
}

/** http.server, which gives a file whole each time. */
export function plainServer(folder, port) {
    return started('python3', ['-m', 'http.server', String(port), '--bind', '0.0.0.0', '--directory', folder],
        `http://${host}:${port}`);
}

/** The server of navtex-page.service, with its settings, for the page in SHARE/navtex and a log. */
export function serviceServer(share, log, port) {
    const file = `${share}/navtex/page.conf`;
    writeFileSync(file, readFileSync(SETTINGS, 'utf8').replaceAll('@share@', share));
    return started(LIGHTTPD, ['-D', '-f', file], `http://127.0.0.1:${port}`,
        { ...process.env, LOG: log, PORT: String(port) });
}

/** nginx with the settings of docs/PAGE.md, for the page in a folder and a log, to this computer alone. */
export function nginxServer(folder, log, port) {
    const [, recipe] = /```nginx\n([^]*?)```/.exec(readFileSync(RECIPE, 'utf8'));
    const own = [['8417', port], ['192.168.0.0/16', '127.0.0.1'], ['/usr/local/share/navtex', folder],
        ['/var/lib/navtex/navtex.log', log]];
    for (const [word] of own) assert.ok(recipe.includes(word), word);
    const server = own.reduce((text, [word, other]) => text.replace(word, other), recipe);
    const temporary = ['client_body', 'proxy', 'fastcgi', 'uwsgi', 'scgi']
        .map((name) => `${name}_temp_path ${folder}/nginx-${name};`).join(' ');
    const file = `${folder}/nginx.conf`;
    writeFileSync(file, `daemon off; master_process off; pid ${folder}/nginx.pid; error_log ${folder}/nginx.errors;
        events {} http { access_log off; ${temporary} ${server} }`);
    return started(NGINX, ['-c', file, '-e', `${folder}/nginx.errors`], `http://127.0.0.1:${port}`);
}

/** A folder with the page in it, for a log. */
export function folderOf(room, name) {
    const folder = `${room}/${name}`;
    mkdirSync(folder, { recursive: true });
    copyFileSync(`${room}/navtex.html`, `${folder}/navtex.html`);
    return folder;
}
