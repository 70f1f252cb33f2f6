// A page by plain http, from an address that a browser doesn't take for its own, so that it gives it less.
import { readFileSync } from 'node:fs';
import { createServer } from 'node:http';
import { host } from './servers.mjs';

const SCRIPT = /^\/\w+\/\w+\.js$/;

/** What an address stands for: the page, a script of it by itself, or a page that takes a file for one. */
function answerOf(url, page) {
    if (SCRIPT.test(url)) return ['text/javascript', readFileSync(new URL(`..${url}`, import.meta.url))];
    return ['text/html', url === '/navtex.html' ? readFileSync(page) : '<input type="file" id="file">'];
}

/** Serves the page: its `address`, that of a page for scripts by themselves, and what stops it. */
export async function served(page) {
    const server = createServer(({ url }, answer) => {
        const [type, bytes] = answerOf(url, page);
        answer.writeHead(200, { 'Content-Type': type }).end(bytes);
    });
    await new Promise((resolve) => server.listen(0, '0.0.0.0', resolve));
    const address = `http://${host}:${server.address().port}`;
    return {
        address: `${address}/navtex.html`,
        scripts: `${address}/scripts.html`,
        stop: () => {
            server.close();
            server.closeAllConnections();
        },
    };
}
