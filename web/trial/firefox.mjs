// A Firefox without a window, led by its own protocol (Marionette) over a socket.
import { spawn } from 'node:child_process';
import { mkdirSync, readFileSync, writeFileSync } from 'node:fs';
import { connect } from 'node:net';
import { setTimeout as pause } from 'node:timers/promises';
import { Script } from 'node:vm';
import { PATIENCE, Tab } from './tab.mjs';

const ELEMENT = 'element-6066-11e4-a52e-4f735466cecf'; // how WebDriver names an element
const [ASK, ANSWER] = [0, 1];

/** What a Firefox of a trial does otherwise: a microphone that gives a tone, no questions, and no window that is held
 *  back since another one is before it. */
const SETTINGS = {
    'marionette.port': 0,
    'media.navigator.streams.fake': true,
    'media.navigator.permission.disabled': true,
    'browser.shell.checkDefaultBrowser': false,
    'datareporting.policy.dataSubmissionEnabled': false,
    'dom.disable_beforeunload': true,
    'network.captive-portal-service.enabled': false,
    'network.connectivity-service.enabled': false,
    'toolkit.telemetry.reportingpolicy.firstRun': false,
    'dom.min_background_timeout_value': 4,
    'dom.min_background_timeout_value_without_budget_throttling': 4,
    'dom.timeout.enable_budget_timer_throttling': false,
};

export class Firefox {
    #process;
    #socket;
    #waiting = new Map();
    #count = 0;
    #rest = Buffer.alloc(0);

    /** Starts it with a folder for what it keeps. */
    static async start(program, folder) {
        const browser = new Firefox();
        mkdirSync(folder, { recursive: true });
        writeFileSync(`${folder}/user.js`, Object.entries(SETTINGS)
            .map(([name, value]) => `user_pref(${JSON.stringify(name)}, ${JSON.stringify(value)});\n`).join(''));
        browser.#process = spawn(program, ['--headless', '--marionette', '--remote-allow-system-access', '--no-remote',
            '--profile', folder],
            { stdio: 'ignore', env: { ...process.env, HOME: folder } });
        process.once('exit', () => browser.#process.kill('SIGKILL')); // it would go on alone
        await browser.#connect(`${folder}/MarionetteActivePort`);
        const alwaysMatch = { unhandledPromptBehavior: 'ignore' };
        await browser.send('WebDriver:NewSession', { capabilities: { alwaysMatch } });
        await browser.send('WebDriver:SetTimeouts', { script: PATIENCE, pageLoad: PATIENCE });
        return browser;
    }

    /** The tab that it begins with, and later a new one, in a window of its own where that is asked. */
    async tab({ isWindow = false } = {}) {
        const handle = this.#count === 1 ? await this.send('WebDriver:GetWindowHandle')
            : (await this.send('WebDriver:NewWindow', { type: isWindow ? 'window' : 'tab' })).handle;
        return new FirefoxTab(this, handle.value ?? handle);
    }

    send(name, given = {}) {
        const id = ++this.#count;
        const text = JSON.stringify([ASK, id, name, given]);
        this.#socket.write(`${Buffer.byteLength(text)}:${text}`);
        return new Promise((resolve, reject) => {
            const late = setTimeout(() => reject(new Error(`${name} isn't answered`)), PATIENCE);
            this.#waiting.set(id, { resolve, reject, late });
        });
    }

    async allow() {
        // its settings give leave
    }

    async stop() {
        const ended = new Promise((resolve) => this.#process.once('exit', resolve));
        this.send('Marionette:Quit', { flags: ['eForceQuit'] }).catch(() => {});
        const late = setTimeout(() => this.#process.kill('SIGKILL'), 5000);
        await ended;
        clearTimeout(late);
        this.#socket.destroy();
        for (const { late: timer } of this.#waiting.values()) clearTimeout(timer);
    }

    async #connect(file) {
        const end = Date.now() + PATIENCE;
        let port = NaN;
        while (!(port > 0)) {
            if (Date.now() > end) throw new Error('Firefox names no port');
            await pause(100);
            try {
                port = Number(readFileSync(file, 'utf8'));
            } catch {
                // it isn't there yet
            }
        }
        this.#socket = connect(port, '127.0.0.1');
        this.#socket.on('data', (bytes) => this.#take(bytes));
        this.#socket.on('error', () => {});
        await new Promise((resolve) => this.#socket.once('connect', resolve));
    }

    #take(bytes) {
        this.#rest = Buffer.concat([this.#rest, bytes]);
        for (;;) {
            const colon = this.#rest.indexOf(':');
            const length = Number(this.#rest.subarray(0, Math.max(colon, 0)).toString());
            if (colon < 1 || this.#rest.length < colon + 1 + length) return;
            const one = JSON.parse(this.#rest.subarray(colon + 1, colon + 1 + length).toString());
            this.#rest = this.#rest.subarray(colon + 1 + length);
            if (one[0] === ANSWER) this.#answer(one);
        }
    }

    #answer([, id, error, result]) {
        const asked = this.#waiting.get(id);
        if (asked === undefined) return;
        this.#waiting.delete(id);
        clearTimeout(asked.late);
        if (error) asked.reject(new Error(`${error.error}: ${error.message}`));
        else asked.resolve(result);
    }
}

/** Whether a text is one expression, and no row of statements. */
function isExpression(text) {
    try {
        return Boolean(new Script(`async () => (${text}\n)`));
    } catch {
        return false;
    }
}

class FirefoxTab extends Tab {
    #browser;
    #handle;

    constructor(browser, handle) {
        super();
        this.#browser = browser;
        this.#handle = handle;
    }

    async call(name, given) {
        await this.#browser.send('WebDriver:SwitchToWindow', { handle: this.#handle, focus: false });
        return this.#browser.send(name, given);
    }

    open(address) {
        return this.call('WebDriver:Navigate', { url: address });
    }

    reload() {
        return this.call('WebDriver:Refresh');
    }

    /** Another one is led from then on, since a new one is asked for there. */
    async close() {
        const left = await this.call('WebDriver:CloseWindow');
        await this.#browser.send('WebDriver:SwitchToWindow', { handle: (left.value ?? left)[0], focus: false });
    }

    /** The value of an expression in the page; several statements are run, and have none. */
    async value(expression) {
        const script = `const [done] = [...arguments].slice(-1);
            (async () => ${isExpression(expression) ? `(${expression})` : `{ ${expression} }`})()
                .then((value) => done({ value }), (fault) => done({ fault: String(fault) }));`;
        const { value: told } = await this.call('WebDriver:ExecuteAsyncScript', { script, args: [] });
        if (told === null) return this.#answer(); // the page asked something by it
        const { value, fault } = told;
        if (fault !== undefined) throw new Error(`${expression}: ${fault}`);
        return value;
    }

    async #answer() {
        this.asked.push((await this.call('WebDriver:GetAlertText')).value);
        await this.call(this.agrees ? 'WebDriver:AcceptAlert' : 'WebDriver:DismissAlert');
    }

    async giveFiles(selector, ...files) {
        const { value } = await this.call('WebDriver:FindElement', { using: 'css selector', value: selector });
        await this.call('WebDriver:ElementSendKeys', { id: value[ELEMENT], text: files.join('\n') });
    }

    /** The process of the page, which the browser itself tells. */
    async pid() {
        const script = 'return gBrowser.selectedBrowser.browsingContext.currentWindowGlobal.osPid;';
        await this.call('Marionette:SetContext', { value: 'chrome' });
        try {
            const { value } = await this.#browser.send('WebDriver:ExecuteScript', { script, args: [] });
            return value;
        } finally {
            await this.#browser.send('Marionette:SetContext', { value: 'content' });
        }
    }

    /** It has no drop of its own: files come by the dialog. */
    dropFiles(_, ...files) {
        return this.giveFiles('#file', ...files);
    }

    async touch() {
        const { value } = await this.call('WebDriver:FindElement', { using: 'css selector', value: 'h1' });
        await this.call('WebDriver:ElementClick', { id: value[ELEMENT] });
    }
}
