// A Chromium without a window, led by its debugging protocol over a pipe.
import { spawn } from 'node:child_process';
import { PATIENCE, Tab } from './tab.mjs';

export class Chromium {
    #process;
    #waiting = new Map();
    #count = 0;
    #rest = '';
    #tabs = new Map(); // by session

    /** Starts it with a folder for what it keeps. */
    static async start(program, folder, options = []) {
        const browser = new Chromium();
        browser.#process = spawn(program, ['--headless=new', '--no-sandbox', '--disable-gpu', '--no-first-run',
            '--disable-dev-shm-usage', '--remote-debugging-pipe', `--user-data-dir=${folder}`, ...options,
            'about:blank'], { stdio: ['ignore', 'ignore', 'ignore', 'pipe', 'pipe'] });
        browser.#process.stdio[4].on('data', (bytes) => browser.#take(bytes.toString()));
        browser.#process.stdio[3].on('error', () => {});
        return browser;
    }

    /** A new empty tab, or one in a window of its own, so that it isn't behind the others. */
    async tab({ isWindow = false } = {}) {
        const { targetId } = await this.send('Target.createTarget', { url: 'about:blank', newWindow: isWindow });
        const { sessionId } = await this.send('Target.attachToTarget', { targetId, flatten: true });
        const tab = new ChromiumTab(this, sessionId, targetId);
        this.#tabs.set(sessionId, tab);
        for (const part of ['Page', 'Runtime', 'Network']) await tab.call(`${part}.enable`);
        return tab;
    }

    /** A command to the browser, or to one of its tabs. */
    send(method, params = {}, sessionId = undefined) {
        const id = ++this.#count;
        this.#process.stdio[3].write(JSON.stringify({ id, method, params, sessionId }) + '\0');
        return new Promise((resolve, reject) => {
            const late = setTimeout(() => reject(new Error(`${method} isn't answered`)), PATIENCE);
            this.#waiting.set(id, { resolve, reject, late });
        });
    }

    /** Gives leave for something, or takes it: 'granted', 'denied' or 'prompt'. */
    allow(name, setting = 'granted') {
        return this.send('Browser.setPermission', { permission: { name }, setting });
    }

    downloadsTo(folder) {
        return this.send('Browser.setDownloadBehavior', { behavior: 'allow', downloadPath: folder });
    }

    async stop() {
        const ended = new Promise((resolve) => this.#process.once('exit', resolve));
        this.send('Browser.close').catch(() => {});
        const late = setTimeout(() => this.#process.kill('SIGKILL'), 5000);
        await ended;
        clearTimeout(late);
        for (const { late: timer } of this.#waiting.values()) clearTimeout(timer);
    }

    #take(text) {
        const whole = (this.#rest + text).split('\0');
        this.#rest = whole.pop();
        for (const one of whole) this.#answer(JSON.parse(one));
    }

    #answer({ id, result, error, method, params, sessionId }) {
        if (method !== undefined) this.#tabs.get(sessionId)?.note(method, params);
        const asked = this.#waiting.get(id);
        if (asked === undefined) return;
        this.#waiting.delete(id);
        clearTimeout(asked.late);
        if (error) asked.reject(new Error(error.message));
        else asked.resolve(result);
    }
}

const MARK = 'navtex tasks'; // by which the thread of a page is known
const TASK = 'ThreadControllerImpl::RunTask';
const TRACED = { transferMode: 'ReportEvents', traceConfig: { includedCategories: ['toplevel', 'blink.user_timing'] } };

class ChromiumTab extends Tab {
    #browser;
    #session;
    #target;
    #onLoaded = () => {};
    #traced = [];
    #onTraced = () => {};
    #pid = null;

    constructor(browser, session, target) {
        super();
        this.#browser = browser;
        this.#session = session;
        this.#target = target;
    }

    call(method, params) {
        return this.#browser.send(method, params, this.#session);
    }

    async open(address) {
        const loaded = this.#loaded();
        await this.call('Page.navigate', { url: address });
        await loaded;
    }

    async reload() {
        const loaded = this.#loaded();
        await this.call('Page.reload');
        await loaded;
    }

    /** Does something while each new page runs a script first. */
    async loadWith(source, action) {
        const { identifier } = await this.call('Page.addScriptToEvaluateOnNewDocument', { source });
        await this.reload();
        await action();
        await this.call('Page.removeScriptToEvaluateOnNewDocument', { identifier });
    }

    close() {
        return this.#browser.send('Target.closeTarget', { targetId: this.#target });
    }

    /** The value of an expression in the page; `touches` says that somebody touched the page by it. */
    async value(expression, touches = true) {
        const { result, exceptionDetails } = await this.call('Runtime.evaluate',
            { expression, awaitPromise: true, returnByValue: true, userGesture: touches });
        if (exceptionDetails) throw new Error(`${expression}: ${exceptionDetails.exception?.description}`);
        return result.value;
    }

    async giveFiles(selector, ...files) {
        const { root } = await this.call('DOM.getDocument');
        const { nodeId } = await this.call('DOM.querySelector', { nodeId: root.nodeId, selector });
        await this.call('DOM.setFileInputFiles', { nodeId, files });
    }

    /** Drops files in the middle of an element. */
    async dropFiles(selector, ...files) {
        const [x, y] = await this.middleOf(selector);
        const data = { items: [], files, dragOperationsMask: 1 };
        for (const type of ['dragEnter', 'dragOver', 'drop']) {
            await this.call('Input.dispatchDragEvent', { type, x, y, data });
        }
    }

    /** Presses a key or the mouse as somebody does. */
    async touch() {
        for (const type of ['mousePressed', 'mouseReleased']) {
            await this.call('Input.dispatchMouseEvent', { type, x: 3, y: 3, button: 'left', clickCount: 1 });
        }
    }

    /** The process of the page. */
    async pid() {
        await this.watchTasks();
        await this.tasks();
        return this.#pid;
    }

    /** From here on the tasks of the page's thread are looked at. */
    async watchTasks() {
        this.#traced = [];
        await this.call('Tracing.start', TRACED);
        await this.#mark();
    }

    /** Marks the page's thread among all that is traced. */
    #mark() {
        return this.value(`performance.mark(${JSON.stringify(MARK)})`, false);
    }

    /** The milliseconds of a processor that each of them took. */
    async tasks() {
        await this.#mark(); // again, since on a busy machine the page is traced late
        const whole = new Promise((resolve) => { this.#onTraced = resolve; });
        await this.call('Tracing.end');
        await whole;
        const { pid, tid } = this.#traced.find(({ name }) => name === MARK);
        this.#pid = pid;
        const tasks = this.#traced.filter((one) => one.pid === pid && one.tid === tid && one.name === TASK
            && one.tdur !== undefined);
        this.#traced = [];
        return tasks.map(({ tdur }) => tdur / 1000);
    }

    async picture(width, height, isPhone) {
        await this.call('Emulation.setDeviceMetricsOverride', { width, height, deviceScaleFactor: 1, mobile: isPhone });
        await new Promise((resolve) => setTimeout(resolve, 300));
        const { data } = await this.call('Page.captureScreenshot', { format: 'png' });
        return Buffer.from(data, 'base64');
    }

    note(method, params) {
        if (method === 'Runtime.exceptionThrown') {
            const { text, exception } = params.exceptionDetails;
            this.errors.push(exception?.description ?? text);
        }
        if (method === 'Page.loadEventFired') this.#onLoaded();
        if (method === 'Tracing.dataCollected') this.#traced.push(...params.value);
        if (method === 'Tracing.tracingComplete') this.#onTraced();
        if (method === 'Page.javascriptDialogOpening') {
            this.asked.push(params.message);
            this.call('Page.handleJavaScriptDialog', { accept: this.agrees }).catch(() => {});
        }
        if (method === 'Network.requestWillBeSent' && !/^(data|blob|about):/.test(params.request.url)) {
            this.requests.push(params.request.url);
        }
        if (method === 'Runtime.consoleAPICalled' && params.type === 'error') {
            this.errors.push(params.args.map((one) => one.description ?? one.value).join(' '));
        }
    }

    #loaded() {
        return new Promise((resolve, reject) => {
            const late = setTimeout(() => reject(new Error('the page is not loaded')), PATIENCE);
            this.#onLoaded = () => {
                clearTimeout(late);
                resolve();
            };
        });
    }
}
