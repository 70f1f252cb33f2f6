// A tab of a browser with the page in it, as somebody uses it. What a browser does its own way is in
// chromium.mjs and firefox.mjs.
import { setTimeout as pause } from 'node:timers/promises';

/** Milliseconds, since the machine may do other things too. */
export const PATIENCE = Number(process.env.PATIENCE ?? 180000);

export class Tab {
    errors = [];   // what the page told of errors
    requests = []; // what the page asked the network for
    asked = [];    // what the page asked by a dialog
    agrees = true; // what is answered

    /** Waits until an expression is true, and fails with what the page shows where it never is. */
    async until(expression, patience = PATIENCE) {
        const end = Date.now() + patience;
        while (Date.now() < end) {
            if (await this.value(`Boolean(${expression})`, false).catch(() => false)) return;
            await pause(50);
        }
        const shown = await this.value('document.body.innerText', false);
        throw new Error(`never true: ${expression}\n${this.errors.join('\n')}\n${shown}`);
    }

    /** Opens the page, and waits until it receives or looks on. */
    async openPage(address) {
        await this.open(address);
        await this.ready();
    }

    async loadAgain() {
        await this.reload();
        await this.ready();
    }

    ready() {
        return this.until("document.body.dataset.ready === 'yes'");
    }

    textOf(id) {
        return this.value(`document.getElementById('${id}').textContent`, false);
    }

    textsOf(selector) {
        return this.value(`[...document.querySelectorAll(${JSON.stringify(selector)})].map((one) => one.textContent)`,
            false);
    }

    /** The titles of the messages, the newest first. */
    titles() {
        return this.textsOf('#list h3');
    }

    faults() {
        return this.textsOf('#faults .fault span');
    }

    /** The lines of the sounds that are over, the newest first. */
    ended() {
        return this.textsOf('#ended li');
    }

    press(selector) {
        return this.value(`document.querySelector(${JSON.stringify(selector)}).click()`);
    }

    /** Writes or chooses in a field. */
    set(id, value) {
        return this.value(`(() => {
            const field = document.getElementById('${id}');
            if (field.type === 'checkbox') field.checked = ${JSON.stringify(value)};
            else field.value = ${JSON.stringify(value)};
            for (const kind of ['input', 'change']) field.dispatchEvent(new Event(kind, { bubbles: true }));
        })()`);
    }

    forgetFaults() {
        return this.value("document.querySelectorAll('#faults button').forEach((one) => one.click())");
    }

    /** Opens files, and waits until so many more sounds are over: their lines, the newest first. */
    async hear(...files) {
        const before = (await this.ended()).length;
        await this.giveFiles('#file', ...files);
        await this.untilEnded(before + files.length);
        return (await this.ended()).slice(0, files.length);
    }

    untilEnded(count) {
        return this.until(`document.querySelectorAll('#ended li').length >= ${count}`);
    }

    untilIdle() {
        return this.until("document.getElementById('source').textContent === 'Nothing is being heard.'");
    }

    /** The middle of an element, which is brought into sight. */
    middleOf(selector) {
        return this.value(`(() => {
            const element = document.querySelector(${JSON.stringify(selector)});
            element.scrollIntoView({ block: 'center' });
            const place = element.getBoundingClientRect();
            return [place.left + place.width / 2, place.top + place.height / 2];
        })()`);
    }
}
