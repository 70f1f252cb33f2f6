// The alarm: a message of a subject that was chosen, or numbered 00, rings until it is marked as read.
// A browser lets a page ring only from the first touch of it on; until then the page says so.
import { identityOf } from '../receiver/entries.js';
import { RINGING } from '../keep/choices.js';
import { made, titleOf } from './messages.js';

const RATE = 8000;
const TONES = [880, 1320]; // Hz, by turns, for a quarter of a second each
const SOUNDING = 1;        // seconds of a period that sound
const PERIOD = 3;          // seconds
const TRIED = 3000;        // milliseconds for which the alarm is tried
const LOUDNESS = 0.5;
const NAMED = 5;           // messages that the alarm names

const WORDS = { A: 'A navigational warnings', B: 'B meteorological warnings', D: 'D search and rescue',
    L: 'L additional navigational warnings', '00': 'number 00' };

const find = (id) => document.getElementById(id);

export class Alarm {
    #rings;   // what rings, of RINGING
    #notifies;
    #names;
    #onChange;
    #context = null;
    #sound = null;  // what rings now
    #trying = 0;
    #ringing = [];  // the messages that ring

    /** `names()` are those of stations; `onChange` is told where somebody chose what rings. */
    constructor({ rings, notifies }, names, onChange) {
        this.#rings = new Set(rings);
        this.#notifies = notifies;
        this.#names = names;
        this.#onChange = onChange;
        find('rings').append(...RINGING.map((one) => this.#box(one)));
        find('try-alarm').addEventListener('click', () => this.#try());
        find('notifies').checked = notifies && this.#mayNotify;
        find('notifies').disabled = typeof Notification === 'undefined';
        find('notifies').addEventListener('change', () => this.#askToNotify());
        for (const touch of ['pointerdown', 'keydown']) {
            document.addEventListener(touch, () => this.#touch(), { capture: true });
        }
        this.#show();
    }

    get choices() {
        return { rings: [...this.#rings], notifies: this.#notifies };
    }

    /** Whether a message is one of those that ring. */
    rings(message) {
        return this.#rings.has(message.subject) || (message.number === '00' && this.#rings.has('00'));
    }

    /** Rings for those of the messages that ring and weren't read, and for no other. */
    watch(messages) {
        this.#ringing = messages.filter((message) => !message.isRead && this.rings(message));
        this.#show();
    }

    /** Notifies of new messages, where the browser was given leave. */
    notify(added) {
        if (!this.#notifies || !this.#mayNotify) return;
        for (const message of added.filter((one) => this.rings(one))) {
            try {
                const body = `${titleOf(message, this.#names())}\n${message.text}`;
                new Notification(`NAVTEX ${identityOf(message)}`, { body });
            } catch {
                // some phones let a page notify in another way alone
            }
        }
    }

    get #mayNotify() {
        return typeof Notification !== 'undefined' && Notification.permission === 'granted';
    }

    #box(one) {
        const box = made('input', '');
        box.type = 'checkbox';
        box.value = one;
        box.checked = this.#rings.has(one);
        box.addEventListener('change', () => {
            if (box.checked) this.#rings.add(one);
            else this.#rings.delete(one);
            this.#onChange();
        });
        return made('label', '', box, ` ${WORDS[one]}`);
    }

    async #askToNotify() {
        const asked = find('notifies').checked;
        if (asked && !this.#mayNotify) await Notification.requestPermission().catch(() => {});
        this.#notifies = asked && this.#mayNotify;
        find('notifies').checked = this.#notifies;
        find('notify-hint').hidden = !asked || this.#notifies;
        this.#onChange();
    }

    /** The page was touched: from here on it may ring. */
    #touch() {
        if (this.#context?.state === 'running' || typeof AudioContext === 'undefined') return;
        this.#context ??= new AudioContext();
        this.#context.onstatechange = () => this.#show();
        this.#context.resume().catch(() => {});
    }

    #try() {
        this.#touch();
        clearTimeout(this.#trying);
        this.#trying = setTimeout(() => {
            this.#trying = 0;
            this.#show();
        }, TRIED);
        this.#show();
    }

    #show() {
        const count = this.#ringing.length;
        const canRing = this.#context?.state === 'running';
        this.#ring(canRing && (count > 0 || this.#trying !== 0));
        find('alarm').hidden = count === 0;
        find('alarm-words').textContent = this.#words();
        find('can-ring').hidden = canRing;
    }

    #words() {
        const all = [...new Set(this.#ringing.map(identityOf).reverse())];
        if (all.length === 0) return '';
        const more = all.length > NAMED ? ' and older ones' : '';
        return `Alarm: ${all.slice(0, NAMED).join(', ')}${more}. It rings until marked as read.`;
    }

    #ring(isOn) {
        if (isOn === (this.#sound !== null)) return;
        if (!isOn) {
            this.#sound.stop();
            this.#sound = null;
            return;
        }
        this.#sound = this.#context.createBufferSource();
        this.#sound.buffer = this.#period();
        this.#sound.loop = true;
        this.#sound.connect(this.#context.destination);
        this.#sound.start();
    }

    /** One period of the alarm: two tones by turns, and a pause. */
    #period() {
        const buffer = this.#context.createBuffer(1, PERIOD * RATE, RATE);
        const samples = buffer.getChannelData(0);
        for (let at = 0; at < SOUNDING * RATE; at++) {
            const tone = TONES[Math.floor((4 * at) / RATE) % TONES.length];
            samples[at] = LOUDNESS * Math.sin((2 * Math.PI * tone * at) / RATE);
        }
        return buffer;
    }
}
