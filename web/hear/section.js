// The part of the page in which sounds are chosen: files, live sound, and the queue of them.
import { USUAL_TUNING } from '../keep/choices.js';
import { PageFault } from '../show/faults.js';
import { button, FREQUENCIES, made } from '../show/messages.js';
import { askForTab, inputs, TAB } from './capture.js';
import { momentSaid } from './files.js';
import { Listening } from './listening.js';
import { Queue } from './queue.js';
import { Recording } from './recording.js';
import { Shown } from './shown.js';
import { clock } from './sound.js';

const find = (id) => document.getElementById(id);

export class ListenSection {
    #faults;
    #tones;
    #script; // of the worker
    #on;
    #shown;
    #kept = null;
    #wake = null; // what keeps the screen on
    #queue = new Queue({
        changed: () => this.#showQueue(),
        stopped: (sound) => this.#shown.stopped(sound),
        fault: (fault) => this.#shown.fault(fault, this.#queue.current),
    });

    /** `on` is told `changed`, where a sound begins or is over, or may refuse others; and `log`, of a log
     *  among the files. */
    constructor(faults, tones, script, on) {
        this.#faults = faults;
        this.#tones = tones;
        this.#script = script;
        this.#on = on;
        this.#shown = new Shown(faults, tones, {
            changed: on.changed,
            log: on.log,
            live: () => {
                this.#showInputs(); // they have names, now that leave was given
                this.#keepAwake();
            },
        });
        this.#join();
        this.#joinDrops();
        this.#showInputs();
        this.#showQueue();
    }

    /** The receiver that hears; null where this window only looks on. */
    set kept(kept) {
        this.#kept = kept;
        this.#showQueue();
    }

    get isIdle() {
        return this.#queue.isIdle;
    }

    get channel() {
        return Number(find('channel').value);
    }

    /** Which end a recording has where nobody says when it began: 'changed' or 'now'. */
    get ends() {
        return find('ends').value;
    }

    set ends(ends) {
        find('ends').value = ends;
    }

    /** Other tones were chosen for a channel. */
    tune(channel, tuning) {
        this.#queue.current?.tune(channel, tuning);
    }

    /** Says of a log what was loaded of it. */
    showLoaded(words) {
        this.#shown.line(words);
    }

    /** Stops what is heard and what waits. */
    stopAll() {
        return this.#queue.stopAll();
    }

    #join() {
        this.#joinButton('microphone', () => this.#addLive());
        this.#joinButton('stop', () => this.#queue.stop());
        find('file').addEventListener('change', () => {
            const files = [...find('file').files];
            find('file').value = ''; // they may be chosen again
            this.#faults.try(() => this.#addFiles(files));
        });
        find('channel').addEventListener('change', () => {
            if (this.#queue.current === null) this.#shown.showTones(this.channel);
            this.#on.changed();
        });
        find('side').addEventListener('change', () => this.#setSide(this.#liveChannels()[0], find('side').value));
        find('second-side').addEventListener('change', () =>
            this.#setSide(this.#liveChannels()[1], find('second-side').value));
        navigator.mediaDevices?.addEventListener?.('devicechange', () => this.#showInputs());
    }

    #joinButton(id, action) {
        find(id).addEventListener('click', () => this.#faults.try(action));
    }

    #joinDrops() {
        document.addEventListener('dragover', (event) => {
            event.preventDefault();
            find('drop').classList.add('over');
        });
        document.addEventListener('dragleave', () => find('drop').classList.remove('over'));
        document.addEventListener('drop', (event) => {
            event.preventDefault();
            find('drop').classList.remove('over');
            const files = [...event.dataTransfer.files];
            this.#faults.try(() => this.#addFiles(files));
        });
        document.addEventListener('visibilitychange', () => this.#keepAwake());
        window.addEventListener('beforeunload', (event) => {
            if (!this.isIdle) event.preventDefault(); // what is being heard would be lost
        });
    }

    // What comes into the queue.

    #addFiles(files) {
        if (files.length === 0) return;
        this.#checkReceives();
        const began = momentSaid(find('began').value);
        find('began').value = ''; // it is said of one recording
        this.#queue.add(...files.map((file, at) => new Recording(file, {
            ...this.#given(),
            channel: this.channel,
            side: find('side').value,
            began: at === 0 ? began : null,
            ends: this.ends === 'now' ? clock() : Math.min(file.lastModified / 1000, clock()),
        }, this.#kept, this.#shown)));
    }

    async #addLive() {
        this.#checkReceives();
        const first = { channel: this.channel, side: find('side').value, input: find('input').value };
        const all = find('second-on').checked ? [first, this.#secondInput(first.channel)] : [first];
        let name = all.length > 1 ? 'The microphones' : 'The microphone';
        if (first.input === TAB) {
            first.stream = await askForTab();
            name = all.length > 1 ? 'The other tab and the microphone' : 'The other tab';
        }
        this.#queue.add(new Listening(name, all, this.#given(), this.#kept, this.#shown));
    }

    #secondInput(channel) {
        const second = { channel: Number(find('second-channel').value), side: find('second-side').value,
            input: find('second-input').value };
        if (second.channel !== channel) return second;
        throw new PageFault('Two inputs have to be on two frequencies: choose another one for the second.');
    }

    #checkReceives() {
        if (this.#kept === null) throw new PageFault('Another window of this page receives. This one looks on.');
    }

    #given() {
        return {
            script: this.#script,
            tuningOf: (channel) => this.#tones.tunings[channel] ?? USUAL_TUNING,
            saidOf: (channel) => FREQUENCIES[channel],
        };
    }

    #liveChannels() {
        const { current } = this.#queue;
        return current instanceof Listening ? current.channels : [];
    }

    #setSide(channel, side) {
        if (channel !== undefined) this.#queue.current.setSide(channel, side);
    }

    async #showInputs() {
        const found = await inputs().catch(() => []);
        for (const id of ['input', 'second-input']) {
            const field = find(id);
            const before = field.value;
            for (const old of field.querySelectorAll('[data-device]')) old.remove();
            for (const { id: device, name } of found) {
                const option = made('option', '', name);
                option.value = device;
                option.dataset.device = '';
                field.append(option);
            }
            field.value = [...field.options].some(({ value }) => value === before) ? before : '';
        }
    }

    #showQueue() {
        const { current, waiting } = this.#queue;
        find('stop').disabled = current === null || this.#queue.isStopping;
        find('microphone').disabled = this.#kept === null
            || [current, ...waiting].some((sound) => sound instanceof Listening);
        find('queue').replaceChildren(...waiting.map((sound) => this.#waitingItem(sound)));
        find('queue').hidden = waiting.length === 0;
        this.#shown.show(current, this.channel);
        if (current === null) this.#letSleep();
        this.#on.changed();
    }

    #waitingItem(sound) {
        const remove = button('Take out', () => this.#queue.remove(sound));
        remove.setAttribute('aria-label', `Take ${sound.name} out`);
        return made('li', 'row', made('span', '', `${sound.name} waits.`), remove);
    }

    /** Keeps the screen of a phone on; a browser ends that where another page is looked at. */
    async #keepAwake() {
        if (!(this.#queue.current instanceof Listening) || document.hidden) return;
        this.#wake = await navigator.wakeLock?.request('screen').catch(() => null);
    }

    #letSleep() {
        this.#wake?.release();
        this.#wake = null;
    }
}
