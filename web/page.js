// The page: joins what is heard, what is kept and what is shown.
import { clock, breathe } from './hear/sound.js';
import { logOf } from './hear/files.js';
import { ListenSection } from './hear/section.js';
import { keepChoices, keptBefore, readChoices } from './keep/choices.js';
import { followedIn, FollowSection } from './follow/section.js';
import { KeptReceiver } from './keep/kept.js';
import { NoStore, Store } from './keep/store.js';
import { newWindow, Windows } from './keep/windows.js';
import { Receiver } from './receiver/receiver.js';
import { Faults, PageFault } from './show/faults.js';
import { loadedSaid, MessageSection } from './show/section.js';
import { Tones } from './show/tones.js';
import { View } from './show/view.js';

const TICK = 1000; // milliseconds
const FAMILIES = 60; // messages of a channel whose sendings are taken together

const HEARING = ['listen', 'tones', 'arriving', 'refuse', 'receives']; // what isn't there where a watch is followed

const find = (id) => document.getElementById(id);
const now = () => Math.floor(clock());

function bytesOfModule() {
    return Uint8Array.from(atob(find('module').textContent.trim()), (letter) => letter.charCodeAt(0));
}

/** What a browser gives only to a page of its own disk or of https isn't offered elsewhere; it says why. */
function showWhatIsGiven() {
    for (const one of document.querySelectorAll('.by-https')) one.hidden = !window.isSecureContext;
    for (const one of document.querySelectorAll('.by-http')) one.hidden = window.isSecureContext;
}

class Page {
    #faults = new Faults(find('faults'));
    #choices = readChoices();
    #window = newWindow();
    #store;
    #windows = null;    // none where there is no store
    #kept;              // the receiver with its messages
    #tones;
    #view;
    #listen;
    #messages;
    #follows = null;    // the part that follows a watch, where the address names its log

    start() {
        return this.#faults.try(async () => {
            showWhatIsGiven();
            this.#showClock();
            const log = followedIn(location.href);
            if (log === null) await this.#receive();
            else await this.#follow(log);
            document.body.dataset.ready = 'yes';
        });
    }

    async #receive() {
        this.#joinParts();
        await this.#openStore();
        await this.#open(this.#windows === null || await this.#windows.claim());
    }

    /** Shows the log of a watch, and hears nothing. */
    async #follow(log) {
        for (const id of HEARING) find(id).hidden = true;
        for (const id of ['watch', 'follows']) find(id).hidden = false;
        document.body.classList.add('follows');
        this.#view = new View(this.#choices.view, () => this.#keepChoices());
        this.#messages = new MessageSection(this.#faults, this.#choices, {
            channel: () => 0,
            chosen: () => this.#keepChoices(),
        });
        this.#follows = new FollowSection(this.#faults, log, this.#choices.silence, {
            added: (added) => this.#messages.add(added),
            anew: () => this.#messages.showAll(),
            chosen: () => this.#keepChoices(),
        });
        this.#messages.open(this.#follows.open(location.href), true);
        await this.#follows.follow();
    }

    #joinParts() {
        const choices = this.#choices;
        this.#tones = new Tones(choices.tunings, (channel, tuning) => {
            this.#listen.tune(channel, tuning);
            this.#keepChoices();
        });
        this.#view = new View(choices.view, (ways) => {
            this.#tones.isNight = ways.includes('night');
            this.#keepChoices();
        });
        this.#messages = new MessageSection(this.#faults, choices, {
            channel: () => this.#listen.channel,
            chosen: () => this.#keepChoices(),
            load: async (file) => this.#load(await logOf(file), file.name),
            anew: () => this.#beginAnew(),
        });
        this.#listen = new ListenSection(this.#faults, this.#tones, find('worker').textContent, {
            changed: () => this.#messages.showRefused(),
            log: (text, name) => this.#loadHere(text, name),
        });
        this.#listen.ends = choices.ends;
        find('ends').addEventListener('change', () => this.#keepChoices());
        find('take-over').addEventListener('click', () => this.#faults.try(() => this.#takeOver()));
    }

    /** Keeps what was chosen here, and what isn't chosen here as it was. */
    #keepChoices() {
        const heard = this.#listen === undefined ? null : { tunings: this.#tones.tunings, ends: this.#listen.ends };
        const followed = this.#follows === null ? null : { silence: this.#follows.silence };
        if (this.#messages === undefined || (heard ?? followed) === null) return;
        keepChoices({ ...readChoices(), view: this.#view.ways, ...heard, ...followed, ...this.#messages.choices });
    }

    #showClock() {
        const show = () => {
            const time = new Date().toISOString();
            find('clock').dateTime = time;
            find('clock').textContent = `${time.slice(0, 10)} ${time.slice(11, 19)} UTC`;
        };
        show();
        setInterval(show, TICK);
    }

    // What is kept, and by which window.

    async #openStore() {
        if (typeof WebAssembly === 'undefined' || typeof BigInt === 'undefined') {
            throw new PageFault('This browser lacks WebAssembly, without which there is no receiver. '
                + 'A current Firefox, Chrome, Edge or Safari has it.');
        }
        try {
            this.#store = await Store.open(this.#window);
        } catch (fault) {
            this.#store = new NoStore();
            this.#faults.tell(fault);
            return;
        }
        this.#windows = new Windows(this.#store, this.#window, {
            lost: () => this.#faults.try(() => this.#lookOn()),
            free: () => this.#faults.try(() => this.#receiveWhereFree()),
            changed: (change) => this.#faults.try(() => this.#kept.follow(change)),
        });
        window.addEventListener('pagehide', () => this.#windows.leave());
        window.addEventListener('pageshow', ({ persisted }) => { if (persisted) location.reload(); });
    }

    /** Opens the receiver from the store; `receives` says whether this window hears, or looks on. */
    async #open(receives) {
        const bytes = bytesOfModule();
        const receivers = await Promise.all([Receiver.load(bytes, FAMILIES), Receiver.load(bytes)]);
        if (receivers[0].families === 0) {
            this.#faults.show('This browser has too little memory left to take sendings of a message together: '
                + 'here each copy is judged alone.');
        }
        const kept = new KeptReceiver(receivers, this.#store, {
            fault: (fault) => this.#faults.tell(fault),
            added: (added) => this.#messages.add(added),
            changed: () => this.#messages.showAll(),
            kept: (change) => this.#windows?.tellKept(change),
            lost: () => this.#faults.try(() => this.#lookOn()),
        });
        await kept.open(now(), () => this.#before());
        this.#kept = kept;
        this.#showReceives(receives);
    }

    /** What an older page kept. */
    #before() {
        try {
            return keptBefore();
        } catch (fault) {
            this.#faults.tell(fault);
            return null;
        }
    }

    #showReceives(receives) {
        this.#listen.kept = receives ? this.#kept : null;
        this.#messages.open(this.#kept, receives);
        document.body.classList.toggle('looks-on', !receives);
        find('looking').hidden = receives;
        for (const id of ['listen', 'tones', 'refuse']) find(id).inert = !receives;
    }

    async #takeOver() {
        await this.#windows.take();
        await this.#open(true);
    }

    /** The window that received was closed. */
    async #receiveWhereFree() {
        if (await this.#windows.claim()) await this.#open(true);
    }

    /** Another window took over: what is heard here ends. */
    async #lookOn() {
        if (this.#windows !== null) this.#windows.owns = false;
        this.#showReceives(false);
        await this.#listen.stopAll();
        await this.#kept.follow({ isAnew: true });
    }

    // Logs, and a new beginning.

    async #load(text, name) {
        if (!this.#listen.isIdle) throw new PageFault('A log is loaded when nothing is being heard: press Stop first.');
        await this.#loadHere(text, name);
    }

    async #loadHere(text, name) {
        const loaded = await this.#kept.load(text, now(), breathe);
        this.#listen.showLoaded(loadedSaid(name, loaded));
        this.#messages.showAll();
        if (loaded.stray !== null) {
            this.#faults.show(`Line ${loaded.stray} of ${name} is of no message, and was passed over.`);
        }
    }

    async #beginAnew() {
        await this.#listen.stopAll();
        await this.#kept.beginAnew(now());
        this.#messages.showAll();
    }
}

new Page().start();
