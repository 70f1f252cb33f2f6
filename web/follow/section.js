// The part of the page that follows a watch: it reads the log every few seconds, and says what it found.
import { civilOf, identityOf } from '../receiver/entries.js';
import { PageFault } from '../show/faults.js';
import { FollowedLog } from './followed.js';
import { Marks } from './marks.js';
import { LogReader } from './reader.js';

const EVERY = 5000; // milliseconds between two readings
const UNSURE = 1000; // and where the next one has to tell whether the log is damaged
const HOUR = 3600;
const BY_FILE = 'This page was opened from a disk, and there a browser lets no page read a file. Open it by a web '
    + 'server: run python3 -m http.server in the folder of the log and of the page.';

const find = (id) => document.getElementById(id);
const clock = () => Date.now() / 1000;

/** The log that the address of the page names, or null. */
export function followedIn(address) {
    const name = new URL(address).searchParams.get('log');
    return name === null || name === '' ? null : name;
}

/** The address of a log, from the page's own server alone. */
export function addressOf(name, page) {
    if (new URL(page).protocol === 'file:') throw new PageFault(BY_FILE);
    let address;
    try {
        address = new URL(name, page);
    } catch {
        throw new PageFault(`${name} is no name of a log.`);
    }
    if (address.origin !== new URL(page).origin) {
        throw new PageFault(`${name} is on another server. The page follows a log of its own server alone.`);
    }
    return address.href;
}

/** How long something took, in words. */
export function spanSaid(seconds) {
    const minutes = Math.floor(Math.max(0, seconds) / 60);
    if (minutes < 1) return 'less than a minute';
    if (minutes < 120) return `${minutes} minute${minutes === 1 ? '' : 's'}`;
    const hours = Math.floor(minutes / 60);
    return hours < 48 ? `${hours} hours` : `${Math.floor(hours / 24)} days`;
}

export class FollowSection {
    #faults;
    #name;
    #on;
    #reader;
    #log;
    #isRead = false;     // whether the log was read once
    #isReading = false;
    #isUnsure = false;   // whether the next reading has to tell if it is damaged
    #timer = 0;
    #failing = null;     // since when it can't be read
    #ahead = 0;          // seconds by which the server's clock is ahead of this one
    #grown = null;       // when the log grew last, by the server's clock

    /** `silence` is the number of hours after which a log that doesn't grow is told; `on` is told
     *  `added` of new messages, `anew` where all changed, and `chosen`. */
    constructor(faults, name, silence, on) {
        this.#faults = faults;
        this.#name = name;
        this.#on = on;
        find('log-name').textContent = name;
        find('silence').value = String(silence);
        document.addEventListener('visibilitychange', () => { if (!document.hidden) this.follow(); });
        find('silence').addEventListener('change', () => {
            this.#showSilence();
            on.chosen();
        });
    }

    /** Hours after which a log that doesn't grow is told. */
    get silence() {
        return Number(find('silence').value);
    }

    /** Begins; answers the log that is followed, as the list of messages takes it. */
    open(page) {
        let place = '';
        try {
            const address = addressOf(this.#name, page);
            place = new URL(address).pathname;
            this.#reader = new LogReader(address, (...given) => fetch(...given));
        } catch (fault) {
            if (!(fault instanceof PageFault)) throw fault;
            this.#tell('failing', fault.message);
            find('followed').hidden = true;
        }
        this.#log = new FollowedLog(new Marks(place, () => this.#readMarks()));
        return this.#log;
    }

    /** Reads the log now, and from here on every few seconds; at once where the page is looked at again. */
    async follow() {
        if (this.#reader === undefined || this.#isReading) return;
        clearTimeout(this.#timer);
        this.#isReading = true;
        await this.#faults.try(() => this.#read());
        this.#isReading = false;
        this.#timer = setTimeout(() => this.follow(), this.#isUnsure ? UNSURE : EVERY);
    }

    async #read() {
        let read;
        try {
            read = await this.#reader.read();
        } catch (fault) {
            if (!(fault instanceof PageFault)) throw fault;
            this.#failing ??= clock();
            this.#showFailing(fault.message);
            return;
        }
        this.#failing = null;
        this.#isUnsure = read.isUnsure;
        const added = this.#log.take(read);
        this.#note(read, added);
        if (!this.#isRead || read.isAnew) this.#on.anew();
        else if (added.length > 0) this.#on.added(added);
        this.#isRead = true;
        this.#show(read);
    }

    /** Notes when the log grew: by its file's time where the server tells it. */
    #note({ now, changed }, added) {
        if (now !== null) this.#ahead = now - clock();
        const seen = this.#isRead && added.length > 0 ? this.#now : null;
        const last = this.#log.messages.at(-1)?.moment ?? null;
        this.#grown = changed ?? seen ?? this.#grown ?? last;
    }

    /** The time by the clock of the server, on which the watch most likely runs. */
    get #now() {
        return clock() + this.#ahead;
    }

    #show({ damaged }) {
        this.#tell('failing', '');
        find('followed').textContent = `Read at ${civilOf(Math.floor(this.#now))} UTC.`;
        const last = this.#log.messages.at(-1);
        find('last-heard').textContent = last === undefined ? 'The log has no message yet.'
            : `Last heard: ${identityOf(last)} at ${last.time} UTC.`;
        this.#tell('damaged', damaged === null ? '' : `${this.#name} is damaged at line ${damaged}, or is no log of a `
            + 'watch. What stands before that line is shown, and nothing behind it.');
        this.#showSilence();
    }

    #showFailing(words) {
        this.#tell('failing', `${this.#name} can't be read since ${civilOf(Math.floor(this.#failing))} UTC. `
            + `${words}. ${this.#isRead ? 'What is shown is from before. ' : ''}It is tried again.`);
        this.#showSilence();
    }

    /** Shows words where they are others than before, so that a screen reader says them once. */
    #tell(id, words) {
        find(id).hidden = words === '';
        if (find(id).textContent !== words) find(id).textContent = words;
    }

    /** Says where the log has not grown for longer than it should. */
    #showSilence() {
        const seconds = this.#grown === null ? 0 : this.#now - this.#grown;
        const isSilent = this.silence > 0 && seconds > this.silence * HOUR;
        this.#tell('silent', isSilent ? `The log has not grown for ${spanSaid(seconds)}. Look whether the watch runs `
            + 'and hears.' : '');
    }

    #readMarks() {
        this.#log.readMarks();
        this.#on.anew();
    }
}
