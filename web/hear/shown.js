// What is shown of the sound that is heard: what it is, how far it is, its text and its tones; and a
// line of each sound that is over.
import { button, FREQUENCIES, made } from '../show/messages.js';

const IDLE = 'Nothing is being heard.';
const LOOKED_AT = 2000; // characters of the text as it arrives
const ENDED = 50;       // sounds that are over and still named
const APART = 50;       // milliseconds between two rows, and between two looks at how far a sound is

const find = (id) => document.getElementById(id);

export class Shown {
    #faults;
    #tones;
    #on;
    #sound = null;      // the one that is shown
    #last = new Map();  // when something was shown, by what it is

    /** `on` is told `changed`, where a file may refuse others; `live`, where live sound is heard; `log`,
     *  of a log among the files. */
    constructor(faults, tones, on) {
        this.#faults = faults;
        this.#tones = tones;
        this.#on = on;
    }

    /** Another sound is heard, or none: then the tones of a channel are shown. */
    show(sound, channel) {
        if (sound === this.#sound) return;
        this.#sound = sound;
        find('progress-row').hidden = true;
        this.#tones.end();
        this.source(sound === null ? IDLE : `${sound.name} begins.`);
        if (sound !== null) find('look').textContent = '';
        this.#showChoice(sound?.channels ?? []);
        this.showTones(sound?.channels[0] ?? channel);
    }

    showTones(channel) {
        this.#tones.show(channel);
        find('tones-of').textContent = FREQUENCIES[channel];
    }

    // What a sound tells of itself.

    source(words) {
        if (find('source').textContent !== words) find('source').textContent = words;
    }

    text(channel, text) {
        if (text === '' || channel !== this.#tones.shown) return;
        const look = find('look');
        look.textContent = (look.textContent + text).replace(/^\n+/, '').slice(-LOOKED_AT);
        look.scrollTop = look.scrollHeight;
    }

    row(channel, row) {
        if (this.#isDue(`row ${channel}`)) this.#tones.add(channel, row);
    }

    status(channel, status) {
        if (this.#isDue(`status ${channel}`)) this.#tones.showStatus(channel, status);
    }

    /** How far it is, and the seconds that are left, or null. */
    progress(part, left) {
        if (!this.#isDue('progress')) return;
        const some = left < 90 ? `${Math.ceil(left)} s` : `${Math.ceil(left / 60)} min`;
        find('progress-row').hidden = false;
        find('progress').value = part;
        find('left').textContent = `${Math.floor(100 * part)} %${left === null ? '' : `, some ${some} left`}`;
        this.#on.changed();
    }

    live() {
        this.#on.live();
    }

    log(text, name) {
        return this.#on.log(text, name);
    }

    /** A sound is over: its line, and what had no effect. */
    ended(sound, words, { withoutEffect, first }) {
        this.line(words);
        if (withoutEffect === 0) return;
        this.#faults.show(sound.isAir
            ? `Lines without effect: ${withoutEffect}. The first is line ${first.line}: ${first.why}.`
            : `The time of this sound had no effect: ${first.why}. Its messages have the time in force.`);
    }

    /** What may be amiss, while it is heard all the same. */
    warn(words) {
        this.#faults.show(words);
    }

    /** A sound was stopped before anything of it was heard. */
    stopped({ name }) {
        this.line(`${name}, stopped: not heard.`);
    }

    /** What went wrong with a sound. One that wasn't heard by that is named. */
    fault(fault, sound) {
        if (!sound.wasHeard) this.line(`${sound.name}: not heard.`);
        this.#faults.tell(fault);
    }

    line(words) {
        find('ended').prepend(made('li', '', words));
        find('ended').hidden = false;
        while (find('ended').childElementCount > ENDED) find('ended').lastElementChild.remove();
    }

    /** Whether something is shown again: a recording is heard faster than anybody looks. */
    #isDue(what) {
        const now = performance.now();
        if (now - (this.#last.get(what) ?? -APART) < APART) return false;
        this.#last.set(what, now);
        return true;
    }

    /** Of two frequencies that are heard one is shown. */
    #showChoice(channels) {
        find('shown').hidden = channels.length < 2;
        find('shown').replaceChildren(...channels.map((channel) =>
            button(`Show ${FREQUENCIES[channel]}`, () => this.showTones(channel))));
    }
}
