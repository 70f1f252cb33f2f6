// Where the tones of a frequency are and how loud: the waterfall, the fields beside it, and the lock.
// Each frequency has tones of its own; those of one are shown.
import { Waterfall } from './waterfall.js';

const find = (id) => document.getElementById(id);

export class Tones {
    #waterfall;
    #tunings; // of each channel what its demodulator is to do: centre, search, exchanged
    #shown = 0;
    #onChange;

    /** `onChange` gets a channel and its tuning, where somebody chose another one. */
    constructor(tunings, onChange) {
        this.#onChange = onChange;
        this.#tunings = tunings;
        this.#waterfall = new Waterfall(find('waterfall'), (middle) => this.#choose({ centre: middle, search: false }));
        const middle = find('middle');
        middle.addEventListener('change', () =>
            this.#choose({ centre: this.#waterfall.within(Number(middle.value)), search: false }));
        find('search').addEventListener('change', () => this.#choose({ search: find('search').checked }));
        find('exchanged').addEventListener('change', () => this.#choose({ exchanged: find('exchanged').checked }));
        this.#showTuning();
    }

    get tunings() {
        return this.#tunings;
    }

    /** The channel whose tones are shown. */
    get shown() {
        return this.#shown;
    }

    set isNight(isNight) {
        this.#waterfall.isNight = isNight;
    }

    /** Shows the tones of a channel from here on. */
    show(channel) {
        if (channel === this.#shown) return;
        this.#shown = channel;
        this.#waterfall.clear();
        this.#showLock(false);
        this.#showTuning();
    }

    /** Draws a row of the waterfall. */
    add(channel, row) {
        if (channel === this.#shown) this.#waterfall.add(row);
    }

    showStatus(channel, { middle, level, isLocked }) {
        if (channel !== this.#shown) return;
        find('meter').value = level;
        find('level').textContent = `${level.toFixed(0)} dB`;
        this.#showLock(isLocked);
        if (!this.#waterfall.isDragged && Math.round(middle) !== this.#waterfall.middle) this.#showMiddle(middle);
    }

    /** No sound is heard any more. */
    end() {
        this.#showLock(false);
    }

    #choose(changed) {
        this.#tunings[this.#shown] = { ...this.#tunings[this.#shown], ...changed };
        this.#showTuning();
        this.#onChange(this.#shown, this.#tunings[this.#shown]);
    }

    #showTuning() {
        const { centre, search, exchanged } = this.#tunings[this.#shown];
        find('search').checked = search;
        find('exchanged').checked = exchanged;
        this.#showMiddle(centre);
    }

    #showMiddle(middle) {
        this.#waterfall.show(middle);
        if (document.activeElement !== find('middle')) find('middle').value = Math.round(middle);
    }

    #showLock(isLocked) {
        const lock = find('lock');
        const text = isLocked ? 'locked' : 'no lock';
        if (lock.textContent !== text) lock.textContent = text; // a screen reader says each change
        lock.classList.toggle('on', isLocked);
    }
}
