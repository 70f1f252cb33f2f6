// The waterfall: the loudness of each pitch, newest at the top, and two lines where the tones are
// expected. The lines are moved by dragging, by the arrow keys, or by the number beside them.
import { HIGHEST, LOWEST } from '../worker/spectrum.js';

const SHIFT = 170;
const RANGE = 35;     // dB from dark to bright
const BELOW = 8;      // dB by which dark is quieter than what is usual in a row
const SLOW = 10;      // rows over which the usual loudness is averaged
const STEP = 5;       // Hz of an arrow key
const STRIDE = 50;    // Hz of Page Up and Page Down

const DAY = [[8, 24, 48], [20, 90, 140], [90, 190, 170], [255, 240, 150]];
const NIGHT = [[0, 0, 0], [50, 0, 0], [130, 0, 0], [255, 40, 20]];

/** The colour of a brightness from 0 to 1. */
function colour(colours, brightness) {
    const place = Math.min(Math.max(brightness, 0), 1) * (colours.length - 1);
    const below = Math.min(Math.floor(place), colours.length - 2);
    return colours[below].map((part, at) => part + (colours[below + 1][at] - part) * (place - below));
}

export class Waterfall {
    #canvas;
    #drawing;
    #slider;
    #lines;
    #onMiddle;
    #rows = [];        // the brightness of each row that is shown, the newest first
    #dark = null;      // dB, of late
    #isNight = false;
    #before;           // the middle before the lines were taken
    isDragged = false;

    /** `slider` has the canvas and both lines in it; `onMiddle` gets the middle that was chosen. */
    constructor(slider, onMiddle) {
        this.#slider = slider;
        this.#canvas = slider.querySelector('canvas');
        this.#drawing = this.#canvas.getContext('2d');
        this.#lines = [...slider.querySelectorAll('.tone')];
        this.#onMiddle = onMiddle;
        slider.setAttribute('aria-valuemin', LOWEST + SHIFT / 2);
        slider.setAttribute('aria-valuemax', HIGHEST - SHIFT / 2);
        slider.addEventListener('pointerdown', (event) => this.#take(event));
        slider.addEventListener('pointermove', (event) => { if (this.isDragged) this.show(this.#at(event)); });
        slider.addEventListener('pointerup', (event) => this.#leave(this.#at(event)));
        slider.addEventListener('pointercancel', () => this.#giveUp());
        slider.addEventListener('keydown', (event) => this.#press(event));
    }

    get middle() {
        return Number(this.#slider.getAttribute('aria-valuenow'));
    }

    /** Shows the lines on both sides of a middle. */
    show(middle) {
        this.#slider.setAttribute('aria-valuenow', Math.round(middle));
        this.#slider.setAttribute('aria-valuetext', `${Math.round(middle)} hertz`);
        this.#lines.forEach((line, at) => {
            const pitch = middle + (at === 0 ? -SHIFT / 2 : SHIFT / 2);
            line.style.left = `${(100 * (pitch - LOWEST)) / (HIGHEST - LOWEST)}%`;
        });
    }

    /** Draws one row at the top: the loudness of its pitches, in dB. */
    add(row) {
        const { width, height } = this.#canvas;
        const sorted = Float32Array.from(row).sort();
        const dark = Math.max(sorted[width >> 1] - BELOW, sorted[width - 1] - RANGE);
        this.#dark = this.#dark === null ? dark : this.#dark + (dark - this.#dark) / SLOW;
        const bright = row.map((loud) => (loud - this.#dark) / RANGE);
        this.#rows = [bright, ...this.#rows].slice(0, height);
        this.#drawing.drawImage(this.#canvas, 0, 0, width, height - 1, 0, 1, width, height - 1);
        this.#draw(bright, 0);
    }

    /** Takes all rows away. */
    clear() {
        this.#rows = [];
        this.#dark = null;
        this.#drawing.clearRect(0, 0, this.#canvas.width, this.#canvas.height);
    }

    /** Draws all rows anew, in red or in the colours of the day. */
    set isNight(isNight) {
        this.#isNight = isNight;
        this.#rows.forEach((row, y) => this.#draw(row, y));
    }

    #draw(row, y) {
        const image = this.#drawing.createImageData(row.length, 1);
        const colours = this.#isNight ? NIGHT : DAY;
        row.forEach((bright, x) => image.data.set([...colour(colours, bright), 255], 4 * x));
        this.#drawing.putImageData(image, 0, y);
    }

    #take(event) {
        this.#slider.setPointerCapture(event.pointerId);
        this.isDragged = true;
        this.#before = this.middle;
        this.show(this.#at(event));
    }

    #leave(middle) {
        if (!this.isDragged) return;
        this.isDragged = false;
        this.#onMiddle(middle);
    }

    #giveUp() {
        if (!this.isDragged) return;
        this.isDragged = false;
        this.show(this.#before);
    }

    /** The middle to which a pointer points. */
    #at(event) {
        const { left, width } = this.#canvas.getBoundingClientRect();
        return this.within(LOWEST + ((HIGHEST - LOWEST) * (event.clientX - left)) / width);
    }

    #press(event) {
        const step = { ArrowLeft: -STEP, ArrowDown: -STEP, ArrowRight: STEP, ArrowUp: STEP,
            PageDown: -STRIDE, PageUp: STRIDE }[event.key];
        if (step === undefined) return;
        event.preventDefault();
        this.#onMiddle(this.within(this.middle + step));
    }

    /** The nearest middle with both tones in the waterfall. */
    within(pitch) {
        return Math.round(Math.min(Math.max(pitch, LOWEST + SHIFT / 2), HIGHEST - SHIFT / 2));
    }
}
