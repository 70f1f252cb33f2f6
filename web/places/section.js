// The part of the page with the chart: the places of the messages that stand in the list, the ship's place,
// and how far it is to each.
import { identityOf } from '../receiver/entries.js';
import { PageFault } from '../show/faults.js';
import { canDraw, drawChart } from './chart.js';
import { wayTo, waySaid } from './earth.js';
import { placesOf } from './places.js';
import { positionOf, positionSaid } from './positions.js';

const MOVED = 0.1;   // miles that the ship moves until all is told anew
const OFTEN = 10000; // milliseconds between two places that are taken of the device

const REFUSED = [
    'The browser gives no place of this device.', // by its number in the browser
    'The browser got no leave to tell the place of this device. Allow it in the settings of this page.',
    'This device has no place yet.',
    'This device gave no place in time.',
];

const find = (id) => document.getElementById(id);

export class PlaceSection {
    #faults;
    #ship;
    #on;
    #draw = () => {};
    #watched = null; // by which the device's place is asked for
    #taken = 0;      // when it was taken last

    /** `ship` is its place, or null. `on` has `rings(entry)`, and is told `chosen`, where the place is
     *  another one, and `shown` with a message whose point was pressed. */
    constructor(faults, ship, on) {
        this.#faults = faults;
        this.#ship = ship;
        this.#on = on;
        find('ship').addEventListener('change', () => this.#faults.try(() => this.#write()));
        find('ask-place').addEventListener('click', () => this.#faults.try(() => this.#ask()));
        window.addEventListener('resize', () => this.#draw());
        this.#showShip();
    }

    get ship() {
        return this.#ship;
    }

    /** The way to a place in words, or '' where the ship's place isn't known. */
    waySaid(place) {
        return this.#ship === null ? '' : waySaid(wayTo(this.#ship, place));
    }

    /** Whether a message has a place within so many miles of the ship. */
    isWithin(message, miles) {
        return this.#ship !== null && placesOf(message).some((place) => wayTo(this.#ship, place).miles <= miles);
    }

    /** Draws the places of messages, the newest first. */
    show(messages) {
        const points = messages.flatMap((message) => placesOf(message).map((place) => this.#pointOf(message, place)));
        const here = this.#ship !== null && canDraw(this.#ship) ? this.#ship : null;
        const shown = points.filter(canDraw);
        this.#draw = () => drawChart(find('chart'), shown, here);
        this.#draw();
        const count = messages.filter((message) => placesOf(message).length > 0).length;
        const left = points.length - shown.length;
        find('places-said').textContent = (points.length === 0 ? 'No message in the list has a place that is read.'
            : `${points.length} ${points.length === 1 ? 'place' : 'places'} of ${count} of the ${messages.length} `
                + `${messages.length === 1 ? 'message' : 'messages'} in the list.`)
            + (left > 0 ? ` ${left} within 5 degrees of a pole are not drawn.` : '');
    }

    #pointOf(message, place) {
        const name = identityOf(message.best);
        const way = this.waySaid(place);
        const kind = `${message.isRead ? '' : 'unread'} ${this.#on.rings(message.best) ? 'vital' : ''}`;
        const words = `${name}: ${place.said.replace(/\n/g, ' ')}${way === '' ? '' : `, ${way}`}`;
        return { ...place, name, kind, words, onPress: () => this.#on.shown(message) };
    }

    #write() {
        const text = find('ship').value.trim();
        if (text === '') {
            this.#set(null);
            return;
        }
        const position = positionOf(text);
        if (position === null) {
            throw new PageFault("The ship's place has to be written as 54-10.5N 007-53.2E.");
        }
        this.#stopAsking();
        this.#set(position);
    }

    /** Asks the browser for the place of this device, until it is pressed again. */
    #ask() {
        if (this.#watched !== null) {
            this.#stopAsking();
            return;
        }
        if (navigator.geolocation === undefined) throw new PageFault(REFUSED[0]);
        this.#taken = 0;
        this.#watched = navigator.geolocation.watchPosition(({ coords }) => this.#take(coords), ({ code }) => {
            if (code === 1) this.#stopAsking();
            this.#faults.tell(new PageFault(REFUSED[code] ?? REFUSED[0]));
        }, { enableHighAccuracy: true, maximumAge: OFTEN });
        find('ask-place').setAttribute('aria-pressed', 'true');
    }

    #stopAsking() {
        if (this.#watched !== null) navigator.geolocation.clearWatch(this.#watched);
        this.#watched = null;
        find('ask-place').setAttribute('aria-pressed', 'false');
    }

    #take({ latitude, longitude }) {
        const isSoon = performance.now() - this.#taken < OFTEN && this.#taken !== 0;
        const isNear = this.#ship !== null && wayTo(this.#ship, { latitude, longitude }).miles < MOVED;
        if (isSoon) return;
        this.#taken = performance.now();
        if (isNear) {
            this.#ship = { ...this.#ship, moment: Date.now() / 1000 };
            this.#showShip();
        } else {
            this.#set({ latitude, longitude });
        }
    }

    #set(position) {
        this.#ship = position === null ? null
            : { latitude: position.latitude, longitude: position.longitude, moment: Date.now() / 1000 };
        this.#showShip();
        this.#on.chosen();
    }

    #showShip() {
        find('ship').value = this.#ship === null ? '' : positionSaid(this.#ship);
        find('ship-said').textContent = this.#ship === null ? ''
            : `Given ${new Date(this.#ship.moment * 1000).toISOString().slice(0, 16).replace('T', ' ')} UTC.`;
        find('within').disabled = this.#ship === null;
        find('within').title = this.#ship === null ? "Give the ship's place first." : '';
    }
}
