// The list of messages, newest first, and the choice of those that are shown: by words, station,
// subject, age and distance. Of many only the newest stand in the page, so that one more costs the same.
import { placesOf } from '../places/places.js';
import { Messages } from '../receiver/copies.js';
import { button, itemOf, made } from './messages.js';
import { LETTERS, subjectName } from './subjects.js';

const AT_ONCE = 200; // messages that stand in the page; more are shown where somebody asks for them
const HOUR = 3600;
const AGES = [[12, '12 hours'], [24, '24 hours'], [66, '66 hours'], [168, '7 days']];
const DISTANCES = [25, 50, 100, 200, 400]; // miles

const find = (id) => document.getElementById(id);

/** What finds words in a log, in their order, also where a line ends between them; null where there are none. */
function patternOf(words) {
    const parts = words.trim().toUpperCase().split(/\s+/).filter((part) => part !== '');
    const exact = parts.map((part) => part.replace(/[^\w ]/g, '\\$&'));
    return parts.length === 0 ? null : new RegExp(exact.join('\\s+'));
}

function option(value, words) {
    const element = made('option', '', words);
    element.value = value;
    return element;
}

export class MessageList {
    #list = find('list');
    #more = find('more');
    #messages = new Messages();
    #most = AT_ONCE;
    #given;
    #waits = 0;

    /** `given` has `names()`, `rings(entry)`, `places()`, `onRead(message)`, and `onChosen()`, where others
     *  are shown. */
    constructor(given) {
        this.#given = given;
        find('station').append(...LETTERS.map((letter) => option(letter, letter)));
        find('subject').append(...LETTERS.map((letter) => option(letter, `${letter} ${subjectName(letter)}`)));
        find('age').append(...AGES.map(([hours, words]) => option(hours, words)));
        find('within').append(...DISTANCES.map((miles) => option(miles, `${miles} miles`)));
        find('words').addEventListener('input', () => this.#chooseSoon());
        for (const id of ['station', 'subject', 'age', 'within']) {
            find(id).addEventListener('change', () => this.#choose());
        }
        this.#more.append(button('Show older messages', () => this.#showMore()));
        window.addEventListener('beforeprint', () => this.#fill(Infinity));
        window.addEventListener('afterprint', () => this.#fill(this.#most));
    }

    /** How many messages there are, how many of them are not read and are chosen, and how many are left out
     *  since no place of them is read. */
    get counts() {
        const { all } = this.#messages;
        const [isChosen, isNear] = [this.#isChosen(), this.#isNear()];
        const chosen = all.filter(isChosen);
        return { all: all.length, unread: all.filter(({ isRead }) => !isRead).length,
            chosen: chosen.filter(isNear).length,
            placeless: chosen.filter((message) => !isNear(message) && placesOf(message).length === 0).length };
    }

    /** Those that stand in the page, the newest first. */
    get shown() {
        return this.#chosen().slice(-this.#most).reverse();
    }

    /** Shows entries, of which the newest is the last. */
    show(entries) {
        this.#messages = new Messages(entries);
        this.#refill();
    }

    /** Shows entries that came, the newest of all: the messages that changed by them, in order. */
    add(added) {
        const changed = this.#messages.add(added);
        const [isChosen, isNear] = [this.#isChosen(), this.#isNear()];
        for (const message of changed) this.#itemOf(message)?.remove();
        const shown = changed.filter((message) => isChosen(message) && isNear(message));
        this.#list.prepend(...shown.map((message) => this.#item(message)).reverse());
        while (this.#list.childElementCount > this.#most) {
            this.#list.lastElementChild.remove();
            this.#more.hidden = false;
        }
        return changed;
    }

    /** Shows entries as read, whose messages stand in the list as they were. */
    markRead(entries) {
        const read = new Set(entries);
        for (const message of this.shown) {
            const item = message.copies.some((entry) => read.has(entry)) ? this.#itemOf(message) : null;
            if (item === null) continue;
            const hasFocus = item.contains(document.activeElement);
            const label = document.activeElement?.getAttribute('aria-label');
            item.replaceWith(this.#item(message, item.querySelector('.copies')?.open));
            if (hasFocus) this.#refocus(label);
        }
    }

    /** Shows a message that stands in the list. */
    goTo(message) {
        const item = this.#itemOf(message);
        if (item === null) return;
        item.scrollIntoView({ block: 'center' });
        item.tabIndex = -1;
        item.focus({ preventScroll: true });
    }

    /** The ship is elsewhere: what is said of distances is another, and so may be the choice. */
    tellPlaces() {
        this.#refill();
    }

    #itemOf(message) {
        return this.#list.querySelector(`:scope > [data-id="${message.id}"]`);
    }

    #item(message, isOpen = false) {
        const { names, rings, places, onRead } = this.#given;
        const item = itemOf(message, { names: names(), rings: rings(message.best), onRead,
            waySaid: (place) => places().waySaid(place) });
        item.dataset.id = message.id;
        if (isOpen) item.querySelector('.copies').open = true;
        return item;
    }

    #refill() {
        const focused = this.#list.contains(document.activeElement) ? document.activeElement : null;
        this.#fill(this.#most);
        if (focused !== null) this.#refocus(focused.getAttribute('aria-label'));
    }

    #fill(most) {
        const opened = new Set([...this.#list.querySelectorAll('.copies[open]')]
            .map((one) => one.closest('.message').dataset.id));
        const chosen = this.#chosen();
        const shown = chosen.slice(-most).reverse();
        this.#list.replaceChildren(...shown.map((message) =>
            this.#item(message, opened.has(String(message.id)) && message.others.length > 0)));
        this.#more.hidden = shown.length === chosen.length;
    }

    #showMore() {
        this.#most += AT_ONCE;
        this.#fill(this.#most);
        this.#given.onChosen();
    }

    /** Who types is shown the choice when a moment went by. */
    #chooseSoon() {
        clearTimeout(this.#waits);
        this.#waits = setTimeout(() => this.#choose(), 150);
    }

    #choose() {
        this.#most = AT_ONCE;
        this.#fill(this.#most);
        this.#given.onChosen();
    }

    #chosen() {
        const [isChosen, isNear] = [this.#isChosen(), this.#isNear()];
        return this.#messages.all.filter((message) => isChosen(message) && isNear(message));
    }

    #isChosen() {
        const words = patternOf(find('words').value);
        const [station, subject, age] = ['station', 'subject', 'age'].map((id) => find(id).value);
        const since = age === '' ? -Infinity : Date.now() / 1000 - Number(age) * HOUR;
        return ({ copies }) => (station === '' || copies[0].station === station)
            && (subject === '' || copies[0].subject === subject) && copies.some(({ moment }) => moment >= since)
            && (words === null || copies.some(({ log }) => words.test(log)));
    }

    #isNear() {
        const miles = find('within').value;
        if (miles === '' || find('within').disabled) return () => true;
        return (message) => this.#given.places().isWithin(message, Number(miles));
    }

    /** Who goes by the keys stays where they were, or comes to the next message that wasn't read. */
    #refocus(label) {
        const buttons = [...this.#list.querySelectorAll('button')];
        const same = buttons.find((one) => one.getAttribute('aria-label') === label);
        (same ?? buttons[0] ?? this.#list.closest('section')).focus();
    }
}
