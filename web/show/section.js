// The part of the page with the messages: the list, the chart of their places, what is refused, the alarm,
// logs that are saved and loaded.
import { PlaceSection } from '../places/section.js';
import { jsonOf } from '../receiver/entries.js';
import { offer } from '../hear/files.js';
import { Alarm } from './alarm.js';
import { PageFault } from './faults.js';
import { MessageList } from './list.js';
import { countsOf, FREQUENCIES, newsOf } from './messages.js';
import { Names } from './names.js';
import { checkBoxes, makeBoxes, showRefusals } from './refusals.js';

const TITLE = document.title;

const find = (id) => document.getElementById(id);

export class MessageSection {
    #faults;
    #on;
    #kept = null;
    #receives = false;
    #names;
    #alarm;
    #list;
    #places;
    #shownRefusals = '';

    /** `on` has `channel()`, the one whose refusals are chosen; and is told `chosen`, where the user
     *  chose what rings or a name; `load` with a log; `anew`. */
    constructor(faults, choices, on) {
        this.#faults = faults;
        this.#on = on;
        this.#names = new Names(find('names'), choices.names, () => this.#choose());
        this.#alarm = new Alarm(choices, () => this.#names.all, () => this.#choose());
        this.#list = new MessageList({
            names: () => this.#names.all,
            rings: (entry) => this.#alarm.rings(entry),
            places: () => this.#places,
            onRead: ({ copies }) => this.#faults.try(() => this.#markRead(copies)),
            onChosen: () => this.#showCounts(),
        });
        this.#places = new PlaceSection(faults, choices.ship, {
            chosen: () => {
                this.#on.chosen();
                this.#list.tellPlaces();
                if (this.#kept !== null) this.#showCounts();
            },
            shown: (message) => this.#list.goTo(message),
            rings: (entry) => this.#alarm.rings(entry),
        });
        this.#join();
    }

    get choices() {
        return { ...this.#alarm.choices, names: this.#names.all, ship: this.#places.ship };
    }

    /** Shows the messages of a receiver; only a window that receives rings. */
    open(kept, receives) {
        this.#kept = kept;
        this.#receives = receives;
        this.#shownRefusals = '';
        this.showAll();
    }

    /** Shows new messages, and rings for those that ring. */
    add(added) {
        const changed = this.#list.add(added);
        find('news').textContent = changed.map((message) => newsOf(message, added, this.#names.all)).join(' ');
        this.#showCounts();
        this.#alarm.notify(added);
    }

    /** Shows all anew. */
    showAll() {
        this.#list.show(this.#kept.messages);
        this.#showCounts();
        this.showRefused();
    }

    /** Shows what is refused, where it is another than before. */
    showRefused() {
        if (this.#kept === null) return;
        const { refused, refusedHere } = this.#kept;
        const shown = JSON.stringify([refused, refusedHere, this.#on.channel()]);
        if (shown === this.#shownRefusals) return;
        this.#shownRefusals = shown;
        const here = refused[this.#on.channel()];
        find('refused-channel').textContent = FREQUENCIES[this.#on.channel()];
        checkBoxes(find('stations'), here.stations);
        checkBoxes(find('subjects'), here.subjects);
        showRefusals(find('refused'), refused, refusedHere, (those) => this.#faults.try(() => this.#lift(those)));
    }

    #join() {
        this.#joinButton('read-all', () => this.#markRead(this.#kept.messages));
        this.#joinButton('alarm-read', () =>
            this.#markRead(this.#kept.messages.filter((one) => this.#alarm.rings(one))));
        this.#joinButton('save-log', () => offer(this.#joined(({ log }) => log), 'navtex.log'));
        this.#joinButton('save-json', () => offer(this.#joined((one) => `${jsonOf(one)}\n`), 'navtex.json'));
        this.#joinButton('print', () => window.print());
        this.#joinButton('anew', () => this.#beginAnew());
        find('load-log').addEventListener('change', () => {
            const [file] = find('load-log').files;
            if (file === undefined) return;
            this.#faults.try(() => this.#on.load(file)).finally(() => { find('load-log').value = ''; });
        });
        for (const [id, kind] of [['stations', 'Station'], ['subjects', 'Subject']]) {
            makeBoxes(find(id), kind, (letter, isRefused) => this.#faults.try(() => {
                this.#kept.choose(kind, this.#on.channel(), letter, isRefused);
                this.showRefused();
            }));
        }
    }

    #joinButton(id, action) {
        find(id).addEventListener('click', () => this.#faults.try(action));
    }

    #joined(textOf) {
        return this.#kept.messages.map(textOf).join('');
    }

    #markRead(messages) {
        const read = this.#kept.markRead(messages);
        this.#list.markRead(read);
        this.#showCounts();
    }

    #lift(those) {
        for (const { kind, channel, letter } of those) this.#kept.choose(kind, channel, letter, false);
        this.showRefused();
    }

    async #beginAnew() {
        if (!window.confirm('Forget all messages, and which ones were received? Save the log first to keep them. '
            + 'What is refused stays refused.')) return;
        await this.#on.anew();
    }

    /** What rings or a name is another one. */
    #choose() {
        this.#on.chosen();
        if (this.#kept !== null) this.showAll();
    }

    #showCounts() {
        const { messages, alarming = messages } = this.#kept;
        const { counts } = this.#list;
        const { unread } = counts;
        find('counts').textContent = countsOf(counts);
        this.#places.show(this.#list.shown);
        find('jump').textContent = unread > 0 ? `Messages: ${unread} new` : 'Messages';
        document.title = unread > 0 ? `(${unread}) ${TITLE}` : TITLE;
        find('read-all').disabled = unread === 0;
        for (const id of ['save-log', 'save-json']) find(id).disabled = messages.length === 0;
        this.#alarm.watch(this.#receives ? alarming : []);
    }
}

/** What is said of a log that was loaded. */
export function loadedSaid(name, { found, added }) {
    if (found === 0) throw new PageFault(`${name} is no log of navtex: it has no message.`);
    return `${name}: a log of ${found} ${found === 1 ? 'message' : 'messages'}, ${added} new here.`;
}
