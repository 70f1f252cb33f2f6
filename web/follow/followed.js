// The entries of a log that is followed, as the list of messages takes them: in the order of the log.
import { Marks } from './marks.js';

const ALARMING = 200; // entries at the end of the log that may ring
const NOTHING_REFUSED = Object.freeze([0, 1, 2].map(() => ({ stations: [], subjects: [] })));

export class FollowedLog {
    #messages = [];
    #counts = new Map();
    #marks;
    #lastId = 0;

    constructor(marks) {
        this.#marks = marks;
    }

    get messages() {
        return this.#messages;
    }

    /** The messages that may ring: who opens an old log hears no alarm of last year. They are counted, and
     *  no clock decides it. */
    get alarming() {
        return this.#messages.slice(-ALARMING);
    }

    /** The watch alone refuses. */
    get refused() {
        return NOTHING_REFUSED;
    }

    get refusedHere() {
        return NOTHING_REFUSED;
    }

    /** Takes what was read of the log: the messages that are new here. */
    take({ added, isAnew }) {
        if (isAnew) {
            this.#messages = [];
            this.#counts = new Map();
        }
        const marks = Marks.of(added, this.#counts);
        const messages = added.map((entry, at) => ({ ...entry, id: ++this.#lastId, mark: marks[at],
            isRead: this.#marks.has(marks[at]) }));
        this.#messages = [...this.#messages, ...messages];
        return messages;
    }

    markRead(messages) {
        const unread = messages.filter(({ isRead }) => !isRead);
        for (const message of unread) message.isRead = true;
        if (unread.length > 0) this.#marks.add(unread.map(({ mark }) => mark));
        return unread;
    }

    /** Another window marked something. */
    readMarks() {
        for (const message of this.#messages) message.isRead ||= this.#marks.has(message.mark);
    }
}
