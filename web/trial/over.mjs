// What several trials by node use: a receiver over a store in memory, as the page has one.
import { KeptReceiver } from '../keep/kept.js';
import { Receiver } from '../receiver/receiver.js';

export const NOW = 1735700000;
const LATER = 1767225600; // later than each moment of a trial
export const FAMILIES = 60; // as the page takes them

/** The log of what was printed. */
export const joined = (entries) => entries.map(({ log }) => log).join('');

/** A store in memory, in place of the browser's: what was kept last, and all messages. */
export function storeOf(state = undefined, messages = []) {
    const store = {
        state,
        messages: new Map(messages.map((message) => [message.id, message])),
        async read(last = 0) {
            return { state: store.state, messages: [...store.messages.values()].filter(({ id }) => !(id <= last)) };
        },
        async keep({ state: next, messages: changed = [], isAnew = false, aside }, onGone) {
            if (isAnew) store.messages.clear();
            store.aside ??= aside;
            store.state = next;
            for (const message of changed) store.messages.set(message.id, { ...message });
            if (store.gone) onGone(store.gone);
        },
    };
    return store;
}

/** A receiver of a module over a store, and what it told. */
export async function keptOver(module, store, families = FAMILIES) {
    const told = { faults: [], added: [] };
    const receivers = [await Receiver.load(module, families), await Receiver.load(module)];
    const kept = new KeptReceiver(receivers, store, {
        fault: (fault) => told.faults.push(fault.message),
        added: (added) => told.added.push(...added),
        changed: () => {},
    });
    await kept.open(NOW);
    return { kept, told };
}

/** What a receiver prints of an air file, and how many messages of it were new, known and refused. What has no
 *  moment in it is heard at `start`. */
export async function printed({ kept, told }, air, start = NOW) {
    const before = told.added.length;
    const run = kept.begin(start);
    for (const line of air.split('\n').slice(0, -1)) kept.take(line);
    await kept.endOfSound(LATER);
    return { log: joined(told.added.slice(before)), ...run.counts };
}
