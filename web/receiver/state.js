// The text of a state, as the receiver saves it: for each channel what is refused and what is
// remembered. The page reads it to show the choices, and writes one where a log is loaded.
import { identityOf, isGood } from './entries.js';
import { CHANNELS } from './receiver.js';

const MEMORY = 237600; // seconds, 66 hours, for which a message is remembered
const MOST = 200;      // messages that are remembered on a channel

/** The state of a receiver that has heard nothing. */
export const EMPTY_STATE = 'STATE 2\nC0\nC1\nC2\nEND\n';

/** The channels of a state: refused stations, refused subjects, remembered identities in order. */
export function readState(text) {
    const channels = Array.from({ length: CHANNELS }, () => ({ stations: [], subjects: [], remembered: [] }));
    let here = channels[0];
    for (const line of text.split('\n')) {
        const [word, value] = line.split(' ');
        if (/^C[012]$/.test(word)) here = channels[Number(word[1])];
        else if (word === 'RS') here.stations.push(value);
        else if (word === 'RJ') here.subjects.push(value);
        else if (/^[A-Z]{2}\d\d$/.test(word)) here.remembered.push({ identity: word, moment: Number(value) });
    }
    return channels;
}

export function writeState(channels) {
    const lines = channels.flatMap((channel, number) => [
        `C${number}`,
        ...channel.stations.map((letter) => `RS ${letter}`),
        ...channel.subjects.map((letter) => `RJ ${letter}`),
        ...channel.remembered.map(({ identity, moment }) => `${identity} ${moment}`),
    ]);
    return ['STATE 2', ...lines, 'END', ''].join('\n');
}

/** For each channel the stations and the subjects that a state refuses. */
export function refusedIn(text) {
    return readState(text).map(({ stations, subjects }) => ({ stations, subjects }));
}

/** A state without what a clock that ran far ahead left in it: 66 hours or more after now. */
export function stateAt(text, now) {
    return writeState(readState(text).map((channel) => ({
        ...channel,
        remembered: channel.remembered.filter(({ moment }) => moment < now + MEMORY),
    })));
}

/** A state that remembers what it did, and the good entries of a log too. */
export function stateWith(text, entries) {
    return writeState(readState(text).map((channel, number) => {
        const logged = entries.filter((entry) =>
            entry.channel === number && entry.number !== '00' && isGood(entry));
        const added = logged.map((entry) => ({ identity: identityOf(entry), moment: entry.moment }));
        return { ...channel, remembered: joined([...channel.remembered, ...added]) };
    }));
}

/** A state that remembers the same and refuses what `refused` says of each channel. */
export function stateRefusing(text, refused) {
    return writeState(readState(text).map(({ remembered }, number) => ({ ...refused[number], remembered })));
}

/** A state that remembers nothing and refuses the same. */
export function stateForgotten(text) {
    return writeState(readState(text).map((channel) => ({ ...channel, remembered: [] })));
}

/** In order of time, the last 200 of them. Of two of one identity less than 66 hours apart the later one counts,
 *  as a watch reads its log. */
function joined(remembered) {
    const inOrder = [...remembered].sort((one, other) => one.moment - other.moment);
    const next = new Map(); // the moment of the next one of an identity
    const last = inOrder.reverse().filter(({ identity, moment }) => {
        const isLast = !next.has(identity) || next.get(identity) - moment >= MEMORY;
        next.set(identity, moment);
        return isLast;
    });
    return last.slice(0, MOST).reverse();
}
