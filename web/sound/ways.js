// The ways to see the phase of a word, of which each may be the better one for a time.

import { listOf, sum } from './numbers.js';

export const WAYS = 6;   // without phase, with one that goes on through a word, and from word to word; twice
const REMEMBERED = 0.95; // how much of what spoke for a way before counts at the next position
const LEAST = -6;        // what speaks for a way, over what speaks for the best one, at least

/** Mixes the models of each way by what spoke for it of late. */
export class Ways {
    constructor() {
        this.shown = new Float64Array(WAYS);
    }

    /** Takes the models of a position, one for each way: what spoke for it. */
    hear(models) {
        const shown = listOf(WAYS, (way) => REMEMBERED * this.shown[way] + Math.log(sum(models[way])));
        const most = Math.max(...shown);
        this.shown = listOf(WAYS, (way) => Math.max(shown[way] - most, LEAST));
    }

    /** How likely each pair is, up to a factor, where `models` tells it for each way. */
    mixed(models) {
        const shares = this.shown.map(Math.exp);
        return listOf(models[0].length, (pair) =>
            sum(listOf(WAYS, (way) => models[way][pair] * shares[way])));
    }
}
