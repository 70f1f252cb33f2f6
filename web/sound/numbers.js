// Small helpers over numbers and over lists of them.

/** The nearest whole number; of two that are as near, the even one. */
export function roundEven(x) {
    const below = Math.floor(x);
    const rest = x - below;
    if (rest === 0.5) {
        return below % 2 === 0 ? below : below + 1;
    }
    return rest < 0.5 ? below : below + 1;
}

/** The rest of x, from 0 up to `size`, also where x is less than 0. */
export function modulo(x, size) {
    const rest = x % size;
    return rest < 0 ? rest + size : rest;
}

/** x, or the bound that it is beyond. */
export function clip(x, least, most) {
    return Math.min(Math.max(x, least), most);
}

/** The place of the greatest value; of several, the first. */
export function placeOfGreatest(values, count = values.length) {
    let best = 0;
    for (let place = 1; place < count; place++) {
        if (values[place] > values[best]) {
            best = place;
        }
    }
    return best;
}

export function sum(values, first = 0, last = values.length) {
    let all = 0;
    for (let place = first; place < last; place++) {
        all += values[place];
    }
    return all;
}

export function mean(values, first = 0, last = values.length) {
    return sum(values, first, last) / (last - first);
}

export function median(values) {
    const sorted = values.slice().sort();
    const half = sorted.length >> 1;
    return sorted.length % 2 ? sorted[half] : (sorted[half - 1] + sorted[half]) / 2;
}

/** The value at a place between those of a list, by straight lines; beyond it, that of its end. */
export function between(values, place) {
    if (!(place > 0)) {
        return values[0];
    }
    const below = Math.floor(place);
    if (below >= values.length - 1) {
        return values[values.length - 1];
    }
    return values[below] + (values[below + 1] - values[below]) * (place - below);
}

/** So many numbers, each of which `value` tells for its place. */
export function listOf(count, value) {
    const list = new Float64Array(count);
    for (let place = 0; place < count; place++) {
        list[place] = value(place);
    }
    return list;
}

/** Two lists of samples, one behind the other. */
export function joined(before, behind) {
    const both = new Float64Array(before.length + behind.length);
    both.set(before);
    both.set(behind, before.length);
    return both;
}
