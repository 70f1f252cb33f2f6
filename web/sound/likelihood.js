// Likelihoods, as natural logarithms.

import { listOf, placeOfGreatest, sum } from './numbers.js';

const BESSEL_END = 40;     // up to here ln I0 is looked up in a table
const BESSEL_STEPS = 1600;
const BESSEL_TABLE = listOf(BESSEL_STEPS + 1, (place) =>
    Math.log(besselI0(place * BESSEL_END / BESSEL_STEPS)));

/** I0, the modified Bessel function of order 0, by its series. */
function besselI0(x) {
    let term = 1;
    let all = 1;
    for (let place = 1; term > all * 1e-17; place++) {
        term *= (x / (2 * place)) ** 2;
        all += term;
    }
    return all;
}

/** ln I0(x): a table to 40, then x - ln(2 pi x) / 2. */
export function logBessel(x) {
    if (x >= BESSEL_END) {
        return x - 0.5 * Math.log(2 * Math.PI * x + 1e-9) + 0.003;
    }
    const place = x * (BESSEL_STEPS / BESSEL_END);
    const below = Math.floor(place);
    return BESSEL_TABLE[below] + (BESSEL_TABLE[below + 1] - BESSEL_TABLE[below]) * (place - below);
}

/** ln(sum of e^x). */
export function logSum(numbers) {
    const top = numbers[placeOfGreatest(numbers)];
    return top + Math.log(sum(numbers.map((number) => Math.exp(number - top))));
}

/** The probability of which the logarithm of the odds is given. */
export function probability(odds) {
    return 1 / (1 + Math.exp(-Math.min(Math.max(odds, -30), 30)));
}
