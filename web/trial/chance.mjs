// Chance for a trial.

/** Numbers from 0 to below one, the same in each run. */
export function chanceOf(seed) {
    let state = seed;
    return () => {
        state = (Math.imul(state, 1664525) + 1013904223) >>> 0;
        return state / 2 ** 32;
    };
}
