// The ship's place as it is kept over a reload.
import { MAX_MOMENT } from '../receiver/receiver.js';

const isWithin = (value, most) => typeof value === 'number' && Math.abs(value) <= most;

/** The ship's place of a value that may be anything, and when it was given; or null. */
export function shipOf(value) {
    const { latitude, longitude, moment } = typeof value === 'object' && value !== null ? value : {};
    if (!isWithin(latitude, 90) || !isWithin(longitude, 180) || !isWithin(moment, MAX_MOMENT)) return null;
    return { latitude, longitude, moment };
}
