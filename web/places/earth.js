// Distance and bearing on a round earth, of which a minute of a great circle is a mile. The true shape makes
// half a percent of a distance at most.
const RADIAN = Math.PI / 180;
const MILES = 60 / RADIAN; // of a radian

/** The miles from one place to another, and the bearing in degrees, at which the great circle begins. */
export function wayTo(from, to) {
    const [here, there] = [from.latitude * RADIAN, to.latitude * RADIAN];
    const turn = (to.longitude - from.longitude) * RADIAN;
    const north = Math.cos(here) * Math.sin(there) - Math.sin(here) * Math.cos(there) * Math.cos(turn);
    const east = Math.sin(turn) * Math.cos(there);
    const up = Math.sin(here) * Math.sin(there) + Math.cos(here) * Math.cos(there) * Math.cos(turn);
    const bearing = (Math.atan2(east, north) / RADIAN + 360) % 360;
    return { miles: MILES * Math.atan2(Math.hypot(north, east), up), bearing };
}

/** The way in words: tenths of a mile where it is near. */
export function waySaid({ miles, bearing }) {
    const far = miles < 99.95 ? miles.toFixed(1) : miles.toFixed(0);
    if (far === '0.0') return '0.0 miles';
    return `${far} miles, ${String(Math.round(bearing) % 360).padStart(3, '0')}°`;
}
