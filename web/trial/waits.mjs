// How long the main thread of a process waited for a processor, as Linux tells it: that is the machine's doing, and
// not its own. And how many times slower the machine is by what else it does.
import { readFileSync } from 'node:fs';

const EVERY = 20;    // milliseconds between two looks
const MILLION = 1e6; // nanoseconds of a millisecond
const WORK = 50;     // milliseconds of a processor by which the machine is tried

export class Waits {
    #looks = []; // the moments of looks, and the milliseconds that it had waited until then
    #timer;

    /** Looks at a process from here on. */
    constructor(pid) {
        const look = () => {
            try {
                const [, waited] = readFileSync(`/proc/${pid}/schedstat`, 'utf8').split(' ');
                this.#looks.push([Date.now(), Number(waited) / MILLION]);
            } catch {
                // it is gone, or the system doesn't tell it: then it counts as if it hadn't waited
            }
        };
        look();
        this.#timer = setInterval(look, EVERY);
    }

    /** The milliseconds that it waited from one moment to another, from look to look. */
    between(from, to) {
        const before = this.#looks.findLast(([moment]) => moment <= from) ?? this.#looks[0];
        const behind = this.#looks.find(([moment]) => moment >= to) ?? this.#looks.at(-1);
        return before === undefined ? 0 : behind[1] - before[1];
    }

    stop() {
        clearInterval(this.#timer);
    }
}

/** How many times slower this machine is now than one that does nothing else: by a little work of this process. */
export function slowness() {
    const [begun, used] = [performance.now(), process.cpuUsage()];
    const worked = () => Object.values(process.cpuUsage(used)).reduce((sum, part) => sum + part) / 1000;
    while (worked() < WORK);
    return Math.max(1, (performance.now() - begun) / WORK);
}
