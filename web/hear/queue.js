// The queue of sounds: one is heard at a time, the others wait in order. No sound begins before the
// one before it is over.

/** Why a sound ends before its end: somebody pressed Stop. */
export class Stopped extends Error {}

/** A promise, or Stopped as soon as the sound is stopped; what comes later goes to `late`. */
export function unlessStopped(signal, promise, late = () => {}) {
    return new Promise((resolve, reject) => {
        const stop = () => {
            reject(new Stopped());
            promise.then(late, () => {});
        };
        if (signal.aborted) {
            stop();
            return;
        }
        signal.addEventListener('abort', stop, { once: true });
        promise.then(resolve, reject).finally(() => signal.removeEventListener('abort', stop));
    });
}

export class Queue {
    #waiting = [];
    #current = null;
    #stopping = null;          // what stops it
    #over = Promise.resolve(); // when it is over
    #on;

    /** `on` is told `changed`, where a sound comes, begins or goes; `stopped`, of one that was stopped before it
     *  was heard; and `fault`. */
    constructor(on) {
        this.#on = on;
    }

    /** The sound that is heard, or null. */
    get current() {
        return this.#current;
    }

    get waiting() {
        return this.#waiting;
    }

    get isIdle() {
        return this.#current === null && this.#waiting.length === 0;
    }

    /** Whether the one that is heard was stopped, and is about to end. */
    get isStopping() {
        return this.#stopping?.signal.aborted === true;
    }

    /** Hears a sound when those before it are over: `name`, `hear(signal)`, and `drop()` where it is
     *  taken out before it began. */
    add(...sounds) {
        this.#waiting.push(...sounds);
        if (this.#current === null) this.#next();
        else this.#on.changed();
    }

    /** Stops the sound that is heard; the next one begins. */
    stop() {
        this.#stopping?.abort();
        this.#on.changed();
    }

    /** Takes out a sound that waits. */
    remove(sound) {
        if (!this.#waiting.includes(sound)) return;
        this.#waiting = this.#waiting.filter((other) => other !== sound);
        sound.drop?.();
        this.#on.changed();
    }

    /** Stops all; answers when the one that was heard is over. */
    async stopAll() {
        for (const sound of [...this.#waiting]) this.remove(sound);
        this.stop();
        while (this.#current !== null) await this.#over;
    }

    #next() {
        this.#current = this.#waiting.shift() ?? null;
        this.#stopping = this.#current === null ? null : new AbortController();
        this.#on.changed();
        if (this.#current !== null) this.#over = this.#hear(this.#current, this.#stopping.signal);
    }

    async #hear(sound, signal) {
        try {
            await sound.hear(signal);
        } catch (fault) {
            if (fault instanceof Stopped) this.#on.stopped(sound);
            else this.#on.fault(fault);
        }
        this.#next();
    }
}
