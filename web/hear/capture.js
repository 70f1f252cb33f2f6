// Live sound: a microphone, the sound card's input, or the sound of another tab.
import { PageFault } from '../show/faults.js';

const RATE = 8000;   // samples a second that a sound is brought to, where the browser can do that
const BLOCK = 800;   // samples that are handed on at a time
const FRAMES = 3000; // pieces of sound that wait within the browser, some 30 s
export const TAB = 'tab';

/** Why there is no sound, in words for who uses the page. */
export class SoundFault extends PageFault {}

// What runs where the browser hears, and hands both sides of the sound to whom it is told.
const GATHERER = `
registerProcessor("gatherer", class extends AudioWorkletProcessor {
    constructor() {
        super();
        this.sides = [new Float32Array(${BLOCK}), new Float32Array(${BLOCK})];
        this.count = 0;
        this.port.onmessage = ({ data }) => { this.to = data; };
    }
    process([sides]) {
        if (!this.to || !sides.length) return true;
        for (let at = 0; at < sides[0].length; at++) {
            this.sides[0][this.count] = sides[0][at];
            this.sides[1][this.count++] = (sides[1] ?? sides[0])[at];
            if (this.count === ${BLOCK}) {
                this.to.postMessage(this.sides);
                this.count = 0;
            }
        }
        return true;
    }
});`;

const REFUSED = {
    NotAllowedError: 'The browser got no leave to use the microphone. Allow it in the settings of this page.',
    SecurityError: 'The browser gives this page no microphone. Open it from a disk or by https.',
    NotFoundError: 'No microphone was found. Is one connected?',
    NotReadableError: "The microphone can't be opened. Perhaps another program uses it.",
    OverconstrainedError: 'The input that was chosen is gone. Choose another one.',
    AbortError: "The microphone couldn't be started.",
};

const REFUSED_TAB = {
    NotAllowedError: 'No tab was chosen.',
    NotFoundError: 'There is no tab whose sound can be heard.',
};

const UNCHANGED = { echoCancellation: false, noiseSuppression: false, autoGainControl: false,
    channelCount: { ideal: 2 } };

/** The inputs of this computer: a number and a name each; without leave they may have no name. */
export async function inputs() {
    const devices = await navigator.mediaDevices?.enumerateDevices?.() ?? [];
    return devices.filter(({ kind, deviceId }) => kind === 'audioinput' && deviceId !== '' && deviceId !== 'default')
        .map(({ deviceId, label }, at) => ({ id: deviceId, name: label || `Input ${at + 1}` }));
}

/** Asks for the stream of an input; '' is the usual one. */
export async function askForInput(input) {
    if (!navigator.mediaDevices?.getUserMedia) throw new SoundFault(REFUSED.SecurityError);
    const device = input === '' ? {} : { deviceId: { exact: input } };
    try {
        return await navigator.mediaDevices.getUserMedia({ audio: { ...UNCHANGED, ...device } });
    } catch (fault) {
        throw new SoundFault(REFUSED[fault.name] ?? `The microphone can't be used: ${fault.message}`);
    }
}

/** Asks which tab is heard; only a press of a button may do that. */
export async function askForTab() {
    if (!navigator.mediaDevices?.getDisplayMedia) throw new SoundFault("This browser can't hear another tab.");
    let stream;
    try {
        stream = await navigator.mediaDevices.getDisplayMedia({ video: true, audio: { ...UNCHANGED } });
    } catch (fault) {
        throw new SoundFault(REFUSED_TAB[fault.name] ?? `No tab can be heard: ${fault.message}`);
    }
    for (const track of stream.getVideoTracks()) track.stop();
    if (stream.getAudioTracks().length > 0) return stream;
    throw new SoundFault('No sound came with the tab. Choose a tab, and tick that its sound is shared.');
}

export function endStream(stream) {
    for (const track of stream.getTracks()) track.stop();
}

/**
 * A stream whose sound is handed on, until it is closed. Where the browser gives the sound itself, as it
 * was captured (MediaStreamTrackProcessor), nothing of it is lost on a busy machine; elsewhere it goes
 * through the browser's mixer (AudioContext), which loses some where it comes too late.
 */
export class Capture {
    #stream;
    #context = null;
    #gatherer;
    #frames = null;

    /** Begins; `onGone` is called where the sound goes away. Where it can't begin the stream ends. */
    static async of(stream, onGone) {
        const capture = new Capture();
        capture.#stream = stream;
        const [track] = stream.getAudioTracks();
        track.onended = onGone;
        try {
            capture.#frames = framesOf(track);
            if (capture.#frames === null) await capture.#mix();
        } catch (fault) {
            await capture.close();
            throw fault instanceof SoundFault ? fault : new SoundFault(`The sound can't be used: ${fault.message}`);
        }
        return capture;
    }

    /** Hands the sound to a worker from here on: in pieces as they were captured, or by a port. */
    handTo(beside) {
        if (this.#frames !== null) {
            beside.connect({ frames: this.#frames });
            return;
        }
        const { port1, port2 } = new MessageChannel();
        beside.connect({ port: port1, rate: this.#context.sampleRate });
        this.#gatherer.port.postMessage(port2, [port2]);
    }

    async close() {
        endStream(this.#stream);
        await this.#context?.close().catch(() => {});
    }

    async #mix() {
        if (typeof AudioWorkletNode === 'undefined') {
            throw new SoundFault('This browser lacks what a microphone needs here (AudioWorklet).');
        }
        const source = this.#join();
        await this.#context.audioWorklet.addModule('data:text/javascript,' + encodeURIComponent(GATHERER));
        this.#gatherer = new AudioWorkletNode(this.#context, 'gatherer');
        source.connect(this.#gatherer).connect(this.#context.destination); // which gets silence
        this.#context.resume().catch(() => {}); // where there is no sound at all it never answers
    }

    /** The stream as a source of sound, at our rate; some browsers give it at its own rate alone. */
    #join() {
        try {
            this.#context = new AudioContext({ sampleRate: RATE, latencyHint: 'playback' });
            return this.#context.createMediaStreamSource(this.#stream);
        } catch {
            this.#context?.close();
            this.#context = new AudioContext({ latencyHint: 'playback' });
            return this.#context.createMediaStreamSource(this.#stream);
        }
    }
}

/** The sound of a track in pieces as they were captured, or null where the browser gives none. */
function framesOf(track) {
    if (typeof MediaStreamTrackProcessor === 'undefined') return null;
    try {
        return new MediaStreamTrackProcessor({ track, maxBufferSize: FRAMES }).readable;
    } catch {
        return null; // some give pictures alone
    }
}
