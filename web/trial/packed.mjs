// Packed recordings that are made for a trial: FLAC with samples as they are, and Ogg many times in a row.
// ea01.ogg, ea01.opus and ea01.m4a are examples/ea01.air as sound, a second of silence around it, packed by
// libvorbis, libopus and libavcodec; slip.mp3 is examples/slip.air.
const BLOCK = 4096;    // samples of a FLAC frame
const RATES = { 8000: 4, 16000: 5, 24000: 7, 44100: 9, 48000: 10 }; // as a FLAC frame says them
const BITS = 16;
const [MOMENT, NUMBER, SUM, COUNT, PAGE] = [6, 18, 22, 26, 27]; // places in an Ogg page's head, and its length

/** The remainders of each byte by a divisor of so many bits. */
function remaindersOf(divisor, bits) {
    return Uint32Array.from({ length: 256 }, (_, byte) => {
        let sum = byte * 2 ** (bits - 8);
        for (let bit = 0; bit < 8; bit++) {
            const isOver = sum >= 2 ** (bits - 1);
            sum = (2 * sum) % 2 ** bits;
            if (isOver) sum = (sum ^ divisor) >>> 0;
        }
        return sum;
    });
}

const SHORT = remaindersOf(0x07, 8);
const MIDDLE = remaindersOf(0x8005, 16);
const LONG = remaindersOf(0x04c11db7, 32);

/** The remainder of bytes, of so many bits. */
function sumOf(bytes, remainders, bits) {
    let sum = 0;
    for (let at = 0; at < bytes.length; at++) {
        sum = ((sum << 8) & (2 ** bits - 1)) ^ remainders[((sum >>> (bits - 8)) & 255) ^ bytes[at]];
    }
    return sum >>> 0;
}

/** A number as in UTF-8, of up to four bytes. */
function numbered(number) {
    if (number < 0x80) return [number];
    const last = (turns) => 0x80 | ((number >> (6 * turns)) & 63);
    if (number < 0x800) return [0xc0 | (number >> 6), last(0)];
    if (number < 0x10000) return [0xe0 | (number >> 12), last(1), last(0)];
    return [0xf0 | (number >> 18), last(2), last(1), last(0)];
}

/** A frame of samples as they are, the same on each side. */
function frameOf(samples, number, { rate, sides }) {
    const head = [0xff, 0xf8, 0x70 | RATES[rate], ((sides - 1) << 4) | 8, ...numbered(number),
        (samples.length - 1) >> 8, (samples.length - 1) & 255];
    const side = [Buffer.from([2]), Buffer.from(samples.slice().buffer).swap16()];
    const whole = Buffer.from([...head, sumOf(head, SHORT, 8)]);
    const frame = Buffer.concat([whole, ...Array(sides).fill(side).flat(), Buffer.alloc(2)]);
    frame.writeUInt16BE(sumOf(frame.subarray(0, -2), MIDDLE, 16), frame.length - 2);
    return frame;
}

/** A FLAC file of whole numbers of 16 bits, `times` in a row. */
export function flacFile(samples, { rate, sides = 1, times = 1 }) {
    const length = samples.length * times;
    const head = Buffer.alloc(42);
    head.write('fLaC');
    head.writeUInt32BE(0x80000022, 4);
    head.writeUInt16BE(BLOCK, 8);
    head.writeUInt16BE(BLOCK, 10);
    head.writeUInt32BE(rate * 4096 + ((sides - 1) << 9) + ((BITS - 1) << 4), 18);
    head.writeUInt32BE(length, 22);
    const twice = Int16Array.from([...samples, ...samples]); // a block may go over the end
    const blockAt = (from) => {
        const begin = from % samples.length;
        return twice.subarray(begin, begin + Math.min(BLOCK, length - from));
    };
    return Buffer.concat([head, ...Array.from({ length: Math.ceil(length / BLOCK) },
        (_, number) => frameOf(blockAt(number * BLOCK), number, { rate, sides }))]);
}

/** The pages of an Ogg file. */
function pagesOf(bytes) {
    const pages = [];
    for (let at = 0; at < bytes.length;) {
        const lengths = bytes.subarray(at + PAGE, at + PAGE + bytes[at + COUNT]);
        const end = at + PAGE + lengths.length + lengths.reduce((sum, one) => sum + one, 0);
        pages.push(Buffer.from(bytes.subarray(at, end)));
        at = end;
    }
    return pages;
}

/** The samples of ea01.ogg and ea01.opus, and those to which they are decoded where more follows. */
export const OGGS = { 'ea01.ogg': { rate: 8000, length: 129680, step: 130048 },
    'ea01.opus': { rate: 48000, length: 778080, step: 778560 } };

/** An Ogg file whose sound comes so many times, as one stream. Its head is all pages of moment 0. */
export function oggTimes(bytes, times, step) {
    const pages = pagesOf(bytes);
    const momentOf = (page) => Number(page.readBigInt64LE(MOMENT));
    const head = pages.filter((page) => momentOf(page) === 0);
    const sound = pages.slice(head.length);
    const all = [...head, ...Array.from({ length: times }, (_, time) => sound.map((page) => {
        const later = Buffer.from(page);
        later.writeBigInt64LE(BigInt(momentOf(page) + time * step), MOMENT);
        if (time < times - 1) later[5] &= ~4; // it isn't the last one
        return later;
    })).flat()];
    all.forEach((page, number) => {
        page.writeUInt32LE(number, NUMBER);
        page.writeUInt32LE(0, SUM);
        page.writeUInt32LE(sumOf(page, LONG, 32), SUM);
    });
    return Buffer.concat(all);
}

const CONTAINERS = new Set(['moov', 'trak', 'mdia', 'minf', 'stbl', 'edts']);

/** The boxes of MPEG-4 that follow each other, each a name and its content. */
function boxesOf(bytes) {
    const boxes = [];
    for (let at = 0; at < bytes.length; at += bytes.readUInt32BE(at)) {
        boxes.push([bytes.toString('latin1', at + 4, at + 8), bytes.subarray(at + 8, at + bytes.readUInt32BE(at))]);
    }
    return boxes;
}

function boxOf(name, content) {
    const head = Buffer.alloc(8);
    head.writeUInt32BE(head.length + content.length);
    head.write(name, 4, 'latin1');
    return Buffer.concat([head, content]);
}

/** Boxes as they are, but for those of which `others` makes another content. */
const rebuilt = (bytes, others) => Buffer.concat(boxesOf(bytes).map(([name, content]) =>
    boxOf(name, CONTAINERS.has(name) ? rebuilt(content, others) : others[name]?.(content) ?? content)));

/** Numbers of 32 bits. */
function wordsOf(...numbers) {
    const bytes = Buffer.alloc(4 * numbers.length);
    numbers.forEach((number, at) => bytes.writeUInt32BE(number, 4 * at));
    return bytes;
}

/** The samples of ea01.m4a, those of a frame, and those at its beginning that aren't heard. */
export const M4A = { rate: 8000, length: 129680, frame: 1024, silent: 1024 };

/** An M4A file whose frames come so many times, in a chunk each time. Its tables stand at the end, or before
 *  the sound where they are `early`. */
export function m4aTimes(bytes, times, { isEarly = false } = {}) {
    const boxes = Object.fromEntries(boxesOf(bytes));
    const sound = Buffer.concat(Array(times).fill(boxes.mdat));
    const longer = (at) => (content) => {
        const later = Buffer.from(content);
        later.writeUInt32BE(content.readUInt32BE(at) * times, at);
        return later;
    };
    const tablesAt = (begin) => {
        let count = 0;
        const sizes = (content) => {
            count = content.readUInt32BE(8);
            return Buffer.concat([wordsOf(0, 0, count * times), ...Array(times).fill(content.subarray(12))]);
        };
        rebuilt(boxes.moov, { stsz: sizes });
        return boxOf('moov', rebuilt(boxes.moov, {
            stsz: sizes,
            stts: () => wordsOf(0, 1, count * times, M4A.frame),
            stsc: () => wordsOf(0, 1, 1, count, 1),
            stco: () => wordsOf(0, times, ...Array.from({ length: times }, (_, time) => begin + time * boxes.mdat.length)),
            mvhd: longer(16),
            tkhd: longer(20),
            mdhd: longer(16),
            elst: () => wordsOf(0, 1, (1000 * (count * times * M4A.frame - M4A.silent)) / M4A.rate, M4A.silent, 1 << 16),
        }));
    };
    const head = boxOf('ftyp', boxes.ftyp);
    if (!isEarly) return Buffer.concat([head, boxOf('mdat', sound), tablesAt(head.length + 8)]);
    const begin = head.length + tablesAt(0).length + 8;
    return Buffer.concat([head, tablesAt(begin), boxOf('mdat', sound)]);
}
