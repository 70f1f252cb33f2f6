// Bytes of a file, and how a packed recording is cut into pieces.

const TAG = 10; // bytes that begin a tag before the sound (ID3)

/** So many bytes of a file, fewer at its end. */
export async function bytesOf(file, at, length) {
    return new Uint8Array(await file.slice(at, at + length).arrayBuffer());
}

/** Whether bytes have a word at a place. */
export function hasWord(bytes, word, at = 0) {
    return String.fromCharCode(...bytes.subarray(at, at + word.length)) === word;
}

/** Where the sound begins: behind a tag, if there is one. */
export async function behindTag(file) {
    const head = await bytesOf(file, 0, TAG);
    if (!hasWord(head, 'ID3')) return 0;
    return TAG + head.subarray(6).reduce((sum, byte) => 128 * sum + (byte & 127), 0);
}

/**
 * Cuts a file into pieces of some `size` samples. Its `parts` come in lists, each part with its place `at`,
 * its `first` sample and the one behind its `last`. A piece has its bytes (`from`, `to`), the sample with
 * which they begin (`base`), and the `count` of samples that are wanted at its end. What is before these, some
 * `warm` samples, is for a decoder that has to know what came before.
 */
export async function cut(file, parts, size, warm) {
    const pieces = [];
    let run = []; // parts of the next piece
    let first;    // the first sample that is wanted of it
    const end = (to, last) => pieces.push({ from: run[0].at, to, base: run[0].first, count: last - first });
    const take = (part) => {
        first ??= part.first;
        if (part.first - first >= size) {
            end(part.at, part.first);
            first = part.first;
            run = run.filter((one) => one.last > first - warm);
        }
        run.push(part);
    };
    for await (const list of parts) list.forEach(take);
    if (run.length > 0) end(file.size, run.at(-1).last);
    return pieces;
}
