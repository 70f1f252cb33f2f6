// What runs beside the page, so that the page answers while sound is heard: it takes a recording in
// pieces, or live sound from what captures it, and tells what Hearing hears.
import { Hearing } from './hearing.js';
import { Live, tellFault } from './live.js';
import { Packed } from './packed.js';
import { samplesOf } from '../hear/wave.js';

let begun;           // what it begins with
let hearing = null;  // of a recording
let packed = null;   // of a recording that the browser decodes here
let live = null;     // of live sound
let turn = Promise.resolve(); // when what is being decoded was told

const tell = (told) => postMessage(told, told.rows.map((row) => row.buffer));

const asks = {
    begin(given) {
        begun = given;
        if (given.rate !== undefined) hearing = new Hearing(given);
        if (given.packed !== undefined) packed = new Packed(given.packed, given.side);
    },
    piece(piece) {
        const { layout, side } = begun;
        if (packed !== null) return inTurn(async () => tell(hearing.push(await packed.push(new Uint8Array(piece)))));
        return tell(hearing.push(layout === null ? piece : samplesOf(piece, layout, side)));
    },
    live(source) {
        live = new Live(begun, tell);
        live.connect(source);
    },
    tune(tuning) {
        (live ?? hearing).tune(tuning);
    },
    side(side) {
        live.side = side;
    },
    finish() {
        if (packed !== null) return inTurn(async () => tell(joined(hearing.push(await packed.finish()), hearing.finish())));
        return tell((live ?? hearing).finish());
    },
};

/** Does something when all that was asked before is told. */
function inTurn(action) {
    turn = turn.then(action);
    return turn;
}

/** What two pieces told, as one. */
function joined(first, last) {
    return { ...last, told: [...first.told, ...last.told], text: first.text + last.text, rows: [...first.rows, ...last.rows] };
}

onmessage = ({ data: [ask, given] }) => asks[ask](given)?.catch(tellFault);
