// From the tones of elements to elements: words are decided from both sendings of a position.

import { carriedPhase, NO_PHASE, PHASORS } from './carried.js';
import { HEADER_POSITIONS, headerOf, HeaderPlace } from './headers.js';
import { findJump, ON, TURN } from './jumps.js';
import { LATELY, Levels } from './levels.js';
import { BEFORE, BEHIND, inState, LOUD, SENT, STATE, statesOf } from './loudness.js';
import { clip, listOf, modulo, placeOfGreatest, sum } from './numbers.js';
import { offBySlope, phasorOf, slopeOf, turnedBack, wordsWithPhase } from './phase.js';
import { Store } from './store.js';
import { Ways, WAYS } from './ways.js';
import {
    asHeard, DX, GAP, pairs, PAIRS, PATTERNS, PHASING_NUMBER, PHASING_ONE, PHASING_TWO, RX, UNHEARD, WORD, WORDS,
    wordsByElements, wordsByLikelihoods,
} from './words.js';

const BACK = 14;       // positions before one that tell a lock
const LOCK = 14;       // evidence for a lock
const LOSE = 5;        // against it
const BETTER = 8;      // and for another one
const SURE = 0.98;     // a word is written where it is so probable
const PAIR = 0.06;     // for a lock one tone has this part of the other's A²
const NEAREST = 12;    // positions before one that tell how far the middle is off

/**
 * Takes the tones of elements and tells elements, 2.3 s behind. All is numbered by elements.
 *
 * Where sound is lost or doubled on its way, words jump: they are heard some elements earlier or
 * later than those before. They are told in the slots of the words before all the same, so elements
 * are put in or left out. A stretch is sound without a jump: what is told as element i is heard as
 * element i + shift, from its first element on and before its last.
 */
export class Sendings {
    constructor(isExchanged = false) {
        this.exchanged = isExchanged;      // whether the lower tone is B
        this.lock = null;                  // the place of DX words as told, from 0 to 13
        this.slot = null;                  // that of the latest lock
        this.stretches = [{ first: 0, last: Infinity, shift: 0 }];   // the one that is told, and the next
        this.sure = 0;                     // words that were sure
        this.unsure = 0;                   // those between them that weren't
        this.doubts = -Infinity;           // words not sure since the latest sure one of a lock
        this.jumps = 0;                    // jumps met
        this.joined = new Map();           // how likely each pair of words is that a jump cuts
        this.moved = -Infinity;            // the latest element before which the clock jumped
        this.isTuned = true;               // whether words that are found now count
        this.single = 0;                   // how often a lock was refused for one tone alone
        this.middle = null;                // the middle by the phase of words, in a lock
        this.phasing = 0;                  // pairs of phasing positions met
        this.phases = 0;                   // phasing positions in a row now
        this.ways = new Ways();            // what spoke of late for each way to see the phase
        this.headerPlace = new HeaderPlace();   // whether a header may begin
        this.header = new Map();           // the numbers of its words, by where they are told
        this.tones = new Store(4);         // of the upper and of the lower tone, real and imaginary
        this.mixedBy = new Store(1);       // the frequency that they were mixed down by
        this.state = new Store(STATE);     // loudness of both tones, and how probable they are
        this.energies = new Store(1);      // the whole energy of the element
        this.levels = new Levels();
        this.leveled = new Store(STATE);   // as `state`, where levels and bursts are told
        this.words = new Store(WORDS);     // how likely each word is that begins here
        this.proof = new Store(2);         // what speaks for a position that begins here; exchanged
        this.slopes = new Store(4);        // how the phase of its words grows; exchanged
        this.phasors = new Store(PHASORS);   // the phase of DX, and of RX; exchanged
        this.out = new Store(1);
        this.told = 0;
    }

    /** Takes elements, mixed down by this middle, and tells those that are decided. */
    hear(elements, middle) {
        for (const { upper, lower, energy } of elements) {
            this.energies.add([Math.max(energy, 0) + 1e-15]);
            this.tones.add([upper.real, upper.imaginary, lower.real, lower.imaginary]);
            this.mixedBy.add([middle]);
        }
        this.hearTones();
        this.hearWords();
        this.hearPositions();
        const first = this.told;
        while (this.here + TURN * (ON + 1) + WORD + GAP < this.words.end) {
            this.decide();
            this.told += 1;
            if (this.here + WORD > this.stretches[0].last) {
                this.stretches.shift();
            }
        }
        return this.out.rows(first, this.told).join('');
    }

    /** The element of those heard that is told next. */
    get here() {
        return this.told + this.stretches[0].shift;
    }

    hearTones() {
        const first = this.state.end;
        const end = this.tones.end - BEHIND;
        if (end > first) {
            const begin = Math.max(0, first - BEFORE);
            this.state.add(statesOf(this.power(begin), first - begin));
            const since = Math.max(0, end - LATELY);
            const energy = this.energies.rows(since, this.energies.end);
            this.leveled.add(this.levels.hear(this.power(since), energy, first - since, end - since));
        }
    }

    /** The power of both tones in the elements from `begin` on. */
    power(begin) {
        const tones = this.tones.rows(begin, this.tones.end);
        return listOf(2 * (this.tones.end - begin), (place) =>
            tones[2 * place] ** 2 + tones[2 * place + 1] ** 2 + 1e-15);
    }

    /** How likely each word is: by each of its elements, without their phase. */
    hearWords() {
        for (let place = this.words.end; place + WORD <= this.state.end; place++) {
            this.words.add(this.wordBy(this.state, place));
        }
    }

    /** What speaks for a position at each place; its likeliest words' phase, and how it grows. */
    hearPositions() {
        for (let place = this.proof.end; place + GAP < this.words.end; place++) {
            const heard = [false, true].map((isExchanged) => this.position(place, isExchanged));
            this.proof.add(heard.map((one) => one.proof));
            this.slopes.add(heard.flatMap((one) => one.slope));
            this.phasors.add(heard.flatMap((one) => one.phasors));
        }
    }

    position(place, isExchanged) {
        const models = pairs(this.row(place), this.row(place + GAP), isExchanged);
        const all = sum(models);
        const best = placeOfGreatest(models, DX.length);
        const share = models[placeOfGreatest(models)] / all;
        const turned = [
            turnedBack(this.tones, this.state, place, asHeard(DX[best], isExchanged)),
            turnedBack(this.tones, this.state, place + GAP, asHeard(RX[best], isExchanged)),
        ];
        const [dx, rx] = turned.map(slopeOf);
        return {
            proof: clip(Math.log(all), -4, 6),
            slope: [share * (dx.real + rx.real), share * (dx.imaginary + rx.imaginary)],
            phasors: turned.map(phasorOf).flatMap(({ real, imaginary }) => [share * real, share * imaginary]),
        };
    }

    /** How likely each word is that begins at an element. */
    row(place) {
        return this.words.rows(place, place + 1);
    }

    /** The element that is told next, and the words of a position that begins there. */
    decide() {
        if (this.out.end <= this.told) {
            this.out.add([this.byItself(this.here)]);
        }
        if (this.told % TURN === 0) {
            this.seek(this.here);
        }
        if (this.lock !== null && this.told % TURN === this.lock) {
            if (this.stretches.length === 1) {
                this.meetJump(this.here);
            }
            this.write(this.here);
        }
    }

    /** An element by itself: the louder tone. */
    byItself(place) {
        const size = (column) => Math.hypot(this.tones.get(place, column), this.tones.get(place, column + 1));
        const [upper, lower] = [size(0), size(2)];
        return this.isTuned && (upper > lower) !== this.exchanged ? 1 : 0;
    }

    /**
     * The lock: the place in a turn, and the sideband, for which the positions near here speak. It
     * is told in the slot of the lock before.
     */
    seek(place) {
        const { first, last } = this.stretches[0];
        const back = Math.min(BACK - 1, Math.floor((place - first) / TURN));
        const on = Math.min(ON + 1, Math.floor((last - place) / TURN));
        if (back + on < ON / 2) {
            return;
        }
        const near = { first: place - TURN * back, last: place + TURN * on };
        const scores = this.scores(near);
        const best = placeOfGreatest(scores);
        const here = this.lock === null ? -Infinity : scores[2 * this.lock + Number(this.exchanged)];
        if (scores[best] > Math.max(LOCK, here + BETTER)) {
            this.take(best >> 1, best % 2 === 1, near);
        } else if (here < LOSE) {
            this.lock = null;
            this.middle = null;
        }
    }

    /** What speaks for each place in a turn, on each sideband. */
    scores({ first, last }) {
        const scores = new Float64Array(2 * TURN);
        this.proof.rows(first, last).forEach((proof, place) => {
            scores[place % scores.length] += proof;
        });
        return scores;
    }

    /** Locks to a place in a turn, where both tones are heard. */
    take(turn, isExchanged, near) {
        if (!this.isTuned || this.isSingle(near)) {
            this.single += this.isTuned ? 1 : 0;
            return;
        }
        this.slot ??= turn;
        this.lock = this.slot;
        this.exchanged = isExchanged;
        this.ways = new Ways();
        this.doubts = -Infinity;
        const step = modulo(turn - this.slot + TURN / 2, TURN) - TURN / 2;
        if (step) {
            const { first, shift } = this.stretches[0];
            this.goOn([{ first, last: Infinity, shift: shift + step }]);
        }
    }

    /** Whether one of the tones is missing. */
    isSingle({ first, last }) {
        const loud = [0, 1].map((tone) => {
            let sum = 0;
            for (let place = first; place < last; place++) {
                sum += this.state.get(place, inState(tone, LOUD));
            }
            return sum;
        });
        return Math.min(...loud) < PAIR * Math.max(...loud);
    }

    /** What was heard before this element tells nothing of a lock. */
    forget(first) {
        this.lock = null;
        this.middle = null;
        this.goOn([{ first, last: Infinity, shift: this.stretches[0].shift }]);
    }

    /** Goes on in these stretches. What was decided of a header ahead doesn't hold in them. */
    goOn(stretches) {
        this.stretches = stretches;
        this.header = new Map();
    }

    /**
     * Looks for a jump ahead, and goes on behind it. Of positions of which a likely place of it
     * cuts a word, `joined` has what all its places together tell.
     */
    meetJump(place) {
        const proof = (at) => this.proof.get(at, Number(this.exchanged));
        const jump = findJump(this.state, proof, { place, moved: this.moved, isExchanged: this.exchanged });
        if (jump) {
            const { first, shift } = this.stretches[0];
            this.goOn([
                { first, last: jump.end, shift },
                { first: jump.begin, last: Infinity, shift: shift + jump.step },
            ]);
            this.jumps += 1;
            const told = jump.models.map((models, position) => [this.told + position * TURN, models]);
            this.joined = new Map(told.filter(([at]) => this.heardWords(at).includes(null)));
        }
    }

    /** Where both words of a position that is told here were heard, each if it was in one piece. */
    heardWords(told) {
        return [this.heardAt(told), this.heardAt(told + GAP)];
    }

    /** Where the word that is told at `place` was heard in one piece, if it was. */
    heardAt(place) {
        const whole = this.stretches.find(({ first, last, shift }) =>
            first <= place + shift && place + shift + WORD <= last);
        return whole ? place + whole.shift : null;
    }

    /** The words of the position that begins here, in both places; where none is sure, 0. */
    write(place) {
        const ways = this.seen(this.told, this.off(place));
        this.ways.hear(ways);
        const models = this.mixed(this.told, ways);
        const best = placeOfGreatest(models);
        const isSure = models[best] >= SURE * sum(models);
        if (!isSure || best !== PHASING_NUMBER) {
            this.findHeader(place);
        }
        const number = this.header.get(this.told) ?? null;
        const told = this.header.has(this.told) ? number : [null, best][Number(isSure)];
        this.header.delete(this.told);
        const [dx, rx] = told === null ? [0, 0] : pairOf(told);
        this.count(dx);
        this.headerPlace.hear(told, told === PHASING_NUMBER);
        this.put(this.told, dx);
        this.put(this.told + GAP, rx);
    }

    /**
     * How likely each pair of words of the position that is told there is, in six ways: without
     * phase, with a phase that goes on through a word, and with one that goes on from the words
     * beside it too; each by the cases near an element, and by the levels.
     */
    seen(told, off) {
        const [dx, rx] = this.heardWords(told).map((at, isRx) => this.rows(at, isRx, off));
        return dx.map((row, way) => pairs(row, rx[way], this.exchanged));
    }

    /**
     * These ways together, by what spoke for each of late. What a word tells that a jump may cut
     * counts too, as `joined` has it without phase.
     */
    mixed(told, ways) {
        const models = this.ways.mixed(ways);
        const joined = this.joined.get(told);
        return joined ? models.map((one, pair) => one * joined[pair] / ways[0][pair]) : models;
    }

    /** Looks for a header that begins here, where one may. */
    findHeader(place) {
        if (this.header.size || !this.headerPlace.isOpen || this.stretches.length > 1) {
            return;
        }
        const places = Array.from({ length: HEADER_POSITIONS }, (_, position) => TURN * position);
        const models = places.map((at) => this.mixed(this.told + at, this.seen(this.told + at, this.offAt(place + at))));
        const words = headerOf(models, SURE);
        if (words) {
            this.header = new Map(places.map((at, position) => [this.told + at, words[position]]));
        }
    }

    /** How likely each word is that begins at an element, in each way to see it. */
    rows(place, isRx, off) {
        if (place === null) {
            return Array.from({ length: WAYS }, () => UNHEARD);
        }
        const word = { place, isRx, isExchanged: this.exchanged, off };
        const begun = [NO_PHASE, carriedPhase(this.phasors, this.stretches[0], word)];
        const withPhase = (state) => wordsWithPhase(this.tones, state, place, off, begun).map(wordsByLikelihoods);
        return [
            this.row(place), ...withPhase(this.state),
            this.wordBy(this.leveled, place), ...withPhase(this.leveled),
        ];
    }

    /** How likely each word is that begins at an element, without its phase. */
    wordBy(state, place) {
        return wordsByElements((element, tone) => state.get(place + element, inState(tone, SENT)));
    }

    /** Writes a word; elements up to its end that nobody wrote are 0. */
    put(begin, word) {
        this.out.add(new Float64Array(Math.max(0, begin + WORD - this.out.end)));
        this.out.rows(begin, begin + WORD).set(PATTERNS[word]);
    }

    /** Counts a position: words that aren't sure count only between sure ones of a lock. */
    count(dx) {
        if (dx === 0) {
            this.doubts += 1;
            return;
        }
        this.sure += 1;
        this.unsure += Math.max(0, this.doubts);
        this.doubts = 0;
        this.phases = dx === PHASING_TWO ? this.phases + 1 : 0;
        this.phasing += dx === PHASING_TWO && this.phases % 2 === 0 ? 1 : 0;
    }

    /** How far the middle is from where element `place` was mixed down, in Hz. */
    off(place) {
        const { first, last } = this.stretches[0];
        const total = { real: 0, imaginary: 0 };
        const column = this.exchanged ? 2 : 0;
        let [count, middles] = [0, 0];
        for (let at = place - NEAREST * TURN; at <= place + ON * TURN; at += TURN) {
            if (at >= Math.max(first, this.slopes.first) && at < last) {
                total.real += this.slopes.get(at, column);
                total.imaginary += this.slopes.get(at, column + 1);
                middles += this.mixedBy.get(at);
                count += 1;
            }
        }
        if (count === 0) {
            return 0;
        }
        this.middle = middles / count + offBySlope(total);
        return this.offAt(place);
    }

    offAt(place) {
        return this.middle === null ? 0 : this.middle - this.mixedBy.get(place);
    }
}

/** The words of a pair; behind an end nothing is sent again. */
function pairOf(best) {
    return best === PAIRS - 1 ? [PHASING_ONE, 0] : [DX[best], RX[best]];
}
