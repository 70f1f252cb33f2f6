// A look at the text as it arrives, over both sendings. It is the page's own and no part of the
// receiver: it shows letters before a message is over, and what is no message. The log decides.

// The words that show something, of seven elements: the letter, and the figure where it prints one.
const WORDS = new Map(Object.entries({
    '1110001': ['A', '-'], '0100111': ['B', '?'], '1011100': ['C', ':'], '1100101': ['D'],
    '0110101': ['E', '3'], '1101100': ['F'], '1010110': ['G'], '1001011': ['H'],
    '1011001': ['I', '8'], '1110100': ['J'], '0111100': ['K', '('], '1010011': ['L', ')'],
    '1001110': ['M', '.'], '1001101': ['N', ','], '1000111': ['O', '9'], '1011010': ['P', '0'],
    '0111010': ['Q', '1'], '1010101': ['R', '4'], '1101001': ['S', "'"], '0010111': ['T', '5'],
    '0111001': ['U', '7'], '0011110': ['V', '='], '1110010': ['W', '2'], '0101110': ['X', '/'],
    '1101010': ['Y', '6'], '1100011': ['Z', '+'], '0011011': ['\n', '\n'],
    '0011101': [' ', ' '],
}));
const TO_LETTERS = '0101101';
const TO_FIGURES = '0110110';
const PHASING = '01100111111000'.repeat(2);
const WORD = 7;
const APART = 5;   // words from the first sending of a position to its second one
const WATCHED = 64;
const LOST = 40;   // so many wrong words of the last 64 end the look

const isRight = (word) => word.split('1').length - 1 === 4;

/** The text of one channel: it begins behind a phasing, and ends where words are no words. */
export class Look {
    #digits = '';   // those that are no whole word yet
    #words = null;  // the words since the phasing, as far as they are needed; null without a lock
    #wrong = [];
    #isFigures = false;

    get isLocked() {
        return this.#words !== null;
    }

    /** Takes elements, as digits: the text that they show. */
    push(digits) {
        let text = '';
        for (const digit of digits) {
            this.#digits += digit;
            text += this.#words === null ? this.#hunt() : this.#read();
        }
        return text;
    }

    #hunt() {
        this.#digits = this.#digits.slice(-PHASING.length);
        if (this.#digits !== PHASING) return '';
        this.#digits = '';
        this.#words = [];
        this.#wrong = [];
        this.#isFigures = false;
        return '\n';
    }

    #read() {
        if (this.#digits.length < WORD) return '';
        this.#words.push(this.#digits);
        this.#wrong = [...this.#wrong, !isRight(this.#digits)].slice(-WATCHED);
        this.#digits = '';
        const text = this.#words.length % 2 === 0 ? this.#pair() : '';
        if (this.#wrong.filter(Boolean).length >= LOST) this.#words = null;
        return text;
    }

    /** Words come as DX, RX, DX, RX: the newest is an RX, and its DX came five words before it. */
    #pair() {
        if (this.#words.length <= APART) return '';
        const [first, second] = [this.#words.at(-1 - APART), this.#words.at(-1)];
        this.#words = this.#words.slice(-2 * APART);
        if (isRight(first)) return this.#shown(first);
        return isRight(second) ? this.#shown(second) : '*';
    }

    #shown(word) {
        if (word === TO_LETTERS || word === TO_FIGURES) {
            this.#isFigures = word === TO_FIGURES;
            return '';
        }
        const signs = WORDS.get(word);
        return signs === undefined ? '' : signs[this.#isFigures ? 1 : 0] ?? '';
    }
}
