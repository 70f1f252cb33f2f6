// The names of stations: a field for each letter. A letter is another station in another sea, so only
// the user knows them.
import { made } from './messages.js';
import { LETTERS } from './subjects.js';

const LONGEST = 40;

export class Names {
    #names;

    /** `onChange` is told where a name is another one. */
    constructor(place, names, onChange) {
        this.#names = { ...names };
        place.replaceChildren(...LETTERS.map((letter) => this.#field(letter, onChange)));
    }

    /** The names that were typed, by letter. */
    get all() {
        return this.#names;
    }

    #field(letter, onChange) {
        const field = made('input', '');
        field.type = 'text';
        field.maxLength = LONGEST;
        field.autocomplete = 'off';
        field.value = this.#names[letter] ?? '';
        field.addEventListener('change', () => {
            const name = field.value.trim();
            if (name === '') delete this.#names[letter];
            else this.#names[letter] = name;
            onChange();
        });
        return made('label', '', `${letter} `, field);
    }
}
