// How the page looks: by day or red on black, in usual or in large type.

const WAYS = ['night', 'large'];

export class View {
    #onChange;

    /** `ways` are those that are on; `onChange` gets them where one is changed. */
    constructor(ways, onChange) {
        this.#onChange = onChange;
        for (const way of WAYS) {
            document.getElementById(way).addEventListener('click', () => this.#turn(way));
            this.#set(way, ways.includes(way));
        }
        onChange(this.ways);
    }

    get ways() {
        return WAYS.filter((way) => document.documentElement.classList.contains(way));
    }

    #turn(way) {
        this.#set(way, !this.ways.includes(way));
        this.#onChange(this.ways);
    }

    #set(way, isOn) {
        document.documentElement.classList.toggle(way, isOn);
        document.getElementById(way).setAttribute('aria-pressed', String(isOn));
    }
}
