// What went wrong, in words on the page.

/** A fault that has words for who uses the page. */
export class PageFault extends Error {}

export class Faults {
    #place;

    constructor(place) {
        this.#place = place;
    }

    /** Does something, and shows the words of its fault. */
    async try(action) {
        try {
            await action();
        } catch (fault) {
            this.tell(fault);
        }
    }

    /** Shows the words of a fault; one that has none is an error of the page. */
    tell(fault) {
        if (fault instanceof PageFault) {
            this.show(fault.message);
            return;
        }
        this.show(`Something went wrong: ${fault?.message ?? fault}. Reload the page; what was received is kept.`);
        console.error(fault);
    }

    /** Shows words, once, until somebody closes them. */
    show(text) {
        const shown = [...this.#place.querySelectorAll('span')].some((one) => one.textContent === text);
        if (shown) return;
        const line = document.createElement('p');
        line.className = 'fault';
        const words = document.createElement('span');
        words.textContent = text;
        const button = document.createElement('button');
        button.type = 'button';
        button.textContent = 'Close';
        button.addEventListener('click', () => line.remove());
        line.append(words, button);
        this.#place.append(line);
    }
}
