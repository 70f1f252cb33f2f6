// Rows of numbers, by number, of which the last ones are kept.

const CAPACITY = 4096;     // rows that have room
const KEPT_ROWS = 1200;    // at least so many of the last ones are kept

export class Store {
    /** Rows of so many numbers each. */
    constructor(width) {
        this.width = width;
        this.numbers = new Float64Array(CAPACITY * width);
        this.first = 0;   // the number of the first row that is kept
        this.end = 0;     // that of the next one
    }

    /** Adds rows, which stand one behind the other. */
    add(rows) {
        const count = rows.length / this.width;
        if (this.end - this.first + count > CAPACITY) {
            const drop = this.end - this.first - KEPT_ROWS;
            this.numbers.copyWithin(0, drop * this.width, (drop + KEPT_ROWS) * this.width);
            this.first += drop;
        }
        this.numbers.set(rows, this.at(this.end));
        this.end += count;
    }

    /** Where a row begins among the numbers. */
    at(row) {
        return (row - this.first) * this.width;
    }

    /** One number of a row. */
    get(row, column = 0) {
        return this.numbers[this.at(row) + column];
    }

    /** The numbers of the rows from `first` on and before `last`. */
    rows(first, last) {
        return this.numbers.subarray(this.at(Math.max(first, this.first)), this.at(last));
    }
}
