// The power of real samples at each frequency, by the Fourier transform of any size.

/** The spectrum of `size` samples. */
export class Fourier {
    constructor(size) {
        this.size = size;
        this.isEven = size % 2 === 0;
        this.transform = new Transform(this.isEven ? size / 2 : size);
        this.turns = rootsOfUnity(size);
    }

    /** The power at each frequency from 0 to half the rate. */
    power(samples) {
        const { from } = this.transform;
        if (!this.isEven) {
            from.real.set(samples);
            from.imaginary.fill(0);
            const { real, imaginary } = this.transform.run();
            const half = real.subarray(0, (this.size + 1) / 2);
            return half.map((one, place) => one ** 2 + imaginary[place] ** 2);
        }
        for (let place = 0; place < this.size / 2; place++) {
            from.real[place] = samples[2 * place];
            from.imaginary[place] = samples[2 * place + 1];
        }
        return this.powerOfHalves(this.transform.run());
    }

    /** The power, where every second sample was taken as the imaginary part of the one before. */
    powerOfHalves({ real, imaginary }) {
        const half = this.size / 2;
        const power = new Float64Array(half + 1);
        for (let place = 0; place <= half; place++) {
            const one = place % half;
            const other = (half - place) % half;
            const evenReal = (real[one] + real[other]) / 2;
            const evenImaginary = (imaginary[one] - imaginary[other]) / 2;
            const oddReal = (imaginary[one] + imaginary[other]) / 2;
            const oddImaginary = (real[other] - real[one]) / 2;
            const cosine = this.turns.real[place];
            const sine = this.turns.imaginary[place];
            power[place] = (evenReal + oddReal * cosine - oddImaginary * sine) ** 2
                + (evenImaginary + oddReal * sine + oddImaginary * cosine) ** 2;
        }
        return power;
    }
}

/** The transform of complex samples, by the factors of their number (Cooley and Tukey 1965). */
class Transform {
    constructor(size) {
        this.size = size;
        this.factors = primeFactors(size);
        this.turns = rootsOfUnity(size);
        this.from = complexes(size);
        this.to = complexes(size);
    }

    /** The transform of what stands in `from`. */
    run() {
        let length = 1;
        for (const factor of this.factors) {
            if (factor === 2) {
                this.joinPairs(length);
            } else {
                this.join(length, factor);
            }
            [this.from, this.to] = [this.to, this.from];
            length *= factor;
        }
        return this.from;
    }

    /**
     * Joins transforms of `length` samples, two by two. Of `count` transforms that come out, number
     * r is that of each count-th sample from the r-th on.
     */
    joinPairs(length) {
        const { from, to, turns } = this;
        const count = this.size / (2 * length);
        for (let frequency = 0; frequency < length; frequency++) {
            const cosine = turns.real[frequency * count];
            const sine = turns.imaginary[frequency * count];
            for (let one = 0; one < count; one++) {
                const first = one * length + frequency;
                const second = first + count * length;
                const real = from.real[second] * cosine - from.imaginary[second] * sine;
                const imaginary = from.real[second] * sine + from.imaginary[second] * cosine;
                const place = first + one * length;
                to.real[place] = from.real[first] + real;
                to.imaginary[place] = from.imaginary[first] + imaginary;
                to.real[place + length] = from.real[first] - real;
                to.imaginary[place + length] = from.imaginary[first] - imaginary;
            }
        }
    }

    /** The same, `factor` by `factor`. */
    join(length, factor) {
        const count = this.size / (factor * length);
        for (let one = 0; one < count; one++) {
            for (let place = 0; place < factor * length; place++) {
                const to = one * factor * length + place;
                this.joinOne(one * length + place % length, count * length, factor, place * count, to);
            }
        }
    }

    /** One frequency: a sum over each `apart`-th from the first on, each turned by `step` more. */
    joinOne(first, apart, factor, step, place) {
        const { from, to, turns } = this;
        let [real, imaginary, turn] = [0, 0, 0];
        for (let part = 0, at = first; part < factor; part++, at += apart) {
            real += from.real[at] * turns.real[turn] - from.imaginary[at] * turns.imaginary[turn];
            imaginary += from.real[at] * turns.imaginary[turn] + from.imaginary[at] * turns.real[turn];
            turn += step;
            turn -= turn >= this.size ? this.size : 0;
        }
        to.real[place] = real;
        to.imaginary[place] = imaginary;
    }
}

function complexes(size) {
    return { real: new Float64Array(size), imaginary: new Float64Array(size) };
}

/** e^(-2 pi i k / size), k from 0 on. */
function rootsOfUnity(size) {
    const roots = complexes(size);
    for (let place = 0; place < size; place++) {
        roots.real[place] = Math.cos(-2 * Math.PI * place / size);
        roots.imaginary[place] = Math.sin(-2 * Math.PI * place / size);
    }
    return roots;
}

/** The prime factors of a number, the least first. */
function primeFactors(number) {
    const factors = [];
    for (let factor = 2; number > 1; factor += 1) {
        while (number % factor === 0) {
            factors.push(factor);
            number /= factor;
        }
    }
    return factors;
}
