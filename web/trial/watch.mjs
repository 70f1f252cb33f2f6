// A watch of the built program for a trial: it is fed with messages, killed and started again, and its log is
// torn and replaced meanwhile.
import assert from 'node:assert/strict';
import { spawn, spawnSync } from 'node:child_process';
import { once } from 'node:events';
import { appendFileSync, existsSync, readFileSync, readlinkSync, realpathSync, renameSync, writeFileSync }
    from 'node:fs';
import { setTimeout as pause } from 'node:timers/promises';
import { readKept } from '../follow/kept.js';
import { keptOf } from './kept.mjs';

const READER = new URL('../../ci/log_reader.py', import.meta.url).pathname;
const BEGIN = 1735689600;
const SLOT = 600; // seconds between two messages
const STATIONS = 'ABCDEFGHIJKLMNOPQRSTUVWX';
const PIECE = /.{1,70}/g; // elements of a line
const MIDDLE = 300; // letters, so that the header of a message is behind its half
const LENGTHS = [5, 40, MIDDLE, 2000];
// what a crash leaves behind the last entry, and what somebody writes there
const TAILS = ['[EA02 2025', 'a note\n', '[EA01 2025-01-01 00:40:00 full 0/5]\nTORN\n\n ', '[', '\0\0\0'];

/** Whether a watch can be killed within a put. */
export const hasStrace = spawnSync('strace', ['--version']).status === 0;

/** The program that a process runs, or null where the system doesn't tell it. */
function programOf(pid) {
    try {
        return readlinkSync(`/proc/${pid}/exe`);
    } catch {
        return null;
    }
}

export class Watch {
    log;
    cut = 0;        // starts that cut what a killed watch or somebody left
    torn = 0;       // kills within a put, which left a part of it or a closed gate
    notes = 0;      // notes that were written while a watch ran
    #program;
    #chance;
    #sent = 0;
    #begun = null;  // a message of which half was heard, which is sent again

    constructor(program, log, chance) {
        [this.#program, this.log, this.#chance] = [realpathSync(program), log, chance];
    }

    /** The entries that the log stands for, as the program says. */
    stands() {
        const entries = this.#told(this.#program, ['log', '--kept', '--json']);
        return entries.map(({ place, next, ...entry }) => entry);
    }

    /** The same, as the plain reader says. */
    standsPlainly() {
        return this.#told('python3', ['-B', READER, '--kept', '--json']);
    }

    /** A watch hears two to four messages, and is killed: at a random moment, or within a put. */
    async hearAndBeKilled() {
        const watch = this.#started(this.#chance() < 0.5 ? this.#withinPut() : []);
        const late = setInterval(() => this.#kill(watch.process), 50 + this.#below(450));
        for (let count = 2 + this.#below(3); count > 0; count--) await this.#feed(watch, this.#message());
        const isNoted = this.#chance() < 0.3 && this.#append('a note\n');
        const [, signal] = await watch.ended;
        clearInterval(late);
        assert.equal(signal, 'SIGKILL', watch.said);
        this.cut += watch.said.includes(', and are cut');
        this.notes += isNoted;
        this.torn += !isNoted && existsSync(this.log) && !this.#isAtRest();
    }

    /** A watch whose input ends within a message, which it puts as cut. The next one hears it again. */
    async hearHalf() {
        const watch = this.#started();
        const message = this.#message(MIDDLE);
        this.#begun = message;
        const { moment, lines } = message;
        watch.process.stdin.end([`T ${moment}\n`, ...lines.slice(0, Math.floor(lines.length * 0.8))].join(''));
        assert.deepEqual(await watch.ended, [0, null], watch.said);
        this.cut += watch.said.includes(', and are cut');
    }

    /** Writes behind the log what a crash leaves there, or a note. */
    tear() {
        this.#append(TAILS[this.#below(TAILS.length)]);
    }

    /** The log is renamed, and a new one in its place has its later entries. */
    replace() {
        const moments = this.stands().map(({ moment }) => moment).sort((one, other) => one - other);
        const since = String(moments[Math.floor(moments.length / 2)] ?? 0);
        renameSync(this.log, `${this.log}.old`);
        const kept = this.#output(this.#program, ['log', '--kept', '--since', since, '--keep'],
            readFileSync(`${this.log}.old`));
        writeFileSync(`${this.log}.new`, kept, 'latin1');
        renameSync(`${this.log}.new`, this.log);
    }

    /** Kills a watch, where strace made way for it: before that strace would go on alone. */
    #kill(watch) {
        const place = programOf(watch.pid);
        if (place === null || place === this.#program) watch.kill('SIGKILL');
    }

    #below(most) {
        return Math.floor(this.#chance() * most);
    }

    #output(program, options, input) {
        const { status, stdout, stderr } = spawnSync(program, options, { input, encoding: 'latin1', maxBuffer: 1e9 });
        assert.equal(status, 0, `${program} ${options.join(' ')}: ${stderr}`);
        return stdout;
    }

    #told(program, options) {
        if (!existsSync(this.log)) return [];
        const lines = this.#output(program, options, readFileSync(this.log)).split('\n');
        return lines.filter(Boolean).map((line) => JSON.parse(line));
    }

    /** The words before a program that kill it as it begins some write of its log: a put has three. */
    #withinPut() {
        if (!hasStrace) return [];
        const inject = `inject=pwrite64:signal=SIGKILL:when=${1 + this.#below(9)}`;
        return ['strace', '-D', '-qq', '-o', '/dev/null', '-e', 'trace=pwrite64', '-e', inject];
    }

    /** A watch that was started, with these words before it; what it says on standard error, and how it ended. */
    #started(before = []) {
        const moment = BEGIN + SLOT * this.#sent;
        const [program, ...options] = [...before, this.#program, 'watch', this.log, String(moment)];
        const watch = spawn(program, options, { stdio: ['pipe', 'ignore', 'pipe'] });
        const started = { process: watch, said: '', ended: once(watch, 'close') };
        watch.stderr.on('data', (bytes) => { started.said += bytes; });
        watch.stdin.on('error', () => {}); // it is killed while it is fed
        return started;
    }

    /** Feeds a message in two parts. */
    async #feed({ process: watch }, { moment, lines }) {
        const half = this.#below(lines.length);
        for (const part of [[`T ${moment}\n`, ...lines.slice(0, half)], lines.slice(half)]) {
            if (watch.exitCode === null && watch.signalCode === null) watch.stdin.write(part.join(''));
            await pause(this.#below(40));
        }
    }

    /** Writes behind a log that is at rest; else the bytes could damage it. */
    #append(bytes) {
        const isAtRest = existsSync(this.log) && this.#isAtRest();
        if (isAtRest) appendFileSync(this.log, bytes, 'latin1');
        return isAtRest;
    }

    #isAtRest() {
        const text = readFileSync(this.log, 'latin1');
        return text === keptOf(readKept(text).entries.map(({ log }) => log));
    }

    /** The message that is sent next: its moment, and the lines of its elements. */
    #message(length = LENGTHS[this.#below(LENGTHS.length)]) {
        const at = this.#sent++;
        const moment = BEGIN + SLOT * at;
        if (this.#begun !== null) {
            const { lines } = this.#begun;
            this.#begun = null;
            return { moment, lines };
        }
        const identity = 'ABCEF'[Math.floor(at / 24) % 5] + String((at % 98) + 1).padStart(2, '0');
        const given = `#${identity}\n${this.#text(length)};\n`;
        const name = at % 3 === 0 ? 'B' : `B${at % 3}`;
        const sent = this.#output(this.#program, ['send', STATIONS[at % 24], '0'], given);
        const elements = sent.split('\n').filter((line) => line.startsWith('B ')).map((line) => line.slice(2)).join('');
        const lines = elements.match(PIECE).map((piece) => `${name} ${piece}\n`);
        return { moment, lines };
    }

    /** Lines of random words, of about so many letters; no N and no Z, so that none is NNNN or ZCZC. */
    #text(length) {
        let [text, line] = ['', ''];
        while (text.length + line.length < length) {
            line += Array.from({ length: 1 + this.#below(9) }, () => 'ABCDEFGHIJKLMOPQRSTUVWXY'[this.#below(24)]).join('');
            if (line.length > 50) [text, line] = [`${text}${line}\n`, ''];
            else line += ' ';
        }
        return `${text}${line.trim()}\n`;
    }
}
