// How soon a page answers while it does something, on a busy machine too. The time in which its thread waited for a
// processor counts for nothing, and neither does how late an empty page is, in another window of the same browser
// in the same seconds. Chromium tells too how long the longest task of the page's thread was, in time of a
// processor, which no other program on the machine makes longer.
import assert from 'node:assert/strict';
import { Waits } from './waits.mjs';

const ANSWER = 100; // milliseconds in which the page answers
const EVERY = 10;   // milliseconds between two looks
const PART = 0.01;  // the part of the time in which it may answer later than the empty page does
const LOOKS = 0.05; // the part of all looks that come at least, also on a busy machine

const LOOKING = `(() => {
    window.looks = [performance.now()];
    window.looking = setInterval(() => window.looks.push(performance.now()), ${EVERY});
})()`;
const LOOKED = '(clearInterval(window.looking), window.looks.map((look) => performance.timeOrigin + look))';

/** The milliseconds from look to look, without those in which the page waited for a processor. */
function gapsOf(looks, waits) {
    const whole = looks.at(-1) - looks[0];
    assert.ok(looks.length > (LOOKS * whole) / EVERY, `${looks.length} looks in ${whole} ms: the window is held back`);
    return looks.slice(1).map((look, at) => {
        const gap = look - looks[at];
        return gap <= ANSWER ? gap : Math.max(0, gap - waits.between(looks[at], look));
    });
}

/** The part of the time in which somebody who presses something waits longer than ANSWER. */
function slowPart(looks, gaps) {
    const late = gaps.reduce((sum, gap) => sum + Math.max(0, gap - ANSWER), 0);
    return late / (looks.at(-1) - looks[0]);
}

/** Looks at the page while an action goes on: `page` and `empty`, the part of the time in which each is
 *  slow; the milliseconds of each of the `tasks` of the page's thread, or null; and all of it in words. */
export async function answersDuring(browser, tab, action) {
    const beside = await browser.tab({ isWindow: true });
    const waits = [new Waits(await tab.pid()), new Waits(await beside.pid())];
    try {
        await tab.watchTasks?.();
        for (const one of [beside, tab]) await one.value(LOOKING);
        await action();
        const all = [await tab.value(LOOKED), await beside.value(LOOKED)];
        const tasks = await tab.tasks?.() ?? null;
        const gaps = all.map((looks, at) => gapsOf(looks, waits[at]));
        const [page, empty] = all.map((looks, at) => slowPart(looks, gaps[at]));
        const [most, others] = gaps.map((each) => Math.max(...each).toFixed(0));
        const words = `late by more than ${ANSWER} ms in ${(100 * page).toFixed(2)} % of the time, an empty page in `
            + `${(100 * empty).toFixed(2)} %; at most ${most} ms and ${others}`
            + (tasks === null ? '' : `; longest task ${longest(tasks).toFixed(0)} ms of a processor`);
        return { page, empty, tasks, words };
    } finally {
        for (const each of waits) each.stop();
        await beside.close();
    }
}

const longest = (tasks) => Math.max(0, ...tasks);

/** Whether the page answers as soon as it should. */
export const isSoon = ({ page, empty, tasks }) => page - empty <= PART && longest(tasks ?? []) <= ANSWER;

/** Fails where the page is slow while an action goes on; answers what was seen in words. */
export async function expectSoon(browser, tab, what, action) {
    const found = await answersDuring(browser, tab, action);
    assert.ok(isSoon(found), `${what}: ${found.words}`);
    return `${what}: ${found.words}`;
}
