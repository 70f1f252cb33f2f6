// Tries the alarm: what rings, from when on, until when; its choice, and notes to the system.
import assert from 'node:assert/strict';
import { path } from '../waves.mjs';

/** Counts what sounds, and what is notified. */
const WATCHED = `
    window.sounding = 0;
    const [start, stop] = ['start', 'stop'].map((name) => AudioBufferSourceNode.prototype[name]);
    AudioBufferSourceNode.prototype.start = function () { window.sounding += 1; return start.call(this); };
    AudioBufferSourceNode.prototype.stop = function () { window.sounding -= 1; return stop.call(this); };
    window.notified = [];
    const Real = window.Notification;
    window.Notification = class { constructor(title, { body }) { window.notified.push([title, body]); }
        static get permission() { return Real.permission; }
        static requestPermission() { return Real.requestPermission(); } };
    true`;

const ringing = "document.getElementById('alarm').hidden === false";

/** How many sounds there are where the alarm rings: one; none where the machine has no sound, of which
 *  Chromium makes one by itself. Then the page has to say that it can't ring. */
async function soundsOfOne(tab, kind) {
    if (kind === 'chromium') return 1;
    const canSound = await tab.value(`new Promise((resolve) => {
        const context = new AudioContext();
        context.resume().then(() => resolve(true));
        setTimeout(resolve, 4000, false);
    })`);
    if (!canSound) console.log(`ci/web: ${kind}: alarm: this machine has no sound, and the page says so`);
    return canSound ? 1 : 0;
}

/** The alarm is on: it sounds, or the page says that it can't. */
async function untilRinging(tab, sounds) {
    await tab.until(`window.sounding === ${sounds}`);
    assert.equal(await tab.value("document.getElementById('can-ring').hidden", false), sounds === 1);
}

async function triesRinging({ tab, kind }) {
    await tab.value(WATCHED, false);
    assert.equal(await tab.value(ringing, false), false);
    await tab.giveFiles('#file', path('number-00.air'));
    await tab.untilEnded(1);
    assert.equal(await tab.value(ringing, false), true);
    assert.match(await tab.textOf('alarm-words'), /^Alarm: E[A-Z]00.* It rings until marked as read\.$/);
    assert.equal((await tab.textsOf('.vital.unread')).length, 3);
    if (kind === 'chromium') {
        assert.equal(await tab.value('window.sounding', false), 0, 'no page rings before it is touched');
        assert.equal(await tab.value("document.getElementById('can-ring').hidden", false), false);
    }
    await tab.touch();
    const sounds = await soundsOfOne(tab, kind);
    await untilRinging(tab, sounds);
    for (let left = 3; left > 0; left--) {
        assert.equal(await tab.value('window.sounding'), sounds);
        await tab.press('.unread button');
    }
    assert.equal(await tab.value('window.sounding'), 0);
    assert.equal(await tab.value(ringing), false);
}

async function triesChoice({ tab }) {
    await tab.hear(path('two-messages.air'));
    assert.equal(await tab.value(ringing), false, 'A and B ring only where that is chosen');
    await tab.press("#rings input[value='B']");
    assert.equal(await tab.value(ringing), true);
    assert.match(await tab.textOf('alarm-words'), /^Alarm: EB02\./);
    await tab.press('#alarm-read');
    assert.equal(await tab.value(ringing), false);
    await tab.loadAgain();
    assert.equal(await tab.value(`document.querySelector("#rings input[value='B']").checked`), true);
    assert.equal(await tab.value(ringing), false);
    await tab.forgetFaults();
}

/** What wasn't marked rings again after a reload, once the page is touched. */
async function triesReload({ tab, kind }) {
    await tab.press("#rings input[value='A']");
    await tab.until(ringing);
    await tab.loadAgain();
    await tab.value(WATCHED, false);
    assert.equal(await tab.value(ringing), true);
    await tab.touch();
    const sounds = await soundsOfOne(tab, kind);
    await untilRinging(tab, sounds);
    await tab.press('#try-alarm');
    assert.equal(await tab.value('window.sounding'), sounds);
    await tab.press('#read-all');
    await tab.until('window.sounding === 0');
    await tab.press('#try-alarm');
    assert.equal(await tab.value('window.sounding'), sounds);
    await tab.until('window.sounding === 0');
}

async function triesNotes({ browser, tab }) {
    await browser.allow('notifications');
    await tab.press('#notifies');
    await tab.until("document.getElementById('notifies').checked");
    await tab.hear(path('number-00.air'));
    const [first] = await tab.value('window.notified');
    assert.match(first[0], /^NAVTEX E[A-Z]00$/);
    await tab.forgetFaults();
}

async function triesNames({ tab }) {
    await tab.value(`(() => {
        const field = [...document.querySelectorAll('#names label')].find((one) => one.textContent === 'E ').lastChild;
        field.value = 'Niton';
        field.dispatchEvent(new Event('change', { bubbles: true }));
    })()`);
    assert.match((await tab.titles())[0], /station E Niton, /);
    await tab.loadAgain();
    assert.match((await tab.titles())[0], /station E Niton, /);
}

async function triesChosen({ tab }) {
    const count = (await tab.titles()).length;
    await tab.set('subject', 'B');
    assert.deepEqual((await tab.titles()).map((title) => title.slice(0, 4)), ['EB02']);
    assert.match(await tab.textOf('counts'), /, 1 of them chosen$/);
    await tab.set('subject', '');
    await tab.set('station', 'Q');
    assert.equal((await tab.titles()).length, 0);
    await tab.set('station', 'E');
    await tab.set('age', '12');
    assert.equal((await tab.titles()).length, 0, 'the examples are old');
    await tab.set('age', '');
    await tab.set('station', '');
    assert.equal((await tab.titles()).length, count);
}

export const options = () => ['--autoplay-policy=user-gesture-required'];
export const trials = (kind) => [triesRinging, triesChoice, triesReload, ...(kind === 'chromium' ? [triesNotes] : []),
    triesNames, triesChosen];
