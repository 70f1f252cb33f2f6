// Tries how the page looks: tones, names for a screen reader, contrast by day, dark and at night, what stands
// beside its frame on a narrow screen, the clock, what is printed; and keeps pictures.
import assert from 'node:assert/strict';
import { mkdirSync, writeFileSync } from 'node:fs';
import { path, writeWave } from '../waves.mjs';

const LEAST = 4.5; // contrast of a text and what is behind it, as WCAG asks for

/** The texts of the page whose contrast is less than asked, each with its contrast. */
const PALE = `(() => {
    const parsed = (colour) => {
        const [red, green, blue, opacity = 1] = colour.match(/[\\d.]+/g).map(Number);
        return { parts: [red, green, blue], opacity };
    };
    const light = (parts) => parts.map((part) => part / 255)
        .map((part) => (part <= 0.03928 ? part / 12.92 : ((part + 0.055) / 1.055) ** 2.4))
        .reduce((sum, part, at) => sum + part * [0.2126, 0.7152, 0.0722][at], 0);
    const behind = (element) => {
        for (let one = element; one; one = one.parentElement) {
            const { parts, opacity } = parsed(getComputedStyle(one).backgroundColor);
            if (opacity > 0) return parts;
        }
        return [255, 255, 255];
    };
    const walker = document.createTreeWalker(document.body, NodeFilter.SHOW_TEXT);
    const pale = [];
    while (walker.nextNode()) {
        const element = walker.currentNode.parentElement;
        if (walker.currentNode.data.trim() === '' || element.closest('script, [hidden], :disabled')) continue;
        const [one, other] = [light(parsed(getComputedStyle(element).color).parts), light(behind(element))];
        const contrast = (Math.max(one, other) + 0.05) / (Math.min(one, other) + 0.05);
        if (contrast < ${LEAST}) pale.push(contrast.toFixed(2) + ' ' + walker.currentNode.data.trim().slice(0, 40));
    }
    const field = document.querySelector('#began');
    const [one, other] = [light(parsed(getComputedStyle(field, '::placeholder').color).parts), light(behind(field))];
    if ((Math.max(one, other) + 0.05) / (Math.min(one, other) + 0.05) < ${LEAST}) pale.push('placeholder');
    return pale;
})()`;

async function triesContrast({ tab, kind }) {
    await tab.hear(path('heard-badly.air'), path('number-00.air'));
    await tab.press('.unread button');
    await tab.value("document.querySelectorAll('details').forEach((one) => { one.open = true; })");
    await tab.press('#stations input');
    assert.deepEqual(await tab.value(PALE), [], 'by day');
    if (kind === 'chromium') {
        await tab.call('Emulation.setEmulatedMedia', { features: [{ name: 'prefers-color-scheme', value: 'dark' }] });
        assert.deepEqual(await tab.value(PALE), [], 'dark');
        assert.notEqual(await tab.value('getComputedStyle(document.body).backgroundColor'), 'rgb(245, 247, 250)');
        await tab.call('Emulation.setEmulatedMedia', { features: [] });
    }
    await tab.press('#night');
    assert.deepEqual(await tab.value(PALE), [], 'at night');
    await tab.press('#night');
    await tab.press('#stations input');
    await tab.value("document.querySelectorAll('details').forEach((one) => { one.open = false; })");
    await tab.forgetFaults();
}

/** The parts of the page that go over the part around them, each with its pixels beyond it. What stands in a
 *  line of text is broken with it. */
const OVER = `[...document.querySelectorAll('main *, header *, #alarm *, #faults *')].filter((one) =>
    one.offsetParent !== null && one.closest('.away, svg, #waterfall') === null
    && getComputedStyle(one).display !== 'inline').flatMap((one) => {
        const around = one.parentElement;
        const { display, paddingLeft, paddingRight } = getComputedStyle(around);
        const [inner, outer] = [one.getBoundingClientRect(), around.getBoundingClientRect()];
        const beyond = Math.max(inner.right - outer.right + parseFloat(paddingRight),
            outer.left + parseFloat(paddingLeft) - inner.left);
        return ['inline', 'contents'].includes(display) || beyond < 2 ? [] : [one.tagName + ' ' + one.textContent + ' ' + beyond];
    })`;

/** On narrow screens nothing goes over its frame, in usual and in large type, and nobody scrolls sideways. */
export async function expectNarrow(tab) {
    await tab.value("document.querySelectorAll('details').forEach((one) => { one.open = true; })");
    for (const type of ['usual', 'large']) {
        for (const width of [320, 390, 800]) {
            await tab.picture(width, 844, true);
            assert.deepEqual(await tab.value(OVER), [], `${type} type, ${width} pixels`);
            assert.equal(await tab.value('document.documentElement.scrollWidth'), width, `${type} type`);
        }
        await tab.press('#large');
    }
    await tab.call('Emulation.clearDeviceMetricsOverride', {});
    await tab.value("document.querySelectorAll('details').forEach((one) => { one.open = false; })");
}

/** The receiver, with an alarm and a fault. */
async function triesNarrow({ tab, room }) {
    writeFileSync(`${room}/noise.txt`, 'Buoy 7 is unlit\n');
    await tab.hear(`${room}/noise.txt`);
    assert.equal(await tab.value("document.getElementById('alarm').hidden"), false);
    await expectNarrow(tab);
    await tab.forgetFaults();
}

/** The two lines by the keys, by the mouse, and the number beside them. */
async function triesTones({ tab }) {
    const key = (name) => tab.value("document.getElementById('waterfall')"
        + `.dispatchEvent(new KeyboardEvent('keydown', { key: '${name}', cancelable: true }))`);
    const middle = () => tab.value("Number(document.getElementById('middle').value)");
    const before = await middle();
    await key('ArrowRight');
    await key('PageDown');
    assert.equal(await middle(), before + 5 - 50);
    assert.equal(await tab.value("document.getElementById('search').checked"), false);
    await dragTo(tab, 0.5);
    assert.ok(Math.abs(await middle() - 1900) < 10);
    await tab.set('channel', '1');
    assert.equal(await middle(), 1000, 'each frequency has tones of its own');
    await tab.set('channel', '0');
    assert.ok(Math.abs(await middle() - 1900) < 10);
    await tab.press('#search');
}

/** Drags the lines to a part of the waterfall's width. */
async function dragTo(tab, part) {
    await tab.middleOf('#waterfall');
    const [left, top, width] = await tab.value(`(() => {
        const place = document.getElementById('waterfall').getBoundingClientRect();
        return [place.left, place.top, place.width];
    })()`);
    const mouse = (type, x) => tab.call('Input.dispatchMouseEvent',
        { type, x: left + x * width, y: top + 20, button: 'left', buttons: 1, clickCount: 1 });
    await mouse('mousePressed', 0.3);
    await mouse('mouseMoved', 0.4);
    await mouse('mouseMoved', part);
    await mouse('mouseReleased', part);
}

/** Each thing that can be used has a name that a screen reader says. */
async function triesNames({ tab }) {
    const used = new Set(['button', 'checkbox', 'combobox', 'slider', 'spinbutton', 'textbox', 'link', 'meter',
        'searchbox']);
    const { nodes } = await tab.call('Accessibility.getFullAXTree');
    const found = nodes.filter(({ ignored, role }) => !ignored && used.has(role?.value));
    assert.ok(found.length > 10);
    for (const { role, name } of found) assert.ok(name?.value, `a ${role.value} has no name`);
}

async function triesClock({ tab }) {
    const said = await tab.textOf('clock');
    const moment = Date.parse(said.replace(' UTC', 'Z').replace(' ', 'T'));
    assert.ok(Math.abs(Date.now() - moment) < 3000, said);
}

/** What is printed is the messages that are chosen, and nothing else. */
async function triesPrint({ tab }) {
    await tab.call('Emulation.setEmulatedMedia', { media: 'print' });
    const shown = await tab.value('document.body.innerText');
    await tab.call('Emulation.setEmulatedMedia', { media: '' });
    assert.match(shown, /^\s*(New )?E/);
    assert.match(shown, /ABCDEFGHIJKLMNOPQRSTUVWX/);
    assert.doesNotMatch(shown, /Listen|Refuse|Mark as read|Search|proved/);
}

async function keepsPictures({ tab, room, pictures }) {
    if (!pictures) return;
    mkdirSync(pictures, { recursive: true });
    const keep = async (name, ...size) => {
        await tab.value('window.scrollTo(0, 0)');
        writeFileSync(`${pictures}/${name}.png`, await tab.picture(...size));
    };
    writeWave(`${room}/pictured.wav`, 'slip.air', { rate: 8000 });
    await tab.hear(`${room}/pictured.wav`);
    await tab.forgetFaults();
    await tab.press("#stations input[value='Q']");
    await tab.set('channel', '0');
    await keep('day', 1280, 1000, false);
    await keep('phone', 390, 844, true);
    await tab.press('#night');
    await keep('night', 1280, 1000, false);
    await tab.press('#large');
    await keep('large', 390, 844, true);
    await tab.press('#large');
    await tab.press('#night');
    await tab.call('Emulation.setEmulatedMedia', { features: [{ name: 'prefers-color-scheme', value: 'dark' }] });
    await keep('dark', 1280, 1000, false);
}

export const trials = (kind) => (kind === 'chromium'
    ? [triesContrast, triesNarrow, triesTones, triesNames, triesClock, triesPrint, keepsPictures] : [triesContrast, triesClock]);
