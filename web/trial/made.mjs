// Tries a page that is made, by node: its own scripts and its own module give all logs of examples/.
// usage: node web/trial/made.mjs PAGE
import assert from 'node:assert/strict';
import { readFileSync, readdirSync } from 'node:fs';

const EXAMPLES = new URL('../../examples/', import.meta.url);

const example = (name) => readFileSync(new URL(name, EXAMPLES), 'latin1');
const page = readFileSync(process.argv[2], 'utf8');

/** What stands between a tag of the page and its end. */
function partOf(tag) {
    const begin = page.indexOf(tag);
    assert.ok(begin >= 0, `the page has no ${tag}`);
    return page.slice(begin + tag.length, page.indexOf('</script>', begin));
}

// Each script of the page is run where another one asks for it, so none that needs a browser is.
const pieces = new Map([...partOf('<script type="module">').matchAll(/^scripts\["([^"]+)"\] = ([^]*?^\}\)\(\));$/gm)]
    .map(([, name, script]) => [name, script]));
const scripts = new Proxy({}, {
    get: (made, name) => made[name] ??= new Function('scripts', `return ${pieces.get(name)}`)(scripts),
});
const { Receiver } = scripts['receiver/receiver.js'];
const { AirRun, LineSplitter } = scripts['receiver/air.js'];

// What a page of release 1.2.0 or before prints is the log itself.
const logOf = (entry) => entry.log ?? entry;

const receiver = await Receiver.load(Buffer.from(partOf('<script type="text/plain" id="module">'), 'base64'));
const names = readdirSync(EXAMPLES).filter((name) => name.endsWith('.log')).map((name) => name.slice(0, -4));
assert.ok(names.length > 0);
for (const name of names) {
    receiver.open(0);
    const [run, splitter] = [new AirRun(receiver), new LineSplitter()];
    const entries = splitter.push(example(`${name}.air`)).flatMap((line) => [...run.take(line)]);
    assert.equal([...entries, ...receiver.close()].map(logOf).join(''), example(`${name}.log`), name);
}
console.log(`all ${names.length} logs of examples/ are as they should be`);
