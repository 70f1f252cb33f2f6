// What is refused: a box for each station and for each subject of the chosen frequency, and a line
// above the messages of all that is refused, with a way to lift it.
import { button, FREQUENCIES, made } from './messages.js';
import { isVital, LETTERS, subjectName } from './subjects.js';

/** Makes the boxes of a kind, Station or Subject; `onChange` gets a letter and whether it is refused. */
export function makeBoxes(place, kind, onChange) {
    place.replaceChildren(...LETTERS.map((letter) => boxOf(kind, letter, onChange)));
}

/** Shows which letters are refused. */
export function checkBoxes(place, refused) {
    for (const box of place.querySelectorAll('input')) box.checked = refused.includes(box.value);
}

function boxOf(kind, letter, onChange) {
    const box = made('input', '');
    box.type = 'checkbox';
    box.value = letter;
    box.disabled = kind === 'Subject' && isVital(letter);
    box.addEventListener('change', () => onChange(letter, box.checked));
    const label = made('label', '', box, ` ${letter}`);
    if (kind === 'Subject') label.append(` ${subjectName(letter)}${box.disabled ? " (can't be refused)" : ''}`);
    return label;
}

/** All that is refused, each a channel, a kind, a letter and its words. */
export function refusalsOf(refused) {
    return refused.flatMap(({ stations, subjects }, channel) => [
        ...stations.map((letter) => ({ channel, kind: 'Station', letter, words: `station ${letter}` })),
        ...subjects.map((letter) => ({ channel, kind: 'Subject', letter, words: `${letter} ${subjectName(letter)}` })),
    ]);
}

const isSame = (one, other) => one.channel === other.channel && one.kind === other.kind && one.letter === other.letter;

/** Shows what is refused: by the user, who may lift it by `onLift`, and by the file that is heard. */
export function showRefusals(place, refused, here, onLift) {
    const users = refusalsOf(refused);
    const files = refusalsOf(here).filter((one) => !users.some((other) => isSame(one, other)));
    const lines = refused.map((_, channel) => lineOf(channel, users, onLift)).filter((line) => line !== null);
    if (users.length > 1) lines.push(button('Lift all refusals', () => onLift(users)));
    if (files.length > 0) {
        const words = files.map(({ channel, words: said }) => `${said} on ${FREQUENCIES[channel]}`).join(', ');
        lines.push(made('p', '', `Until its end the file that is heard refuses ${words}.`));
    }
    place.replaceChildren(...lines);
    place.hidden = lines.length === 0;
}

function lineOf(channel, users, onLift) {
    const here = users.filter((one) => one.channel === channel);
    if (here.length === 0) return null;
    const parts = here.map((one) => {
        const lift = button('Lift', () => onLift([one]));
        lift.setAttribute('aria-label', `Accept ${one.words} on ${FREQUENCIES[channel]} again`);
        return made('span', 'refusal', `${one.words} `, lift);
    });
    return made('p', 'row', made('b', '', `Refused on ${FREQUENCIES[channel]}:`), ...parts);
}
