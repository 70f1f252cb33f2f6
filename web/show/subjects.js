// The names of subjects. The receiver knows only letters, and that A, B, D and L can't be refused.
// Source: Recommendation ITU-R M.540-2, "Operational and technical characteristics for an automated
// direct-printing telegraph system for promulgation of navigational and meteorological warnings and
// urgent information to ships", the list of subject indicator characters (B2). Other letters have no
// meaning there. Decca and Omega, of which G and I tell, are switched off today.

const NAMES = new Map([
    ['A', 'navigational warning'],
    ['B', 'meteorological warning'],
    ['C', 'ice report'],
    ['D', 'search and rescue information'],
    ['E', 'meteorological forecast'],
    ['F', 'pilot service message'],
    ['G', 'Decca message'],
    ['H', 'Loran message'],
    ['I', 'Omega message'],
    ['J', 'satellite navigation message'],
    ['K', 'other electronic navigation message'],
    ['L', 'navigational warning, additional to A'],
    ['V', 'special service'],
    ['W', 'special service'],
    ['X', 'special service'],
    ['Y', 'special service'],
    ['Z', 'no message on hand'],
]);

export const LETTERS = [...'ABCDEFGHIJKLMNOPQRSTUVWXYZ'];
const VITAL = new Set('ABDL');

export function subjectName(letter) {
    return NAMES.get(letter) ?? 'subject without a name';
}

/** Whether the receiver refuses to refuse it. */
export function isVital(letter) {
    return VITAL.has(letter);
}
