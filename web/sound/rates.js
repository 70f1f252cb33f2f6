// How NAVTEX is sent, and how its sound is cut.

export const BAUD = 100;              // elements a second (ITU-R M.540)
export const SHIFT = 170;             // Hz from the lower tone to the upper one (ITU-R M.540)
export const PER = 16;                // samples an element behind the filter
export const INNER_RATE = BAUD * PER; // samples a second there
export const PIECE = 20;              // elements a piece
export const AHEAD = 5;               // pieces that the clock looks ahead

/** How many samples a piece has at this rate. */
export function pieceLength(rate) {
    return Math.trunc(rate * PIECE / BAUD);
}
