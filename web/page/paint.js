// Colours and patterns: each walk has both, so that walks can be told apart without their colours.

/**
 * Colours of walks for a light ground and for a dark one. Each is far from the next also for eyes that lack one of the
 * three kinds of cones.
 */
export const WALKS = {
  light: [
    '#c1121f', '#1257a8', '#7a3b1e', '#00727d', '#5c5c00', '#a8327a', '#1b7a2f', '#6b3fa0', '#a85800', '#333a44',
  ],
  dark: [
    '#ff6b6b', '#6db3ff', '#e0a080', '#4fd6e0', '#d6d64f', '#ff8fd0', '#5fd37a', '#c39bff', '#ffb454', '#d0d6de',
  ],
};

/** Shares of a period that are full, from 0: whole, dashes, dots, a dash and a dot. */
export const PATTERNS = [[1], [0.68], [0.42], [0.52, 0.66, 0.86]];

/** What the mesh and its ground are drawn with. */
const THEMES = {
  light: { ground: '#f6f6f3', face: '#edebe0', wire: '#40454d', faint: '#ffffff', fault: '#d3121f', mark: '#14181d' },
  dark: { ground: '#16191d', face: '#58616e', wire: '#0d0f12', faint: '#101317', fault: '#ff5c5c', mark: '#ffffff' },
};

/** The colours of the least and the greatest value: the one is dark and the other light, so no hue has to be told. */
const LEAST = [37, 52, 148], MOST = [255, 245, 170];

/** The colour of a value that is such a part of the way from the least to the greatest. */
export function valueColour(part) {
  const bytes = LEAST.map((low, c) => Math.round(low + part * (MOST[c] - low)));
  return `#${bytes.map((byte) => byte.toString(16).padStart(2, '0')).join('')}`;
}

/** How much of a line is seen through the surface: the less the more lines there are, so that none of them hides it. */
export const seenThrough = (lines) => 0.25 * Math.min(1, Math.sqrt(10 / Math.max(1, lines)));

const dark = globalThis.matchMedia ? matchMedia('(prefers-color-scheme: dark)') : { matches: false };

export const onTheme = (does) => dark.addEventListener('change', does);

export function theme() {
  const name = dark.matches ? 'dark' : 'light';
  return { ...THEMES[name], walks: WALKS[name] };
}

/** A colour `#rrggbb` as three shares. */
export const shares = (colour) => [1, 3, 5].map((at) => parseInt(colour.slice(at, at + 2), 16) / 255);

/** The colour and the pattern of walk k. */
export function styleOf(k) {
  const { walks } = theme();
  return { colour: walks[k % walks.length], pattern: k % PATTERNS.length };
}

/** The look of walk k in a list, as a background. */
export function chipOf(k) {
  const { colour, pattern } = styleOf(k), { faint } = theme();
  let at = 0, full = true;
  const stops = [...PATTERNS[pattern], 1].map((to) => {
    const stop = `${full ? colour : faint} ${at * 16}px ${to * 16}px`;
    [at, full] = [to, !full];
    return stop;
  });
  return `repeating-linear-gradient(90deg, ${stops.join(', ')})`;
}
