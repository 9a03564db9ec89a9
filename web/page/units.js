// Lengths in whole units, and how they are shown.

/** The greatest length of an edge, in units. */
const GREATEST = 4294967295;

/** The most decimals, at most 9, with which an edge of this length has a measure. */
export function decimalsFor(longest) {
  if (!(longest > 0)) return 0;
  return Math.max(0, Math.min(9, Math.floor(Math.log10((0.93 * GREATEST) / longest))));
}

/** A length of so many units of 10^-decimals in words; without decimals it is a whole number, as of edges. */
export function shownLength(units, decimals) {
  if (!decimals) return String(units);
  return String(Number((Number(units) / 10 ** decimals).toPrecision(6)));
}

/** A count with its word. */
export function plural(count, one, many = `${one}s`) {
  return `${Number(count).toLocaleString('en')} ${Number(count) === 1 ? one : many}`;
}
