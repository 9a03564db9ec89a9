// Small handles: a slider over the lengths of a basis, the cycles below it in red, and a button that takes them off.
import { $, save } from './dom.js';
import { tell } from './finder.js';
import { plural, shownLength } from './units.js';

/** What was taken off and what is left, in words; lengths are in units of 10^-decimals. */
export function taken({ taken: cycles, oneSided, left }, decimals) {
  const counts = [[cycles.length - oneSided, 'handle'], [oneSided, 'crosscap']].filter(([count]) => count);
  const what = counts.map(([count, noun]) => plural(count, noun)).join(' and ');
  const rest = left === null ? 'Now every cycle separates'
    : `The shortest cycle left that doesn't separate has ${shownLength(left, decimals)}`;
  return `${what} taken off. ${rest}.`;
}

/** The name of a file without its handles. */
const nameWithout = (name) => `${name.replace(/(-without-handles)?\.\w+$/, '')}-without-handles.off`;

export class Handles {
  /** @param {import('./finder.js').Finder} finder */
  constructor(finder) {
    this.finder = finder;
    this.cycles = [];
    this.bounds = [Infinity];
    finder.shown = (found) => this.offer(found);
    $('handles-bound').oninput = () => this.mark();
    $('handles-remove').onclick = () => this.remove();
    $('save-mesh').onclick = () => save(finder.mesh.text, finder.mesh.name);
  }

  /** Offers the cycles of a basis; nothing where another answer is shown, or none, or a hub joins holes. */
  offer(found) {
    this.cycles = found && $('command').value === 'basis' && !this.finder.hub ? found.walks : [];
    const lengths = [...new Set(this.cycles.map(({ units }) => units))];
    this.bounds = [...lengths.sort((a, b) => a - b), Infinity];
    $('handles-bound').max = String(this.bounds.length - 1);
    $('handles-bound').value = '0';
    $('handles').hidden = !this.cycles.length;
    if (this.cycles.length) this.mark();
  }

  /** The bound that the slider shows, in units. */
  get bound() {
    return this.bounds[Number($('handles-bound').value)];
  }

  /** Shows the cycles below the bound in red. */
  mark() {
    const { bound, finder } = this, short = this.cycles.filter(({ units }) => units < bound);
    const below = bound === Infinity ? 'All' : `Shorter than ${shownLength(bound, finder.mesh.decimals)}`;
    const said = `${below}: ${short.length ? `${plural(short.length, 'cycle')}, in red` : 'none'}`;
    $('handles-said').textContent = said;
    $('handles-bound').setAttribute('aria-valuetext', said);
    $('handles-remove').disabled = !short.length;
    finder.showMarks({ edges: short.flatMap(({ edges }) => [...edges]), isFault: short.length > 0 });
  }

  /** Takes off the handles below the bound, and finds the basis of what is left. */
  async remove() {
    const { finder, bound } = this, { decimals, name } = finder.mesh, { lengths } = finder.answer;
    let words = '';
    await finder.begin(async () => {
      tell('Taking off handles');
      const shape = await finder.session.takeOff(bound, lengths, nameWithout(name));
      words = taken(shape, decimals);
      finder.mesh.name = nameWithout(name);
      finder.takeShape(shape);
      Object.assign(finder.mesh, { text: shape.text, measured: lengths === 'unit' ? undefined : decimals });
    });
    if (words) await finder.find(words);
  }
}
