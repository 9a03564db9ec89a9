// The list of walks, and which of them are shown: the first so many, those between two lengths, or all.
import { $, element } from './dom.js';
import { chipOf } from './paint.js';
import { plural } from './units.js';

/** From so many walks on there is something to choose which of them are shown. */
const MANY = 7;

/** The length in a field; where no number stands there, what is given. */
function lengthIn(name, otherwise) {
  const word = $(name).value.trim(), length = Number(word);
  return word && Number.isFinite(length) ? length : otherwise;
}

export class WalkList {
  /** @param {{pick: (k: number) => void, hover: (k: number | null) => void, choose: () => void}} does */
  constructor(does) {
    this.does = does;
    this.walks = [];
    for (const name of ['first', 'from', 'to']) $(name).oninput = () => this.choose();
  }

  /** Lists walks in place of those that are there, and shows all. */
  show(walks) {
    this.walks = walks;
    $('which').hidden = walks.length < MANY;
    $('lengths-field').hidden = walks.some(({ length }) => length === undefined);
    $('first').max = String(walks.length);
    $('first').value = $('first').max;
    $('from').value = $('to').value = '';
    $('list').replaceChildren(...walks.map((walk, k) => this.row(walk, k)));
    this.tell();
  }

  row(walk, k) {
    const button = element('button', { type: 'button' }), chip = element('span', { className: 'chip' });
    button.setAttribute('aria-pressed', 'false');
    chip.style.background = walk.isPlain ? 'currentColor' : chipOf(k);
    button.append(chip, nameOf(walk, k));
    button.onclick = () => this.does.pick(k);
    button.onpointerenter = () => this.does.hover(k);
    button.onpointerleave = () => this.does.hover(null);
    const item = element('li');
    item.append(button);
    return item;
  }

  /** Gives the rows the looks of their walks anew. */
  recolour() {
    this.rows.forEach(({ firstChild: { firstChild: chip } }, k) => {
      if (!this.walks[k].isPlain) chip.style.background = chipOf(k);
    });
  }

  get rows() {
    return [...$('list').children];
  }

  /** Whether walk k is one of those that are to be shown. */
  isShown(k) {
    const { length = 0 } = this.walks[k];
    return k < Number($('first').value) && length >= lengthIn('from', -Infinity) && length <= lengthIn('to', Infinity);
  }

  choose() {
    this.rows.forEach((row, k) => { row.hidden = !this.isShown(k); });
    this.tell();
    this.does.choose();
  }

  tell() {
    const shown = this.walks.filter((_, k) => this.isShown(k)).length;
    $('shown').textContent = `${shown === this.walks.length ? 'All' : shown} of ${plural(this.walks.length, 'line')}`;
  }

  /** Shows which walk is picked out and which one is pointed at. */
  mark(chosen, pointed) {
    this.rows.forEach(({ firstChild: button }, k) => {
      button.setAttribute('aria-pressed', String(k === chosen));
      button.classList.toggle('pointed', k === pointed);
    });
  }
}

/** What a walk is called. */
export const nameOf = ({ isPlain, title }, k) => `${isPlain ? '' : `${k + 1}. `}${title}`;
