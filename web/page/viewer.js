// Shows a mesh and an answer on it: the picture, the disc of a cut beside it, the list of walks, and the facts.
import { $, element } from './dom.js';
import { onTheme, valueColour } from './paint.js';
import { View } from './view.js';
import { Flat } from './flat.js';
import { WalkList, nameOf } from './walklist.js';

/** Walks are as wide in pixels; with many of them they are narrower. */
const WIDE = 4.2, NARROW = 3, PICKED = 6, MANY_WALKS = 40;

export class Viewer {
  /** @param {boolean} isPlain whether WebGL is left aside */
  constructor(isPlain) {
    this.view = new View($('canvas'), isPlain);
    this.flat = new Flat($('flat-canvas'));
    this.list = new WalkList({
      pick: (k) => this.pickOut(k), hover: (k) => this.point(k), choose: () => this.changed(),
    });
    this.walks = [];
    this.chosen = this.pointed = null;
    this.view.hover = (k, x, y) => this.name(k, x, y);
    onTheme(() => this.list.recolour());
  }

  /** The mesh that is shown, or nothing. */
  get shape() {
    return this.view.shape;
  }

  /** How many vertices the mesh has; none where there is no mesh. */
  get count() {
    return this.shape ? this.shape.points.length / 3 : 0;
  }

  /** Shows a mesh with nothing on it. */
  showMesh(shape, name) {
    this.view.show(shape);
    this.showWalks([]);
    this.showDisc(null);
    this.showScale(null);
    this.describe(`The mesh ${name}`);
  }

  /** Shows no mesh. */
  clear() {
    this.view.clear();
  }

  /** Says what the picture shows to who doesn't see it. */
  describe(text) {
    $('canvas').setAttribute('aria-label', text);
  }

  /** Draws walks in place of those that are there, and lists them. @param {import('./walks.js').Walk[]} walks */
  showWalks(walks) {
    this.walks = walks;
    this.chosen = this.pointed = null;
    this.list.show(walks);
    this.drawWalks();
  }

  drawWalks() {
    if (this.shape) this.view.setWalks(this.walks.map((walk, k) => this.drawn(walk, k)));
    const walk = this.walks[this.chosen];
    $('walk').textContent = walk && walk.vertices.length ? `Vertices: ${walk.vertices.join(' ')}` : '';
    this.list.mark(this.chosen, this.pointed);
  }

  /** Walk k as it is drawn, whether it is picked out or pointed at, another one is picked out, or none. */
  drawn({ edges, isPlain }, k) {
    const isPicked = k === this.chosen || k === this.pointed, isDim = this.chosen !== null && !isPicked;
    const width = isPicked ? PICKED : isPlain || this.walks.length > MANY_WALKS ? NARROW : WIDE;
    return { edges, isPlain, isDim, isPicked, width, isHidden: !this.list.isShown(k) };
  }

  /** Picks walk k out, or no walk where it was picked out before. */
  pickOut(k) {
    this.chosen = this.chosen === k ? null : k;
    this.drawWalks();
  }

  /** Points at walk k, or at none. */
  point(k) {
    if (this.pointed === k) return;
    this.pointed = k;
    this.drawWalks();
  }

  /** Points at walk k, or at none, and says beside the place what it is called. */
  name(k, x, y) {
    const label = $('name');
    label.hidden = k === null;
    if (k !== null) {
      label.textContent = nameOf(this.walks[k], k);
      [label.style.left, label.style.top] = [`${x + 12}px`, `${y + 12}px`];
    }
    this.point(k);
  }

  /** Others of the walks are shown than before. */
  changed() {
    if (this.chosen !== null && !this.list.isShown(this.chosen)) this.chosen = null;
    this.drawWalks();
  }

  /** Marks faces, vertices and edges in place of those that are marked: see View. */
  mark(marks) {
    if (this.shape) this.view.setMarks(marks);
  }

  /** Colours faces by values, as scene.js has them, with a scale beside the picture; or by none. */
  showValues(values) {
    this.view.setValues(values);
    this.showScale(values);
  }

  showScale(values) {
    $('scale').hidden = !values;
    if (!values) return;
    for (const [name, text] of Object.entries({ low: values.low, high: values.high })) {
      $(`scale-${name}`).textContent = String(Number(text.toPrecision(4)));
    }
    $('scale-label').textContent = values.label;
    $('scale-bar').style.background = `linear-gradient(90deg, ${valueColour(0)}, ${valueColour(1)})`;
  }

  /** Shows names with their values. @param {[string, string | number][]} rows */
  showFacts(rows) {
    $('facts').replaceChildren(...rows.flatMap(([name, value]) => [
      element('dt', { textContent: name }), element('dd', { textContent: value }),
    ]));
  }

  /** Shows a disc in the plane beside the mesh, or none. */
  showDisc(disc) {
    document.body.classList.toggle('cut', Boolean(disc));
    $('flat').hidden = !disc;
    this.flat.show(disc);
  }
}
