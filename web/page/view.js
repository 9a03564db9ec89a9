// The picture of a mesh: what is on it, from where it is seen, and which vertex is where.
import { Camera } from './camera.js';
import { GlPainter } from './gl.js';
import { PlainPainter } from './plain.js';
import { onTheme, styleOf, theme } from './paint.js';

const KEYS = { ArrowLeft: [1, 0], ArrowRight: [-1, 0], ArrowUp: [0, 1], ArrowDown: [0, -1] };
const NO_MARKS = { faces: [], vertices: [], edges: [], isFault: false };

/** How near in pixels a vertex is that is meant by a place beside the surface, and a line by a place beside it. */
const NEAR = 40, BESIDE = 6;

/** How far a place is from the segment between two others. */
function fromSegment([ax, ay], [bx, by], x, y) {
  const dx = bx - ax, dy = by - ay, size = dx * dx + dy * dy;
  const part = size ? Math.max(0, Math.min(1, ((x - ax) * dx + (y - ay) * dy) / size)) : 0;
  return Math.hypot(ax + part * dx - x, ay + part * dy - y);
}

export class View {
  /** @param {HTMLCanvasElement} canvas @param {boolean} isPlain whether WebGL is left aside */
  constructor(canvas, isPlain) {
    this.canvas = canvas;
    this.camera = new Camera();
    this.walks = [];
    this.marks = NO_MARKS;
    this.pick = this.hover = null;
    const gl = isPlain ? null : canvas.getContext('webgl2', { antialias: true, alpha: false });
    this.painter = gl ? new GlPainter(gl) : new PlainPainter(canvas.getContext('2d'));
    new ResizeObserver(() => this.draw()).observe(canvas);
    onTheme(() => this.setLines());
    this.listen();
  }

  /** Shows a mesh, moved to the middle and to a radius of 1. */
  show(shape) {
    const { points } = shape, low = [Infinity, Infinity, Infinity], high = [-Infinity, -Infinity, -Infinity];
    for (let k = 0; k < points.length; k++) {
      if (points[k] < low[k % 3]) low[k % 3] = points[k];
      if (points[k] > high[k % 3]) high[k % 3] = points[k];
    }
    const middle = low.map((x, c) => (x + high[c]) / 2);
    const radius = Math.hypot(...low.map((x, c) => high[c] - x)) / 2 || 1;
    this.shape = shape;
    this.points = points.map((x, k) => (x - middle[k % 3]) / radius);
    this.painter.show(shape, this.points);
    this.walks = [];
    this.setMarks({});
    this.camera.reset();
  }

  /** Shows no mesh. */
  clear() {
    this.shape = this.painter.points = null;
    this.draw();
  }

  /**
   * Walks are `{edges, width, isDim, isPicked, isPlain, isHidden}`: walk k has the style k, or the ink of a mark where
   * it is plain.
   */
  setWalks(walks) {
    this.walks = walks;
    this.setLines();
  }

  /** Colours faces by values, as scene.js has them, or by none. */
  setValues(values) {
    this.painter.setValues(values, this.shape);
    this.draw();
  }

  /** Marks are `{faces, vertices, edges, isFault}`. */
  setMarks(marks) {
    this.marks = { ...NO_MARKS, ...marks };
    const wanted = new Set(this.marks.faces), list = [], { triangles, faces } = this.shape;
    if (wanted.size) {
      faces.forEach((face, k) => {
        if (wanted.has(face)) list.push(...triangles.subarray(3 * k, 3 * k + 3));
      });
    }
    this.painter.setMarked(Uint32Array.from(list), wanted);
    this.setLines();
  }

  /** Gives the painter all lines with their looks. A vertex is a line from it to itself. */
  setLines() {
    if (!this.shape) return;
    const { edges, vertices, isFault } = this.marks, colours = theme(), count = this.points.length / 3;
    const mark = { colour: isFault ? colours.fault : colours.mark, pattern: 0, isAhead: isFault };
    const lines = this.walks.map((walk, k) => {
      const look = walk.isPlain ? { colour: colours.mark, pattern: 1 } : styleOf(k);
      return { ...walk, ...look };
    });
    lines.push({ ...mark, edges: Uint32Array.from(edges), width: 5 });
    lines.push({ ...mark, edges: Uint32Array.from(vertices.flatMap((v) => [v, v])), width: 6.5 });
    this.painter.setLines(lines.filter((line) => !line.isHidden && line.edges.every((v) => v < count)));
    this.draw();
  }

  draw() {
    if (this.isAsked) return;
    this.isAsked = true;
    requestAnimationFrame(() => {
      this.isAsked = false;
      this.paint();
    });
  }

  paint() {
    const { canvas } = this, ratio = window.devicePixelRatio || 1, colours = theme();
    const width = Math.max(1, Math.round(canvas.clientWidth * ratio));
    const height = Math.max(1, Math.round(canvas.clientHeight * ratio));
    if (canvas.width !== width || canvas.height !== height) [canvas.width, canvas.height] = [width, height];
    this.painter.paint(this.camera, this.marks.isFault ? colours.fault : colours.walks[1], ratio);
  }

  /** The picture as a PNG. It is painted anew, since WebGL keeps no picture behind a frame. */
  picture() {
    this.paint();
    return new Promise((done) => this.canvas.toBlob(done, 'image/png'));
  }

  /** The vertex that a place of the picture shows: a corner of the nearest face there, or else one close by. */
  vertexAt(x, y) {
    if (!this.shape) return null;
    const seen = this.camera.seen(this.points, this.canvas.clientWidth, this.canvas.clientHeight);
    const face = this.faceAt(seen, x, y), far = (v) => Math.hypot(seen[3 * v] - x, seen[3 * v + 1] - y);
    if (face !== null) {
      const { starts, corners } = this.shape, around = corners.subarray(starts[face], starts[face + 1]);
      return around.reduce((best, v) => (far(v) < far(best) ? v : best));
    }
    let best = null;
    for (let v = 0; 3 * v < seen.length; v++) if (far(v) < (best === null ? NEAR : far(best))) best = v;
    return best;
  }

  /** The walk that a place of the picture shows: of those close by the one that is nearest to the eye, or none. */
  walkAt(x, y) {
    if (!this.shape) return null;
    const { clientWidth, clientHeight } = this.canvas;
    let nearest = Infinity, found = null;
    this.walks.forEach(({ edges, isHidden }, k) => {
      if (isHidden) return;
      const seen = this.camera.seenEnds(this.points, edges, clientWidth, clientHeight);
      for (let at = 0; at < seen.length; at += 6) {
        const far = Math.min(seen[at + 2], seen[at + 5]);
        if (far >= nearest) continue;
        if (fromSegment([seen[at], seen[at + 1]], [seen[at + 3], seen[at + 4]], x, y) > BESIDE) continue;
        [nearest, found] = [far, k];
      }
    });
    return found;
  }

  /** The nearest face at a place of the picture. */
  faceAt(seen, x, y) {
    const { triangles, faces } = this.shape;
    let nearest = Infinity, face = null;
    for (let k = 0; k < faces.length; k++) {
      const u = 3 * triangles[3 * k], v = 3 * triangles[3 * k + 1], w = 3 * triangles[3 * k + 2];
      const a = (seen[u] - x) * (seen[v + 1] - y) - (seen[v] - x) * (seen[u + 1] - y);
      const b = (seen[v] - x) * (seen[w + 1] - y) - (seen[w] - x) * (seen[v + 1] - y);
      const c = (seen[w] - x) * (seen[u + 1] - y) - (seen[u] - x) * (seen[w + 1] - y), whole = a + b + c;
      if (!whole || a * whole < 0 || b * whole < 0 || c * whole < 0) continue;
      const far = (a * seen[w + 2] + b * seen[u + 2] + c * seen[v + 2]) / whole;
      if (far < nearest) [nearest, face] = [far, faces[k]];
    }
    return face;
  }

  listen() {
    const { canvas } = this;
    this.fingers = new Map();
    canvas.addEventListener('pointerdown', (event) => {
      canvas.setPointerCapture(event.pointerId);
      this.fingers.set(event.pointerId, [event.clientX, event.clientY]);
      [this.moved, this.gap] = [0, 0];
    });
    canvas.addEventListener('pointermove', (event) => this.follow(event));
    canvas.addEventListener('pointerup', (event) => this.lift(event));
    canvas.addEventListener('pointercancel', (event) => this.fingers.delete(event.pointerId));
    canvas.addEventListener('pointerleave', () => this.hover?.(null));
    canvas.addEventListener('contextmenu', (event) => event.preventDefault());
    canvas.addEventListener('wheel', (event) => {
      event.preventDefault();
      this.change(() => this.camera.grow(Math.exp(-event.deltaY * 0.001)));
    }, { passive: false });
    canvas.addEventListener('keydown', (event) => this.press(event));
  }

  change(does) {
    does();
    this.draw();
  }

  /** A finger or the mouse moves: one turns or moves the picture, two make it greater. */
  follow(event) {
    const last = this.fingers.get(event.pointerId);
    if (!last) {
      if (event.pointerType === 'mouse') this.seek(event);
      return;
    }
    const dx = event.clientX - last[0], dy = event.clientY - last[1];
    this.moved += Math.abs(dx) + Math.abs(dy);
    this.fingers.set(event.pointerId, [event.clientX, event.clientY]);
    if (this.fingers.size === 2) this.pinch([...this.fingers.values()]);
    else if (event.shiftKey || event.buttons === 2) this.change(() => this.moveBy(dx, dy));
    else this.change(() => this.camera.rotate(-dx * 0.01, -dy * 0.01));
  }

  /** The mouse moves and turns nothing: tells which walk is under it, and where it is, once for each frame. */
  seek(event) {
    if (!this.hover) return;
    if (!this.sought) requestAnimationFrame(() => this.tellSought());
    this.sought = event;
  }

  tellSought() {
    const box = this.canvas.getBoundingClientRect(), x = this.sought.clientX - box.left;
    const y = this.sought.clientY - box.top;
    this.sought = null;
    this.hover(this.walkAt(x, y), x, y);
  }

  pinch([a, b]) {
    const gap = Math.hypot(a[0] - b[0], a[1] - b[1]);
    if (this.gap) this.change(() => this.camera.grow(gap / this.gap));
    this.gap = gap;
  }

  moveBy(dx, dy) {
    this.camera.move((2 * dx) / this.canvas.clientWidth, (-2 * dy) / this.canvas.clientHeight);
  }

  /** A finger or the mouse is lifted; where it hardly moved, that was a click. */
  lift(event) {
    if (!this.fingers.delete(event.pointerId) || this.moved >= 5 || !this.pick) return;
    const box = this.canvas.getBoundingClientRect();
    const vertex = this.vertexAt(event.clientX - box.left, event.clientY - box.top);
    if (vertex !== null) this.pick(vertex);
  }

  press(event) {
    const step = KEYS[event.key];
    if (step && event.shiftKey) this.change(() => this.moveBy(-40 * step[0], -40 * step[1]));
    else if (step) this.change(() => this.camera.rotate(0.1 * step[0], 0.1 * step[1]));
    else if (event.key === '+' || event.key === '=') this.change(() => this.camera.grow(1.1));
    else if (event.key === '-') this.change(() => this.camera.grow(1 / 1.1));
    else if (event.key === '0') this.change(() => this.camera.reset());
    else return;
    event.preventDefault();
  }
}
