// Paints a mesh and what is on it without WebGL: triangles and edges from the farthest to the nearest.
import { PATTERNS, seenThrough, shares, theme, valueColour } from './paint.js';

/** A colour in so much light, as a canvas takes it. */
const lit = (colour, light) => `rgb(${shares(colour).map((x) => Math.round(255 * x * light))})`;

const MOST_WITH_EDGES = 30000;

export class PlainPainter {
  /** @param {CanvasRenderingContext2D} context */
  constructor(context) {
    this.context = context;
    this.lines = [];
    this.marked = new Set();
    this.values = null;
  }

  show(shape, points) {
    this.shape = shape;
    this.points = points;
    this.values = null;
  }

  setLines(lines) {
    this.lines = lines;
  }

  setMarked(triangles, faces) {
    this.marked = faces;
  }

  /** Colours faces by values: each vertex has one, or each face; or by none. */
  setValues(values) {
    this.values = values;
  }

  /** The colour of a triangle that isn't marked. */
  colourOf({ u, v, w, face }, colours) {
    if (!this.values) return colours.face;
    const { parts, isOfFaces } = this.values;
    return valueColour(isOfFaces ? parts[face] : (parts[u] + parts[v] + parts[w]) / 3);
  }

  /** Paints the picture. Pixels of the screen are `ratio` pixels of the canvas. */
  paint(camera, tint, ratio) {
    const { context } = this, { width, height } = context.canvas, colours = theme();
    context.fillStyle = colours.ground;
    context.fillRect(0, 0, width, height);
    if (!this.points) return;
    const seen = camera.seen(this.points, width, height), { turn } = camera.matrices(width, height);
    const segments = this.segments(seen), items = [...this.triangles(seen), ...segments];
    items.sort((a, b) => b.far - a.far);
    context.lineCap = context.lineJoin = 'round';
    for (const item of items) {
      if (item.line) this.paintSegment(item, seen, ratio, 1);
      else {
        const edge = items.length > MOST_WITH_EDGES ? null : `${colours.wire}4d`;
        const colour = this.marked.has(item.face) ? tint : this.colourOf(item, colours);
        this.paintTriangle(item, seen, { turn, colour, edge });
      }
    }
    const through = seenThrough(this.lines.length);
    for (const item of segments) {
      const { isAhead, isPicked } = item.line;
      this.paintSegment(item, seen, ratio, isAhead ? 1 : isPicked ? 0.5 : through);
    }
  }

  triangles(seen) {
    const { triangles, faces } = this.shape, list = [];
    faces.forEach((face, k) => {
      const [u, v, w] = triangles.subarray(3 * k, 3 * k + 3);
      const far = (seen[3 * u + 2] + seen[3 * v + 2] + seen[3 * w + 2]) / 3;
      list.push({ u, v, w, far, face });
    });
    return list;
  }

  segments(seen) {
    const list = [];
    for (const line of this.lines) {
      for (let k = 0; k < line.edges.length; k += 2) {
        const u = line.edges[k], v = line.edges[k + 1];
        list.push({ u, v, line, far: (seen[3 * u + 2] + seen[3 * v + 2]) / 2 - 0.06 });
      }
    }
    return list;
  }

  paintSegment({ u, v, line }, seen, ratio, share) {
    const { context } = this, [full] = PATTERNS[line.pattern], period = 14 * ratio;
    context.globalAlpha = share * (line.isDim ? 0.2 : 1);
    context.strokeStyle = line.colour;
    context.lineWidth = 1.6 * line.width * ratio;
    context.setLineDash(full < 1 ? [full * period, (1 - full) * period + context.lineWidth] : []);
    context.beginPath();
    context.moveTo(seen[3 * u], seen[3 * u + 1]);
    context.lineTo(seen[3 * v] + (u === v ? 0.01 : 0), seen[3 * v + 1]);
    context.stroke();
    context.setLineDash([]);
    context.globalAlpha = 1;
  }

  paintTriangle({ u, v, w }, seen, { turn, colour, edge }) {
    const { context, points } = this, from = (k) => [0, 1, 2].map((c) => points[3 * k + c] - points[3 * u + c]);
    const a = from(v), b = from(w);
    const n = [a[1] * b[2] - a[2] * b[1], a[2] * b[0] - a[0] * b[2], a[0] * b[1] - a[1] * b[0]];
    const facing = Math.abs(turn[2] * n[0] + turn[6] * n[1] + turn[10] * n[2]) / (Math.hypot(...n) || 1);
    context.fillStyle = lit(colour, 0.58 + 0.36 * facing);
    context.strokeStyle = edge || context.fillStyle;
    context.lineWidth = 0.7;
    context.beginPath();
    for (const k of [u, v, w]) context.lineTo(seen[3 * k], seen[3 * k + 1]);
    context.closePath();
    context.fill();
    context.stroke();
  }
}
