// Draws the disc of a cut in the plane.
import { onTheme, theme } from './paint.js';

export class Flat {
  /** @param {HTMLCanvasElement} canvas */
  constructor(canvas) {
    this.canvas = canvas;
    this.context = canvas.getContext('2d');
    this.disc = null;
    new ResizeObserver(() => this.draw()).observe(canvas);
    onTheme(() => this.draw());
  }

  /** Shows a disc: its places in the plane, triangles, edges, and its border as one round; or nothing. */
  show(disc) {
    this.disc = disc;
    this.draw();
  }

  draw() {
    requestAnimationFrame(() => this.paint());
  }

  paint() {
    const { canvas, context, disc } = this, ratio = window.devicePixelRatio || 1, colours = theme();
    canvas.width = Math.max(1, Math.round(canvas.clientWidth * ratio));
    canvas.height = Math.max(1, Math.round(canvas.clientHeight * ratio));
    context.fillStyle = colours.ground;
    context.fillRect(0, 0, canvas.width, canvas.height);
    if (!disc) return;
    const size = 0.46 * Math.min(canvas.width, canvas.height), { places, edges, round } = disc;
    const x = (v) => canvas.width / 2 + size * places[2 * v], y = (v) => canvas.height / 2 - size * places[2 * v + 1];
    const outline = () => {
      context.beginPath();
      for (const v of round) context.lineTo(x(v), y(v));
      context.closePath();
    };
    outline();
    context.fillStyle = colours.face;
    context.fill();
    context.beginPath();
    for (let k = 0; k < edges.length; k += 2) {
      context.moveTo(x(edges[k]), y(edges[k]));
      context.lineTo(x(edges[k + 1]), y(edges[k + 1]));
    }
    context.strokeStyle = colours.wire;
    context.globalAlpha = edges.length > 60000 ? 0.15 : 0.45;
    context.lineWidth = 0.7 * ratio;
    context.stroke();
    context.globalAlpha = 1;
    outline();
    context.strokeStyle = colours.walks[0];
    context.lineWidth = 3 * ratio;
    context.stroke();
  }
}
