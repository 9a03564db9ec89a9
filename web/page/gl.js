// Paints a mesh and what is on it by WebGL 2.
import { PATTERNS, seenThrough, shares, theme, valueColour } from './paint.js';

const SOLID = [`#version 300 es
  in vec3 at; in float part; uniform mat4 turn, whole; out vec3 p; out float value;
  void main() { p = (turn * vec4(at, 1.0)).xyz; value = part; gl_Position = whole * vec4(at, 1.0); }`,
`#version 300 es
  precision highp float; in vec3 p; in float value; uniform vec3 colour, most; out vec4 o;
  void main() {
    vec3 n = normalize(cross(dFdx(p), dFdy(p)));
    o = vec4(mix(colour, most, value) * (0.58 + 0.36 * abs(n.z) + 0.06 * n.y), 1.0);
  }`];

const THIN = [`#version 300 es
  in vec3 at; uniform mat4 whole; void main() { gl_Position = whole * vec4(at, 1.0); }`,
`#version 300 es
  precision highp float; uniform vec4 colour; out vec4 o; void main() { o = colour; }`];

// A segment is a rectangle about its two ends, so many pixels wide, with round ends, and a bit nearer than it is.
const THICK = [`#version 300 es
  in vec2 side; in vec3 from, to; in vec2 along; uniform mat4 whole; uniform vec2 size; uniform float width;
  out vec2 p; out float far; out vec2 run;
  void main() {
    vec4 a = whole * vec4(from, 1.0), b = whole * vec4(to, 1.0), c = side.x < 0.0 ? a : b;
    vec2 u = (b.xy / b.w - a.xy / a.w) * size * 0.5; far = length(u); run = along;
    vec2 d = far > 1e-4 ? u / far : vec2(1.0, 0.0), s = vec2(-d.y, d.x);
    p = vec2(side.x < 0.0 ? -width : far + width, side.y * width);
    c.xy += (d * side.x + s * side.y) * width / size * 2.0 * c.w;
    c.z -= 0.003 * c.w; gl_Position = c;
  }`,
`#version 300 es
  precision highp float; uniform vec4 colour; uniform vec3 faint, stops; uniform float width, edge;
  in vec2 p; in float far; in vec2 run; out vec4 o;
  void main() {
    float x = clamp(p.x, 0.0, far), r = length(vec2(p.x - x, p.y));
    float a = 1.0 - smoothstep(width - 1.2, width, r);
    if (a <= 0.0) discard;
    float t = fract(mix(run.x, run.y, far > 0.0 ? x / far : 0.0) / 0.07);
    bool full = t < stops.x || (t >= stops.y && t < stops.z);
    vec3 inner = full ? colour.rgb : faint;
    o = vec4(mix(inner, faint, smoothstep(width - edge - 0.6, width - edge + 0.6, r)), colour.a * a);
  }`];

function compiled(gl, [vertex, fragment]) {
  const program = gl.createProgram();
  for (const [kind, text] of [[gl.VERTEX_SHADER, vertex], [gl.FRAGMENT_SHADER, fragment]]) {
    const shader = gl.createShader(kind);
    gl.shaderSource(shader, text);
    gl.compileShader(shader);
    if (!gl.getShaderParameter(shader, gl.COMPILE_STATUS)) throw new Error(gl.getShaderInfoLog(shader));
    gl.attachShader(program, shader);
  }
  gl.linkProgram(program);
  return program;
}

/** So many edges of one line are painted wide; more are painted as thin lines, for the sake of speed. */
const MOST_WIDE = 100000;

/** Edges of the mesh that are shorter in pixels are left out: they would only darken the faces, and take most time. */
const LEAST_EDGE = 2.5;

/** The mean length of edges, by some thousand of them. */
function meanEdge(points, edges) {
  const skip = 2 * Math.max(1, Math.floor(edges.length / 2000));
  let sum = 0, count = 0;
  for (let k = 0; k + 1 < edges.length; k += skip, count++) {
    const u = 3 * edges[k], v = 3 * edges[k + 1];
    sum += Math.hypot(points[u] - points[v], points[u + 1] - points[v + 1], points[u + 2] - points[v + 2]);
  }
  return count ? sum / count : 0;
}

export class GlPainter {
  /** @param {WebGL2RenderingContext} gl */
  constructor(gl) {
    this.gl = gl;
    this.programs = { solid: compiled(gl, SOLID), thin: compiled(gl, THIN), thick: compiled(gl, THICK) };
    const names = ['points', 'triangles', 'edges', 'side', 'marked', 'apart', 'parts'];
    this.buffers = Object.fromEntries(names.map((name) => [name, gl.createBuffer()]));
    this.fill('side', new Float32Array([-1, -1, 1, -1, 1, 1, -1, -1, 1, 1, -1, 1]));
    this.lines = [];
    this.values = null;
  }

  fill(name, list, kind = this.gl.ARRAY_BUFFER) {
    this.gl.bindBuffer(kind, this.buffers[name]);
    this.gl.bufferData(kind, list, this.gl.STATIC_DRAW);
  }

  show({ triangles, edges }, points) {
    this.points = points;
    this.sizes = { triangles: triangles.length, edges: edges.length, marked: 0 };
    this.values = null;
    this.edge = meanEdge(points, edges);
    this.fill('points', points);
    this.fill('triangles', triangles, this.gl.ELEMENT_ARRAY_BUFFER);
    this.fill('edges', edges, this.gl.ELEMENT_ARRAY_BUFFER);
  }

  /** Takes lines with their looks. The buffers of edges that were here before are kept. */
  setLines(lines) {
    const before = new Map(this.lines.map((line) => [line.edges, line]));
    this.lines = lines.map((line) => {
      const { edges } = line, isThin = edges.length / 2 > MOST_WIDE, old = before.get(edges);
      before.delete(edges);
      const { buffer, count } = old || (isThin ? this.ends(edges) : this.segments(edges));
      return { ...line, isThin, buffer, count };
    });
    for (const { buffer } of before.values()) this.gl.deleteBuffer(buffer);
  }

  /** Colours faces by values: each vertex has one, or each face; or by none. Faces with values have own corners. */
  setValues(values, { triangles, faces }) {
    this.values = values;
    if (!values) return;
    const parts = values.isOfFaces ? Float32Array.from(triangles, (_, k) => values.parts[faces[Math.floor(k / 3)]])
      : values.parts;
    this.fill('parts', parts);
    if (!values.isOfFaces) return;
    const apart = new Float32Array(3 * triangles.length), { points } = this;
    triangles.forEach((v, k) => apart.set(points.subarray(3 * v, 3 * v + 3), 3 * k));
    this.fill('apart', apart);
  }

  setMarked(triangles) {
    this.sizes.marked = triangles.length;
    this.fill('marked', triangles, this.gl.ELEMENT_ARRAY_BUFFER);
  }

  /** A buffer with the vertices of all edges. */
  ends(edges) {
    const { gl } = this, buffer = gl.createBuffer();
    gl.bindBuffer(gl.ELEMENT_ARRAY_BUFFER, buffer);
    gl.bufferData(gl.ELEMENT_ARRAY_BUFFER, edges, gl.STATIC_DRAW);
    return { buffer, count: edges.length };
  }

  /** A buffer with both ends of each edge, and how far along the walk these are. */
  segments(edges) {
    const { gl, points } = this, count = edges.length / 2, list = new Float32Array(8 * count);
    let far = 0;
    for (let k = 0; k < count; k++) {
      const u = 3 * edges[2 * k], v = 3 * edges[2 * k + 1];
      const step = Math.hypot(points[u] - points[v], points[u + 1] - points[v + 1], points[u + 2] - points[v + 2]);
      for (let c = 0; c < 3; c++) {
        list[8 * k + c] = points[u + c];
        list[8 * k + 3 + c] = points[v + c];
      }
      list[8 * k + 6] = far;
      list[8 * k + 7] = far + step;
      far = (far + step) % 70; // a whole number of periods, so that the pattern goes on
    }
    const buffer = gl.createBuffer();
    gl.bindBuffer(gl.ARRAY_BUFFER, buffer);
    gl.bufferData(gl.ARRAY_BUFFER, list, gl.STATIC_DRAW);
    return { buffer, count };
  }

  /** Takes a program and gives it values. An array that is on over a buffer that is gone would stop all drawing. */
  use(name, values) {
    const { gl } = this, program = this.programs[name];
    for (let k = 0; k < 5; k++) gl.disableVertexAttribArray(k);
    gl.useProgram(program);
    for (const [word, value] of Object.entries(values)) {
      const at = gl.getUniformLocation(program, word);
      if (word === 'turn' || word === 'whole') gl.uniformMatrix4fv(at, false, value);
      else if (value.length) gl[`uniform${value.length}fv`](at, value);
      else gl.uniform1f(at, value);
    }
    return program;
  }

  attribute(program, name, buffer, [size, stride, from, each]) {
    const { gl } = this, at = gl.getAttribLocation(program, name);
    gl.bindBuffer(gl.ARRAY_BUFFER, buffer);
    gl.enableVertexAttribArray(at);
    gl.vertexAttribPointer(at, size, gl.FLOAT, false, stride, from);
    gl.vertexAttribDivisor(at, each);
  }

  /** Paints the picture. Pixels of the screen are `ratio` pixels of the canvas. */
  paint(camera, tint, ratio) {
    const { gl } = this, { width, height } = gl.canvas, colours = theme();
    gl.viewport(0, 0, width, height);
    gl.clearColor(...shares(colours.ground), 1);
    gl.clear(gl.COLOR_BUFFER_BIT | gl.DEPTH_BUFFER_BIT);
    if (!this.points) return;
    const { turn, whole } = camera.matrices(width, height);
    gl.enable(gl.DEPTH_TEST);
    gl.depthFunc(gl.LEQUAL);
    gl.enable(gl.BLEND);
    gl.blendFunc(gl.SRC_ALPHA, gl.ONE_MINUS_SRC_ALPHA);
    gl.enable(gl.POLYGON_OFFSET_FILL);
    gl.polygonOffset(1, 1);
    if (this.values) this.paintValues({ turn, whole, colour: shares(valueColour(0)), most: shares(valueColour(1)) });
    else this.paintFaces('triangles', { turn, whole, colour: shares(colours.face) });
    gl.polygonOffset(0, 0);
    this.paintFaces('marked', { turn, whole, colour: shares(tint) });
    gl.disable(gl.POLYGON_OFFSET_FILL);
    if (this.edge * camera.pixels(width, height) > LEAST_EDGE * ratio) {
      this.paintWires(whole, this.buffers.edges, this.sizes.edges, [...shares(colours.wire), this.faintness()]);
    }
    this.paintLines(whole, colours.faint, ratio);
  }

  paintValues(given) {
    const { gl } = this, { isOfFaces } = this.values, program = this.use('solid', given);
    this.attribute(program, 'at', isOfFaces ? this.buffers.apart : this.buffers.points, [3, 0, 0, 0]);
    this.attribute(program, 'part', this.buffers.parts, [1, 0, 0, 0]);
    if (isOfFaces) gl.drawArrays(gl.TRIANGLES, 0, this.sizes.triangles);
    else {
      gl.bindBuffer(gl.ELEMENT_ARRAY_BUFFER, this.buffers.triangles);
      gl.drawElements(gl.TRIANGLES, this.sizes.triangles, gl.UNSIGNED_INT, 0);
    }
  }

  paintFaces(name, values) {
    if (!this.sizes[name]) return;
    const { gl } = this, program = this.use('solid', values);
    this.attribute(program, 'at', this.buffers.points, [3, 0, 0, 0]);
    gl.bindBuffer(gl.ELEMENT_ARRAY_BUFFER, this.buffers[name]);
    gl.drawElements(gl.TRIANGLES, this.sizes[name], gl.UNSIGNED_INT, 0);
  }

  /** How faint the edges of the mesh are: the fainter the more there are. */
  faintness() {
    if (this.sizes.edges > 400000) return 0.05;
    return this.sizes.edges > 40000 ? 0.12 : 0.3;
  }

  paintWires(whole, buffer, size, colour) {
    const { gl } = this, program = this.use('thin', { whole, colour });
    this.attribute(program, 'at', this.buffers.points, [3, 0, 0, 0]);
    gl.bindBuffer(gl.ELEMENT_ARRAY_BUFFER, buffer);
    gl.drawElements(gl.LINES, size, gl.UNSIGNED_INT, 0);
  }

  /** Walks and marks; what is behind the surface shines through faintly, or fully where it is to stand ahead. */
  paintLines(whole, faint, ratio) {
    const { gl } = this, size = [gl.canvas.width, gl.canvas.height];
    const both = { whole, size, faint: shares(faint), edge: 1.2 * ratio }, through = seenThrough(this.lines.length);
    gl.depthMask(false);
    for (const isBehind of [true, false]) {
      if (isBehind) gl.disable(gl.DEPTH_TEST);
      else gl.enable(gl.DEPTH_TEST);
      for (const line of this.lines) {
        if (!line.count) continue;
        const [a, b = 2, c = 2] = PATTERNS[line.pattern];
        const behind = line.isAhead ? 1 : line.isPicked ? 0.5 : through;
        const alpha = (isBehind ? behind : 1) * (line.isDim ? 0.2 : 1);
        const colour = [...shares(line.colour), alpha], own = { colour, stops: [a, b, c], width: line.width * ratio };
        if (line.isThin) this.paintWires(whole, line.buffer, line.count, colour);
        else this.paintSegments(line, this.use('thick', { ...both, ...own }));
      }
    }
    gl.depthMask(true);
  }

  paintSegments({ buffer, count }, program) {
    this.attribute(program, 'side', this.buffers.side, [2, 0, 0, 0]);
    this.attribute(program, 'from', buffer, [3, 32, 0, 1]);
    this.attribute(program, 'to', buffer, [3, 32, 12, 1]);
    this.attribute(program, 'along', buffer, [2, 32, 24, 1]);
    this.gl.drawArraysInstanced(this.gl.TRIANGLES, 0, 6, count);
  }
}
