// From where a mesh of radius 1 about the middle is seen.

const FAR = 3.2, NEAR_PLANE = 0.5, FAR_PLANE = 8;

export class Camera {
  constructor() {
    this.home = [0.5, -0.45];
    this.reset();
  }

  /** Goes back to where the mesh is seen from at first. */
  reset() {
    this.turn = this.home;
    this.zoom = 1;
    this.shift = [0, 0];
  }

  grow(share) {
    this.zoom = Math.max(0.2, Math.min(60, this.zoom * share));
  }

  /** Turns about the upright axis, and tilts, by radians. */
  rotate(about, up) {
    this.turn = [this.turn[0] + about, Math.max(-1.57, Math.min(1.57, this.turn[1] + up))];
  }

  /** Moves by shares of the picture's half. */
  move(right, up) {
    this.shift = [this.shift[0] + right, this.shift[1] + up];
  }

  /** How many pixels long a length of 1 is that lies across, in a picture of this size. */
  pixels(width, height) {
    return (0.875 * this.zoom * Math.min(width, height)) / 2;
  }

  /** The turning alone, and the whole way from a place of the mesh to a picture of this shape; column by column. */
  matrices(width, height) {
    const [a, b] = this.turn, ca = Math.cos(a), sa = Math.sin(a), cb = Math.cos(b), sb = Math.sin(b);
    const turn = [ca, sa * sb, sa * cb, 0, 0, cb, -sb, 0, -sa, ca * sb, ca * cb, 0, 0, 0, 0, 1];
    const scale = 0.875 * this.zoom * FAR, whole = new Float32Array(16);
    const sx = scale * Math.min(1, height / width), sy = scale * Math.min(1, width / height);
    for (let c = 0; c < 4; c++) {
      const [x, y, z] = [turn[4 * c], turn[4 * c + 1], turn[4 * c + 2] - (c === 3 ? FAR : 0)];
      whole[4 * c] = sx * x - this.shift[0] * z;
      whole[4 * c + 1] = sy * y - this.shift[1] * z;
      whole[4 * c + 2] = ((FAR_PLANE + NEAR_PLANE) / (NEAR_PLANE - FAR_PLANE)) * z;
      if (c === 3) whole[14] += (2 * FAR_PLANE * NEAR_PLANE) / (NEAR_PLANE - FAR_PLANE);
      whole[4 * c + 3] = -z;
    }
    return { turn: new Float32Array(turn), whole };
  }

  /** Where each point is in a picture of this size, and how far away: three numbers each. */
  seen(points, width, height) {
    const { whole } = this.matrices(width, height), seen = new Float32Array(points.length);
    for (let k = 0; k < points.length; k += 3) {
      const x = points[k], y = points[k + 1], z = points[k + 2];
      const row = (r) => whole[r] * x + whole[4 + r] * y + whole[8 + r] * z + whole[12 + r], far = row(3);
      seen[k] = (row(0) / far / 2 + 0.5) * width;
      seen[k + 1] = (0.5 - row(1) / far / 2) * height;
      seen[k + 2] = far;
    }
    return seen;
  }

  /** Where the ends of edges are, as `seen` has it: end k of them in the place k. */
  seenEnds(points, edges, width, height) {
    const ends = new Float32Array(3 * edges.length);
    edges.forEach((v, k) => ends.set(points.subarray(3 * v, 3 * v + 3), 3 * k));
    return this.seen(ends, width, height);
  }
}
