// What the page draws of a mesh: triangles, edges, and how long the longest edge is.
import { eachFace, matesOf } from './mend.js';

/** Whether all corners of a face are vertices, so that it can be drawn. */
const canBeDrawn = ({ corners }, from, to, count) => {
  if (to - from < 3) return false;
  for (let k = from; k < to; k++) if (corners[k] >= count) return false;
  return true;
};

/** The triangles of the mesh, three vertices each, a fan for a longer face; and of which face each is. */
export function trianglesOf(mesh) {
  const count = mesh.points.length / 3, most = Math.max(0, mesh.corners.length - 2 * (mesh.starts.length - 1));
  const triangles = new Uint32Array(3 * most), faces = new Uint32Array(most);
  let size = 0;
  eachFace(mesh, (from, to, face) => {
    if (!canBeDrawn(mesh, from, to, count)) return;
    for (let k = from + 2; k < to && size < most; k++) {
      triangles[3 * size] = mesh.corners[from];
      triangles[3 * size + 1] = mesh.corners[k - 1];
      triangles[3 * size + 2] = mesh.corners[k];
      faces[size++] = face;
    }
  });
  return { triangles: triangles.slice(0, 3 * size), faces: faces.slice(0, size) };
}

/** The length of the longest edge by the coordinates. */
export function longestEdge(points, edges) {
  let most = 0;
  for (let k = 0; k < edges.length; k += 2) {
    const u = 3 * edges[k], v = 3 * edges[k + 1];
    if (u >= points.length || v >= points.length) continue;
    const far = Math.hypot(points[u] - points[v], points[u + 1] - points[v + 1], points[u + 2] - points[v + 2]);
    if (far > most) most = far;
  }
  return most;
}

/** Points for drawing, in half the room; what is no number stands at 0. */
function drawn(points) {
  const list = Float32Array.from(points);
  for (let k = 0; k < list.length; k++) if (!Number.isFinite(list[k])) list[k] = 0;
  return list;
}

/** What the page is given of a mesh. */
export function shapeOf(mesh) {
  const count = mesh.points.length / 3, { triangles, faces } = trianglesOf(mesh);
  const good = mesh.corners.every((v) => v < count), edges = good ? matesOf(mesh).edges : new Uint32Array(0);
  const { starts, corners, names } = mesh;
  return {
    points: drawn(mesh.points),
    triangles, faces, edges,
    names: names && names.slice(),
    starts: starts.slice(), corners: corners.slice(),
    longest: longestEdge(mesh.points, edges),
  };
}
